#!/usr/bin/env bash
# usage: tools/made_from.sh PROGRAM [FILE]
# Prints two lines: a checksum of the built program, which FILE in its crate's out/ is, and one of what it is made from, which is
# crates.txt and each file in src, specs and proofs of each crate, by its name and its bytes.
cd "$(dirname "$(readlink -f "${BASH_SOURCE[0]}")")/.." || exit
sha256sum <"crates/$1/out/${2-$1}" || echo none
find crates/*/src crates/*/specs crates/*/proofs crates.txt -type f -print0 | LC_ALL=C sort -z | xargs -0 sha256sum | sha256sum
