#!/usr/bin/env bash
# What contributors do most, by one word.
#
# usage: ./do docs | test | prove CRATE | wrong CRATE [EDIT..] | demo | bench SUBJECT | bench all FOLDER
#
#   docs    the pages, the lists of wrong bodies and the scripts agree with the sources
#   test    the quick tests, on the programs that are built (tests/README.md)
#   prove   checks a crate, with its tests if it has some
#   wrong   tries wrong bodies of a crate
#   demo    the page to draw on
#   bench   times a part of the product (bench/time.sh), or `all FOLDER` of it (bench/all.sh)
set -euo pipefail
cd "$(dirname "$0")"
usage() {
    sed -n 's/^# usage: /usage: /p' "$0" >&2
    exit 2
}
word=${1-}
shift || usage
case $word in
docs) /usr/bin/python3 -m pytest tests/docs ;;
test) /usr/bin/python3 -m pytest tests -m quick "$@" ;;
prove)
    cd "crates/${1:?"which crate?"}"
    rt check && if [[ $1 = *_tests ]]; then rt test; fi
    ;;
wrong) tools/try_wrong_bodies.py "${1:?"of which crate?"}" "${@:2}" ;;
demo) bin/canvas-demo "$@" ;;
bench)
    case ${1:?"which subject?"} in
    all) bench/all.sh "${2:?"which folder?"}" ;;
    *) bench/time.sh "$1" ;;
    esac
    ;;
*) usage ;;
esac
