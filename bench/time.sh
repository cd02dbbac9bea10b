#!/usr/bin/env bash
# Times a part of the product: builds crates/bench, which proves it, and runs it.
#
# usage: bench/time.sh spans|edits|scenes|painting|saving|seats|versions
#
# crates/bench/README.md tells what each of them times. `saving` reads a saved document from standard input (bench/documents.py
# gives it ones of 4,096 and of 16,384 records). Run it a few times on a machine that has other work, and take the least.
set -euo pipefail
subject=${1:?"usage: bench/time.sh spans|edits|scenes|painting|saving|seats|versions"}
cd "$(dirname "$0")/../crates/bench"
log=$(mktemp)
trap 'rm -f "$log"' EXIT
if ! rt run >"$log" 2>&1 </dev/null; then
    tail -n 20 "$log" >&2
    exit 1
fi
uptime >&2
exec ./out/bench "$subject"
