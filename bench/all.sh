#!/usr/bin/env bash
# Measures what docs/SPEED.md has figures of, one after the other, and keeps what each says. (bench/programs.py compares programs: run it by hand.)
#
# usage: bench/all.sh FOLDER
#
# FOLDER/NAME.txt is what a measurement said, FOLDER/machine.txt the machine and the commit. The programs are those that are built. The last line
# says how many measurements ended well; the status is 1 if one did not. It takes about an hour, on a machine that does nothing else.
set -uo pipefail
folder=${1:?"usage: bench/all.sh FOLDER"}
mkdir -p "$folder" && folder=$(realpath "$folder") || exit 1
cd "$(dirname "$0")/.." || exit 1
{
    date --iso-8601=seconds
    git rev-parse HEAD
    lscpu | grep -E '^(Model name|CPU\(s\)|CPU MHz|L2 cache)'
    free --mega | sed -n 2p
} >"$folder/machine.txt" 2>&1

good=0
bad=0
# Runs a command, and keeps what it says under a name.
measure() {
    local name=$1
    shift
    echo "== $*" >&2
    if "$@" >"$folder/$name.txt" 2>&1; then
        good=$((good + 1))
    else
        bad=$((bad + 1))
        echo "$name: it failed; $folder/$name.txt has what it said" >&2
    fi
}

for subject in spans edits scenes painting seats versions; do
    measure "$subject" bench/time.sh "$subject"
done
for script in requests documents exports serve kept kept_edits viewer live; do
    measure "$script" "bench/$script.py"
done
echo "$good measured, $bad failed"
[ "$bad" = 0 ]
