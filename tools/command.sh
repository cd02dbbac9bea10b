#!/bin/sh
# Runs a command of the package in python/ with the words behind its name: for canvas-backup it runs `python3 -m canvas.backup`.
name=$1
shift
top=$(dirname "$(dirname "$(readlink -f "$0")")")
python=/usr/bin/python3 # where Debian's packages are, as python3-aiohttp
[ -x "$python" ] || python=python3
command -v "$python" >/dev/null || {
    echo "$name: there is no python3, which \`apt install python3\` installs, as root" >&2
    exit 1
}
case $name in
canvas-client) module=canvas ;;
*) module=canvas.${name#canvas-} ;;
esac
export PYTHONSAFEPATH=1 PYTHONPATH="$top/python${PYTHONPATH:+:$PYTHONPATH}"
exec "$python" -m "$module" "$@"
