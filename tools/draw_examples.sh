#!/usr/bin/env bash
# Draws the pictures of docs/pictures again: each drawing of examples/ by the program, its tile as PNG. The environment's CANVAS names another program.
# Needs pnmtopng of Debian's package netpbm.
set -euo pipefail
top=$(cd "$(dirname "$0")/.." && pwd)
command -v pnmtopng >/dev/null || { echo "pnmtopng is missing: apt-get install netpbm" >&2; exit 1; }
folder=$(mktemp -d)
trap 'rm -rf "$folder"' EXIT
mkdir -p "$top/docs/pictures"
for drawing in poster chart pattern parts; do
    "$top/bin/canvas-client" --bodies "$folder/$drawing" <"$top/examples/$drawing.jsonl" >/dev/null
    pnmtopng "$folder/$drawing"/*.ppm >"$top/docs/pictures/$drawing.png" 2>/dev/null
    echo "docs/pictures/$drawing.png"
done
