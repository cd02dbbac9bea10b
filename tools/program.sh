# Sourced by bin/canvas and bin/canvasd, which set `name`: runs the program of that name. Builds it first where it is missing or was made from other
# sources; building proves it.
# shellcheck shell=bash
set -u

top=$(cd "$(dirname "$(readlink -f "${BASH_SOURCE[0]}")")/.." && pwd)
if [ -d "$top/crates" ]; then
    program=$top/crates/${name:?}/out/$name
else
    program=$top/libexec/$name # an unpacked release
fi
made_from=$program.made-from

help() {
    local text
    text=$(<"$top/tools/$name.help")
    printf '%s\n' "${text/VERSION/$(<"$top/VERSION")}"
}

is_newer() {
    [ -z "$(find "$top"/crates/*/src "$top"/crates/*/specs "$top"/crates/*/proofs "$top/crates.txt" \
        -newer "$program" -print -quit 2>/dev/null)" ]
}

# Whether the program was made from the sources as they are, by the checksums beside it. Where these are of another program, `rt` built this
# one by itself: it counts where no source is newer, and gets its checksums then.
is_current() {
    local now kept
    [ -x "$program" ] || return
    [ -d "$top/crates" ] || return 0
    now=$("$top/tools/made_from.sh" "$name" 2>/dev/null)
    kept=$(cat "$made_from" 2>/dev/null)
    [ -n "$kept" ] && [ "$now" = "$kept" ] && return
    [ "${now%%$'\n'*}" != "${kept%%$'\n'*}" ] && is_newer || return
    (printf '%s\n' "$now" >"$made_from.$$" && mv "$made_from.$$" "$made_from") 2>/dev/null
    return 0
}

has_toolchain() {
    command -v rt >/dev/null && return
    echo "$name: to build the program takes the command rt of the Rattle toolchain, which is not on the path (docs/INSTALL.md)" >&2
    return 1
}

has_sources() {
    [ -d "$top/crates" ] && return
    echo "$name: $1, and there are no sources here (docs/INSTALL.md)" >&2
    return 1
}

# Runs a program of the same sources with nothing proved, which is built where it is missing or was made from others.
run_unproved() {
    local file=$name-unproved
    has_sources "--unproved builds the program" || exit 4
    if [ "$("$top/tools/made_from.sh" "$name" "$file" 2>/dev/null)" != "$(cat "$program-unproved.made-from" 2>/dev/null)" ]; then
        has_toolchain || exit 4
        "$top/tools/build_unproved.py" "$name" || exit 4
    fi
    echo "$name: nothing is proved in this run; the program was compiled with checks of its memory" >&2
    exec "$program-unproved" "$@"
}

# Takes the built libraries of a release; then the program is built over them.
take_libraries() {
    [ $# = 1 ] || { echo "$name: --libraries takes the file of a release's libraries (docs/INSTALL.md)" >&2 && exit 2; }
    has_sources "--libraries builds the program" || exit 4
    has_toolchain || exit 4
    "$top/tools/libraries.py" take "$1" || exit 4
}

# Ends where the words ask for help, for the version, for libraries, or for a run with nothing proved.
answer_first() {
    case ${1-} in
    --help | -h)
        help
        exit
        ;;
    --version)
        echo "$name $(<"$top/VERSION")"
        exit
        ;;
    --unproved)
        shift
        run_unproved "$@"
        ;;
    --libraries)
        shift
        take_libraries "$@"
        is_current || exec python3 "$top/tools/build_program.py" "$name"
        exit
        ;;
    esac
}

# Runs the program in the place of the script.
run() {
    is_current && exec "$program" "$@"
    has_sources "$program is missing" || exit 4
    has_toolchain || exit 4
    exec python3 "$top/tools/build_program.py" "$name" "$program" "$@"
}
