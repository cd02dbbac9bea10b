# What bash completes behind canvas, canvasd and the commands canvas-*. It reads their words and options out of what each says to --help.
# bash-completion finds this file by the name of a command; without it `source packaging/bash-completion.sh` does.
# shellcheck shell=bash

# What a command says to --help, with <FILE> written as FILE.
_canvas_help() {
    "$1" --help 2>/dev/null | sed 's/<\([A-Z]*\)>/\1/g'
}

# The options in a help, each with the name of its value behind it. One stands at the begin of a line, behind a short one, behind the command's
# name, or in square brackets.
_canvas_options() {
    sed -E "s/(\[|, |$1 )(--[a-z])/\n\2/g" <<<"$2" | sed -nE 's/^ *(--[a-z][a-z-]*( [A-Za-z:]+)?).*/\1/p'
}

# The verbs in a help: what stands behind the command's name at the begin of a line.
_canvas_verbs() {
    sed -nE "s/^ *([Uu]sage: )?$1 ([a-z]+)( .*)?$/\2/p" <<<"$2"
}

# Completes the value of an option, by its name in the help. Files are left to bash.
_canvas_value() {
    case $1 in
    LEVEL) mapfile -t COMPREPLY < <(compgen -W "off error warn info debug trace" -- "$2") ;;
    FILE | FOLDER | PATH | ADDRESS | unix:PATH) ;;
    *) compopt +o default 2>/dev/null ;;
    esac
}

_canvas() {
    local name=${1##*/} help options value='' words=''
    COMPREPLY=()
    help=$(_canvas_help "$1") || return 0
    options=$(_canvas_options "$name" "$help")
    [[ $3 != --* ]] || value=$(sed -nE "s/^$3 (.*[A-Z])$/\1/p" <<<"$options" | head -n 1)
    if [ -n "$value" ]; then
        _canvas_value "$value" "$2"
        return 0
    fi
    if [[ $2 == -* ]]; then
        words=$(cut -d ' ' -f 1 <<<"$options")
    elif [ "$COMP_CWORD" = 1 ]; then
        words=$(_canvas_verbs "$name" "$help")
    fi
    mapfile -t COMPREPLY < <(compgen -W "$words" -- "$2" | sort -u)
}

complete -o default -F _canvas canvas canvasd canvas-admin canvas-backup canvas-client canvas-demo canvas-gateway canvas-store
