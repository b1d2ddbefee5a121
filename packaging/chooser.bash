# Completion of the command chooser for bash. Subcommands and options are those that the installed command tells as
# its help, so that none is written down here.
# shellcheck shell=bash

# The subcommands: the indented lines of the overview before its example.
_chooser_subcommands() { "$1" help 2>/dev/null | sed -n -e '/^Example:/q' -e 's/^    \([a-z][a-z]*\) .*/\1/p'; }

# The options of a subcommand: the words of its usage that begin with a dash.
_chooser_options() { # COMMAND SUBCOMMAND
    "$1" help "$2" 2>/dev/null | sed -e '/^$/q' | grep -o -e '--[a-z][-a-z0-9]*' -e '-[a-z]\>'
}

_chooser() {
    local command=${COMP_WORDS[0]} word=${COMP_WORDS[COMP_CWORD]} subcommand=${COMP_WORDS[1]}
    COMPREPLY=()
    if [ "$COMP_CWORD" -eq 1 ] || { [ "$subcommand" = help ] && [ "$COMP_CWORD" -eq 2 ]; }; then
        mapfile -t COMPREPLY < <(compgen -W "$(_chooser_subcommands "$command") --help --version" -- "$word")
    elif [[ $word == -* ]]; then
        mapfile -t COMPREPLY < <(compgen -W "$(_chooser_options "$command" "$subcommand") --help" -- "$word")
    else
        compopt -o filenames 2>/dev/null
        mapfile -t COMPREPLY < <(compgen -f -- "$word")
    fi
}

complete -F _chooser chooser
