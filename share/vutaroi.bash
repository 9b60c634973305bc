# Completion of vutaroi for bash: subcommands, options, sheets and files.
_vutaroi() {
    local word=${COMP_WORDS[COMP_CWORD]} before=${COMP_WORDS[COMP_CWORD - 1]} options='-o --help --version' i
    COMPREPLY=()
    if [ "$COMP_CWORD" -eq 1 ]; then
        mapfile -t COMPREPLY < <(compgen -W 'strokes csv json redraw --help --version' -- "$word")
        return
    fi
    [ "${COMP_WORDS[1]}" = redraw ] || options="--sheet --limits $options"
    # the four numbers after --limits are nobody's to guess
    for i in 1 2 3 4; do
        [ $((COMP_CWORD - i)) -gt 1 ] && [ "${COMP_WORDS[COMP_CWORD - i]}" = --limits ] && return
    done
    if [ "$before" = --sheet ]; then
        mapfile -t COMPREPLY < <(compgen -W 'hockey curling' -- "$word")
    elif [ "$before" != -o ] && [[ $word == -* ]]; then
        mapfile -t COMPREPLY < <(compgen -W "$options" -- "$word")
    else
        compopt -o filenames 2>/dev/null
        mapfile -t COMPREPLY < <(compgen -f -- "$word")
    fi
}
complete -F _vutaroi vutaroi
