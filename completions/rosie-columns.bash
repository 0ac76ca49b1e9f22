# Completion of rosie-columns for bash: options, formats, and files after `--`. Bash gives a completion the words of its
# own command alone, so the names of columns, which come from the pattern before the pipe, can't be offered.

_rosie_columns() {
    local word=${COMP_WORDS[COMP_CWORD]} before=${COMP_WORDS[COMP_CWORD - 1]} item wants='' ended=''
    for item in "${COMP_WORDS[@]:1:COMP_CWORD - 1}"; do
        if [[ -n $wants ]]; then
            wants=
        elif [[ $item == -- ]]; then
            ended=yes
            break
        elif [[ $item == -o || $item == --output || $item == -j || $item == --join ]]; then
            wants=$item
        fi
    done
    COMPREPLY=()
    if [[ -n $ended || $before == [\<\>] ]]; then
        compopt -o default 2>/dev/null
    elif [[ $wants == -o || $wants == --output ]]; then
        mapfile -t COMPREPLY < <(compgen -W 'csv tsv json' -- "$word")
    elif [[ -z $wants && $word == -* ]]; then
        mapfile -t COMPREPLY < <(compgen -W '-o --output -j --join -n --no-header --' -- "$word")
    fi
}
complete -F _rosie_columns rosie-columns
