# Completion of rosie-try for bash: options, folders, files of rules, and the file of lines. Readline quotes their
# names.

_rosie_try() {
    local word=${COMP_WORDS[COMP_CWORD]} before=${COMP_WORDS[COMP_CWORD - 1]} item
    # Bash cuts words at `=` and `:`, where COMP_WORDBREAKS has them.
    [[ $word == [=:] ]] && before=$word word=
    [[ $before == = ]] && before=${COMP_WORDS[COMP_CWORD - 1 - (${#word} > 0)]}
    COMPREPLY=()
    case $before in
    -f | --file) compopt -o default 2>/dev/null ;;
    --rpl) ;;
    --libpath | :) compopt -o dirnames -o filenames 2>/dev/null ;;
    *)
        if [[ $word != -* ]]; then
            compopt -o default 2>/dev/null
            return
        fi
        for item in -f --file --rpl --libpath; do
            [[ $item == "$word"* ]] && COMPREPLY+=("$item")
        done
        ;;
    esac
}
complete -F _rosie_try rosie-try
