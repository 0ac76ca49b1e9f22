# Completion of rosie-play for bash: options and folders, whose names readline quotes.

_rosie_play() {
    local word=${COMP_WORDS[COMP_CWORD]} before=${COMP_WORDS[COMP_CWORD - 1]} item
    # Bash cuts words at `=` and `:`, where COMP_WORDBREAKS has them.
    [[ $word == [=:] ]] && before=$word word=
    [[ $before == = ]] && before=${COMP_WORDS[COMP_CWORD - 1 - (${#word} > 0)]}
    COMPREPLY=()
    case $before in
    --port) ;;
    --libpath | :) compopt -o dirnames -o filenames 2>/dev/null ;;
    *)
        for item in --libpath --port --no-browser --help; do
            [[ $item == "$word"* ]] && COMPREPLY+=("$item")
        done
        ;;
    esac
}
complete -F _rosie_play rosie-play
