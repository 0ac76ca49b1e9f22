# For bash and zsh: put `. PREFIX/share/rosie/rosie.sh` into ~/.bashrc or ~/.zshrc. Then `rosie` and `rosie-why` find
# the packages that were installed with them: without --libpath, they search the current folder and then
# share/rosie/examples. All other command lines go to the programs unchanged. For fish, use rosie.fish.
if [ -n "${BASH_VERSION:-}" ]; then
    __rosie_examples=${BASH_SOURCE[0]}
else
    eval '__rosie_examples=${(%):-%x}'
fi
case $__rosie_examples in */*) ;; *) __rosie_examples=./$__rosie_examples ;; esac
__rosie_examples=$(CDPATH='' cd -- "${__rosie_examples%/*}" && pwd)/examples

# Succeeds if these words are for a command that looks for packages, and name no folders themselves.
__rosie_wants_examples() {
    local word command='' skip=no ended=no
    for word in "$@"; do
        if [ "$skip" = yes ]; then
            skip=no
            continue
        fi
        if [ "$ended" = yes ]; then
            command=${command:-$word}
            continue
        fi
        case $word in
        --) ended=yes ;;
        --libpath | --libpath=* | --code-file | --code-file=*) return 1 ;;
        -f | --file | --rpl | -o | --output | --budget | --limit) skip=yes ;;
        -?*) ;;
        *) command=${command:-$word} ;;
        esac
    done
    case $command in
    match | grep | test | list | expand | trace | repl | compile) [ -d "$__rosie_examples" ] ;;
    *) return 1 ;;
    esac
}

rosie() {
    if __rosie_wants_examples "$@"; then
        command rosie --libpath ".:$__rosie_examples" "$@"
    else
        command rosie "$@"
    fi
}

rosie-why() {
    if __rosie_wants_examples trace "$@"; then
        command rosie-why --libpath ".:$__rosie_examples" "$@"
    else
        command rosie-why "$@"
    fi
}
