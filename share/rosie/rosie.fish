# For fish: put `source PREFIX/share/rosie/rosie.fish` into ~/.config/fish/config.fish. Then `rosie` and `rosie-why`
# find the packages that were installed with them: without --libpath, they search the current folder and then
# share/rosie/examples. All other command lines go to the programs unchanged. For bash and zsh, use rosie.sh.
set -g __rosie_examples (cd (dirname (status filename)); and pwd)/examples

function __rosie_wants_examples \
    --description 'Whether these words are for a command that looks for packages, and name no folders'
    set -l name ''
    set -l skip no
    set -l ended no
    for word in $argv
        if test $skip = yes
            set skip no
            continue
        end
        if test $ended = yes
            test -n "$name"; or set name $word
            continue
        end
        switch $word
            case --
                set ended yes
            case --libpath '--libpath=*' --code-file '--code-file=*'
                return 1
            case -f --file --rpl -o --output --budget --limit
                set skip yes
            case '-?*'
            case '*'
                test -n "$name"; or set name $word
        end
    end
    contains -- "$name" match grep test list expand trace repl compile; and test -d $__rosie_examples
end

function rosie --description 'Match lines by patterns, with the packages that were installed'
    if __rosie_wants_examples $argv
        command rosie --libpath ".:$__rosie_examples" $argv
    else
        command rosie $argv
    end
end

function rosie-why --description 'Say why a pattern does not match, with the packages that were installed'
    if __rosie_wants_examples trace $argv
        command rosie-why --libpath ".:$__rosie_examples" $argv
    else
        command rosie-why $argv
    end
end
