# Completion of rosie for fish: commands, options, styles, classes, files, and names of packages in a pattern.
# `-o` tells of the short options as fish doesn't join them: rosie refuses `-wa`.
set -g __rosie_commands match grep test list expand trace sample repl compile class

# Whether one of these commands stands on the line, or none yet, since options may stand before the command.
function __rosie_for
    __fish_seen_subcommand_from $argv
    or not __fish_seen_subcommand_from $__rosie_commands
end

# Prints what rosie lists, within two seconds where there is `timeout`: a file of the library path may be a pipe that
# nobody writes to.
function __rosie_list
    if command -sq timeout
        command timeout 2 rosie list $argv 2>/dev/null </dev/null | string replace -r ' .*' ''
    else
        command rosie list $argv 2>/dev/null </dev/null | string replace -r ' .*' ''
    end
end

# The names that can continue a pattern, where its last name is begun: those of its package after a dot; otherwise the
# packages. Only names that RPL can write are offered.
function __rosie_names
    set -l token (commandline -ct)
    set -l name (string match -r '[A-Za-z][A-Za-z0-9_]*(?:\.[A-Za-z0-9_]*)?$' -- "$token")
    set -l before (string replace -r '[A-Za-z][A-Za-z0-9_]*(\.[A-Za-z0-9_]*)?$' '' -- "$token")
    set -l folders .
    set -l words (commandline -opc)
    for index in (seq (count $words))
        switch $words[$index]
            case --libpath
                test $index -lt (count $words); and set folders $words[(math $index + 1)]
            case '--libpath=*'
                set folders (string replace -- --libpath= '' $words[$index])
        end
    end
    set -l found
    if string match -q '*.*' -- "$name"
        set found (__rosie_list --libpath $folders --rpl "import "(string replace -r '\..*' '' -- $name))
    else
        for file in (string split : -- $folders)/*.rpl
            test -f $file; and string match -qr '(^|/)[A-Za-z][A-Za-z0-9_]*\.rpl\z' -- $file
            and set found $found (string replace -r '\.rpl$' . -- (string replace -r '^.*/' '' -- $file))
        end
    end
    for name in $found
        string match -qr '^[A-Za-z][A-Za-z0-9_]*(\.[A-Za-z0-9_]*)?\z' -- $name; and printf '%s\n' "$before$name"
    end
end

complete -c rosie -f
complete -c rosie -n 'not __fish_seen_subcommand_from $__rosie_commands' -a "$__rosie_commands"
complete -c rosie -n '__fish_seen_subcommand_from match grep trace test' -F
complete -c rosie -n '__fish_seen_subcommand_from match grep trace expand compile' -a '(__rosie_names)' -d 'Name'
complete -c rosie -n '__fish_seen_subcommand_from class' \
    -a 'alnum alpha blank cntrl digit graph lower print punct space upper xdigit'

set -l roots '__rosie_for match grep list expand trace compile'
set -l lines '__rosie_for match grep'
complete -c rosie -n $roots -o f -l file -r -F -d 'Load an RPL file'
complete -c rosie -n $roots -l rpl -x -d 'Load an RPL text'
complete -c rosie -n '__rosie_for match grep test list expand trace repl compile' -l libpath -x \
    -a '(__fish_complete_directories)' -d 'Folders in which imports are looked for'
complete -c rosie -n '__rosie_for match grep expand trace compile' -o F -l fixed-strings -d 'The pattern is a text'
complete -c rosie -n $lines -o o -l output -x -a 'json line matches subs data bool' -d 'Output style'
complete -c rosie -n '__rosie_for match grep trace' -o w -l wholefile -d 'Each input is one line'
complete -c rosie -n $lines -o a -l all -d 'Write the lines that did not match to standard error'
complete -c rosie -n '__rosie_for match grep test sample' -l budget -x -d 'Machine steps that a line may take'
complete -c rosie -n $lines -l steps -d 'Write the steps of each line'
complete -c rosie -n '__rosie_for expand' -l code -d 'Print the program too'
complete -c rosie -n '__rosie_for trace' -l limit -x -d 'Evaluations that a trace may have'
complete -c rosie -n '__rosie_for match' -l code-file -r -F -d 'Take the program from a code file'
