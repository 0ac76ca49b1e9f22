# Completion of rosie-try for fish: options, files of rules, folders, and the file of lines.

complete -c rosie-try -o f -l file -r -F -d 'Load an RPL file'
complete -c rosie-try -l rpl -x -d 'Load an RPL text'
complete -c rosie-try -l libpath -x -a '(__fish_complete_directories)' -d 'Folders in which imports are looked for'
