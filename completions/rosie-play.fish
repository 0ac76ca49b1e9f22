# Completion of rosie-play for fish: options and folders.

complete -c rosie-play -f
complete -c rosie-play -l libpath -x -a '(__fish_complete_directories)' -d 'Folders in which packages are looked for'
complete -c rosie-play -l port -x -d 'Port on 127.0.0.1'
complete -c rosie-play -l no-browser -d 'Print the address, and open nothing'
complete -c rosie-play -l help -d 'Print the options'
