# Completion of rosie-lsp for fish: options and folders.

complete -c rosie-lsp -f
complete -c rosie-lsp -l libpath -x -a '(__fish_complete_directories)' -d 'Folders in which packages are looked for'
complete -c rosie-lsp -l stdio -d 'Taken, since some editors give it'
complete -c rosie-lsp -l help -d 'Print the options'
