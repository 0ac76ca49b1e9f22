# Completion of rosie-columns for fish: options, formats, and files after `--`.

function __rosie_columns_files
    contains -- -- (commandline -opc)
end

complete -c rosie-columns -f
complete -c rosie-columns -n 'not __rosie_columns_files' -s o -l output -x -a 'csv tsv json' -d 'the format'
complete -c rosie-columns -n 'not __rosie_columns_files' -s j -l join -x -d 'a text between the texts of all nodes'
complete -c rosie-columns -n 'not __rosie_columns_files' -s n -l no-header -d 'no row of names'
complete -c rosie-columns -n __rosie_columns_files -F
