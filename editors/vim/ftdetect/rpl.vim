" Files of the Rosie Pattern Language.
autocmd BufNewFile,BufRead *.rpl setfiletype rpl
