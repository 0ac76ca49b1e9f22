" :make runs the tests of an RPL file. rosie-at makes lines and columns of the places, so that :cnext jumps to them.
" Imports are looked for in the folder of the file.
if exists("current_compiler")
  finish
endif
let current_compiler = "rosie"

if exists(":CompilerSet") != 2
  command -nargs=* CompilerSet setlocal <args>
endif
CompilerSet makeprg=rosie\ test\ --libpath\ %:h:S\ %:S\ 2>&1\ \\\|\ rosie-at
CompilerSet errorformat=%f:%l:%c:\ %m,%f:%l:\ %m,%-G%.%#
