" Rosie Pattern Language: comments, and :make by the compiler `rosie`.
if exists("b:did_ftplugin")
  finish
endif
let b:did_ftplugin = 1

setlocal comments=:-- commentstring=--\ %s
compiler rosie
let b:undo_ftplugin = "setlocal comments< commentstring< makeprg< errorformat<"
