" Syntax of the Rosie Pattern Language.
if exists("b:current_syntax")
  finish
endif
syntax case match

" A name, one with a package before it, and one that is bound here.
syntax match rplName "\<\a\w*\>"
syntax match rplQualified "\<\a\w*\.\a\w*\>"
syntax match rplBound "\<\a\w*\ze\s*="
syntax match rplMacro "\<\%(find\|findall\|keepto\|ci\|uci\|message\|error\)\ze\s*:"
syntax match rplHalt "\<halt\>\ze\%(\s*[=:.]\)\@!"
syntax match rplKeyword "\<\%(rpl\|package\|import\|as\|alias\|local\|grammar\|in\|end\)\>"
syntax match rplNumber "\<\d\+\>"

syntax match rplSign "[(){}/&!<>.^$~=,:]"
syntax match rplQuantifier "[*+?]"
syntax match rplQuantifier "{\s*\%(\d\+\s*\%(,\s*\d*\s*\)\=\|,\s*\d*\s*\)}"

" Texts and brackets end on their line. A bracket may hold others, and no quote begins a text in it.
syntax match rplBadEscape "\\." contained
syntax match rplEscape "\\\%([\\"[\]\-^:nrt]\|x\x\{2}\|u\x\{4}\|U\x\{8}\)" contained
syntax region rplText start=+"+ skip=+\\.+ end=+"\|$+ oneline contains=rplBadEscape,rplEscape
syntax cluster rplInBracket contains=rplBracket,rplClass,rplBadEscape,rplEscape,rplSetSign
syntax region rplBracket start="\[" skip="\\." end="\]\|$" oneline contains=@rplInBracket
syntax match rplSetSign "&&\|--" contained
syntax match rplClass "\[:^\=\w\+:\]"

syntax match rplComment "--.*$" contains=@Spell
" A test: the name, the verb and the texts are marked in it.
syntax match rplTest "^\s*--\s*test\s.*$" contains=rplTestWord,rplText
syntax match rplTestWord "\<\%(test\|local\|accepts\|rejects\|includes\|excludes\)\>" contained

highlight default link rplName Identifier
highlight default link rplQualified Identifier
highlight default link rplBound Function
highlight default link rplMacro Macro
highlight default link rplHalt Statement
highlight default link rplKeyword Keyword
highlight default link rplNumber Number
highlight default link rplSign Operator
highlight default link rplQuantifier Repeat
highlight default link rplBadEscape Error
highlight default link rplEscape SpecialChar
highlight default link rplText String
highlight default link rplBracket Character
highlight default link rplSetSign Operator
highlight default link rplClass Type
highlight default link rplComment Comment
highlight default link rplTest SpecialComment
highlight default link rplTestWord Keyword

let b:current_syntax = "rpl"
