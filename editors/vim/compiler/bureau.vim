" :make compiles the deck of the file, and the quickfix list has its errors and warnings.
" g:rpgii_bureau is the program, `bureau` by default; g:rpgii_files are the files of the deck before this one. After a change of these,
" `:compiler bureau` reads them again.
if exists("current_compiler")
  finish
endif
let current_compiler = "bureau"

let &l:makeprg = rpgii#MakeCommand()
CompilerSet errorformat=%f:%l:%c:\ %m
