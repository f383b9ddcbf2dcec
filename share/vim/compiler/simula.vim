" Checks a source of Simula. The message names a line and no file, so it is put in front.
if exists("current_compiler") | finish | endif
let current_compiler = "simula"
let s:program = get(g:, "simula_program", "simula")
execute "CompilerSet makeprg=" .. escape(s:program .. " check %:S 2>&1 \\| sed \"s\\|^line \\|%:line \\|\"", ' |"\')
CompilerSet errorformat=%f:line\ %l:\ %m,%-G%.%#
