" Settings for sources of Simula: :make checks the file, and :cwindow lists what is wrong.
if exists("b:did_ftplugin") | finish | endif
let b:did_ftplugin = 1
setlocal expandtab shiftwidth=3 softtabstop=3
setlocal commentstring=comment\ %s;
compiler simula
let b:undo_ftplugin = "setlocal expandtab< shiftwidth< softtabstop< commentstring<"
