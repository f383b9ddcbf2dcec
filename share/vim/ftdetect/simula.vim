" Sources of Simula.
autocmd BufRead,BufNewFile *.sim setfiletype simula
