autocmd BufRead,BufNewFile *.rg setfiletype regent
