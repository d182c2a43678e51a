autocmd BufRead,BufNewFile *.rcce setfiletype rcce
