autocmd BufRead,BufNewFile *.mit setfiletype mitigate
