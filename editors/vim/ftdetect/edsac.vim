autocmd BufRead,BufNewFile *.edsac set filetype=edsac
autocmd BufRead,BufNewFile *.tape,*.tape1 set filetype=edsactape
