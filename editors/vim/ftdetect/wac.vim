autocmd BufNewFile,BufRead *.wac setfiletype wac
