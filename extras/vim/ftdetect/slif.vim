autocmd BufNewFile,BufRead *.slif setfiletype slif
