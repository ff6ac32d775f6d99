autocmd BufNewFile,BufRead *.tsg,*.job setfiletype tsg
