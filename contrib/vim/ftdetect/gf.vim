autocmd BufNewFile,BufRead *.gf setfiletype gf
