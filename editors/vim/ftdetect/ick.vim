" INTERCAL sources: NAME.i with DO or PLEASE in its first lines
autocmd BufRead,BufNewFile *.i if join(getline(1, 50)) =~# 'DO\|PLEASE' | set filetype=ick | endif
