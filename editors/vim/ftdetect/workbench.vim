" Files of workbench(1): by their names, or by the header of a declaration in the first line.
autocmd BufRead,BufNewFile declaration,transcript,*.workbench setfiletype workbench
autocmd BufRead * if getline(1) =~# '^\s*workbench\s\+[12]\s*$' | setfiletype workbench | endif
