autocmd BufRead,BufNewFile *.lam setfiletype lam | setlocal commentstring=//\ %s
autocmd BufRead,BufNewFile *.world setfiletype lamworld
autocmd BufRead,BufNewFile *.short setfiletype lamshort | setlocal commentstring=#\ %s
