" Texts of mesamon.
autocmd BufRead,BufNewFile *.mesa setfiletype mesa
