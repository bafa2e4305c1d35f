" A .tbas file is Tiny BASIC, and so is a .bas file whose first line that isn't empty begins with a number.
autocmd BufRead,BufNewFile *.tbas set filetype=tinybasic
autocmd BufRead,BufNewFile *.bas if getline(nextnonblank(1)) =~? '^\s*\d' | set filetype=tinybasic | endif
