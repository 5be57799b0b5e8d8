" Files of the calculator aplcalc: by the end of the name, or by a first line that names aplrun.
autocmd BufNewFile,BufRead *.apl set filetype=aplcalc
autocmd BufNewFile,BufRead * if !did_filetype() && getline(1) =~# '^#!.*\<aplrun\>' | set filetype=aplcalc | endif
