" A file NAME.strl is a module text of Pure Esterel.
autocmd BufNewFile,BufRead *.strl setfiletype esterel
