" Domains and problems by their ending, other files of Pulgazer by their first word.
autocmd BufRead,BufNewFile *.pddl setfiletype pulgazer
autocmd BufRead * if getline(nextnonblank(1)) =~? '^\s*(\(plan\|certificate\|record\)\>' | setfiletype pulgazer | endif
