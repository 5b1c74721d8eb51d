autocmd BufRead,BufNewFile *.iec setfiletype fbsim
