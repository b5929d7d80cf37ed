autocmd BufRead,BufNewFile *.suite setfiletype gathorni
