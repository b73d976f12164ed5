autocmd BufRead,BufNewFile *.regrun,*.session setfiletype regrun
