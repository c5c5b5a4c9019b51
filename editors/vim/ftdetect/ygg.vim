" Layer files of ygg are known by their ending.
autocmd BufRead,BufNewFile *.ygg setfiletype ygg
