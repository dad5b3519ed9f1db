" Vim takes *.run for AMPL; a run file has its version within the first comment lines.
autocmd BufRead,BufNewFile *.run if match(getline(1, 99), '^\s*ebpf-run \d') >= 0 | set filetype=ebpf-run | endif
