" Run files of ebpf, and BPF assembly in them.
if exists('b:current_syntax')
  finish
endif
syntax case match
syntax match ebpfLine '^\s*\(ebpf-run\|cpus\|seed\|array\|data\|var\|put\|end\|prog\|job\)\>'
syntax match ebpfLine '^\s*map\ze\s\+\w\+\s\+key\>'
syntax match ebpfSplit '^\s*---\s*$'
syntax match ebpfLabel '^\s*\h\w*\ze:'
syntax keyword ebpfWord key value max spare mask grow percpu frozen budget ctx xdp tc time random hex
syntax match ebpfRegister '\<[rw]\(10\|[0-9]\)\>'
syntax keyword ebpfFlow if goto gotol call exit
syntax match ebpfName '\(=\s*&\s*\|=\s*map\s\+\)\@<=\h\w*'
syntax match ebpfAtomic '\<\(lock\|atomic_fetch_\(add\|or\|and\|xor\)\|\(cmp\)\?xchg_\(32\|64\)\)\>'
syntax match ebpfType '\<[us]\(8\|16\|32\|64\)\>'
syntax match ebpfNumber '\<\(0x\x\+\|\d\+\)\>'
syntax match ebpfComment ';.*$' contains=ebpfExpectation
syntax match ebpfExpectation '\(;\s*\)\@<=\(always\|sometimes\|never\)\(-x86\)\?\>' contained
highlight default link ebpfLine Keyword
highlight default link ebpfSplit Title
highlight default link ebpfLabel Label
highlight default link ebpfWord Type
highlight default link ebpfRegister Identifier
highlight default link ebpfFlow Conditional
highlight default link ebpfName Type
highlight default link ebpfAtomic Special
highlight default link ebpfType Type
highlight default link ebpfNumber Number
highlight default link ebpfComment Comment
highlight default link ebpfExpectation Todo
let b:current_syntax = 'ebpf-run'
