# Completion of ebpf for bash; made by tests/completions --write.
_ebpf() {
    local word=${COMP_WORDS[COMP_CWORD]} before=${COMP_WORDS[COMP_CWORD - 1]} words files
    COMPREPLY=()
    case $before in
        --budget|--by|--ctx|--into|--limit|--parts|--seen|--show|--sync|--workers) return ;;
    esac
    case ${COMP_CWORD}:${COMP_WORDS[1]} in
        1:*) words='hex asm disasm run explore check expand debug explain -h --help -V --version' ;;
        *) words= ;;
    esac
    [ "$COMP_CWORD" -gt 1 ] && case ${COMP_WORDS[1]} in
        hex) words='--explain --budget --ctx -h --help' files=1 ;;
        asm) words='--explain --listing --run --budget --ctx -h --help' files=1 ;;
        disasm) words='--explain --pc -h --help' files=1 ;;
        run) words='--explain --keys --maps --events --packets --check --by --workers --stats --x86 --json -h --help' files=1 ;;
        explore) words='--explain --patient --json --progress --x86 --all-states --workers --races --sync --limit --show -h --help' files=1 ;;
        check) words='--explain --patient --json --progress --x86 --all-states --workers --lenient --states --limit -h --help' files=1 ;;
        expand) words='--explain --first --patient --x86 --races --into --parts --seen -h --help' files=1 ;;
        debug) words='--explain --echo --strict --x86 -h --help' files=1 ;;
        explain) words='-h --help' ;;
    esac
    COMPREPLY=($(compgen -W "$words" -- "$word"))
    [ -n "$files" ] && COMPREPLY+=($(compgen -f -- "$word"))
}
complete -F _ebpf ebpf
