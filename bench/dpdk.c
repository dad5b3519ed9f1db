/* DPDK's interpreter (`rte_bpf_exec`) on a benchmark program, for `make bench` where librte-bpf is installed. Words come as
   hex digits on standard input; it prints r0 as `ebpf hex` does. It knows neither a budget nor local calls nor 32-bit
   jumps, and tests no address. `rte_bpf_load` takes no loops, so the program is handed to it in the struct that DPDK keeps
   loaded programs in (lib/bpf/bpf_impl.h of DPDK 22.11): its first part is public, and alone read.

   usage: dpdk [CONTEXT]       the context in hex digits; exit status 2 where a word is none that DPDK executes */
#include <ctype.h>
#include <inttypes.h>
#include <rte_bpf.h>
#include <stdio.h>

struct rte_bpf {
    struct rte_bpf_prm prm;
    struct rte_bpf_jit jit;
    size_t sz;
    uint32_t stack_sz;
};

static struct ebpf_insn program[65536];
static uint8_t context[4096];

static int value_of(int digit) { return isdigit(digit) ? digit - '0' : tolower(digit) - 'a' + 10; }

int main(int argc, char **argv) {
    uint8_t *bytes = (uint8_t *)program;
    size_t digits = 0, size = 0;
    for (int c; (c = getchar()) != EOF;) {
        if (!isxdigit(c))
            continue;
        bytes[digits / 2] = (uint8_t)(digits % 2 ? bytes[digits / 2] | value_of(c) : value_of(c) << 4);
        digits++;
    }
    uint32_t words = (uint32_t)(digits / 16);
    for (uint32_t pc = 0; pc < words; pc++) {
        if ((program[pc].code & 7) == 6 || program[pc].code == 0x85)
            return 2;
        if (program[pc].code == 0x18)
            pc++;
    }
    if (argc > 1)
        for (const char *c = argv[1]; c[0] && c[1] && size < sizeof context; c += 2)
            context[size++] = (uint8_t)(value_of(c[0]) << 4 | value_of(c[1]));
    struct rte_bpf bpf = {.prm = {.ins = program, .nb_ins = words, .prog_arg = {.type = RTE_BPF_ARG_RAW}}};
    printf("r0=%" PRIu64 "\n", rte_bpf_exec(&bpf, context));
    return 0;
}
