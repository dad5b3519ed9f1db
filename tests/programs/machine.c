// A state machine that reads decimal numbers and sums: digits, then '+' or ';'. It keeps where it is by
// session, so that a text may come in pieces. The context is the session, a length, and as many bytes.
// The answer is how many sums are done, or -1 once a byte didn't fit.
#include <linux/bpf.h>
#include <bpf/bpf_helpers.h>

enum state { BEGINS, IN_NUMBER, FAILED };

struct session {
    __u32 state;
    __u32 sums;
    __u64 number;
    __u64 sum;
    __u64 last;
};

struct {
    __uint(type, BPF_MAP_TYPE_HASH);
    __uint(max_entries, 8);
    __type(key, __u8);
    __type(value, struct session);
} sessions SEC(".maps");

static __attribute__((noinline)) void read(struct session *it, __u8 byte)
{
    if (byte >= '0' && byte <= '9') {
        it->number = it->number * 10 + (byte - '0');
        it->state = IN_NUMBER;
    } else if (it->state == IN_NUMBER && (byte == '+' || byte == ';')) {
        it->sum += it->number;
        it->number = 0;
        it->state = BEGINS;
        if (byte == ';') {
            it->last = it->sum;
            it->sum = 0;
            it->sums++;
        }
    } else {
        it->state = FAILED;
    }
}

SEC("socket")
int machine(const __u8 *context)
{
    __u8 key = context[0];
    struct session new = {}, *it = bpf_map_lookup_elem(&sessions, &key);

    if (!it) {
        if (bpf_map_update_elem(&sessions, &key, &new, BPF_NOEXIST))
            return -2;
        it = bpf_map_lookup_elem(&sessions, &key);
        if (!it)
            return -2;
    }
#pragma clang loop unroll(disable)
    for (int i = 0; i < context[1] && it->state != FAILED; i++)
        read(it, context[2 + i]);
    return it->state == FAILED ? -1 : (int)it->sums;
}
