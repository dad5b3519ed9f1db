// A histogram of lengths by powers of two, in an array that all CPUs share: each addition is one atomic
// instruction. The context is a number of lengths, then each of them in two bytes. Slot n counts those from
// 2^n on; the last slot is 11, and longer ones have none. The answer is how many these were.
#include <linux/bpf.h>
#include <bpf/bpf_helpers.h>

enum { SLOTS = 12 };

struct {
    __uint(type, BPF_MAP_TYPE_ARRAY);
    __uint(max_entries, SLOTS);
    __type(key, __u32);
    __type(value, __u64);
} slots SEC(".maps");

static __attribute__((noinline)) __u32 log2_of(__u32 v)
{
    __u32 log = 0;

#pragma clang loop unroll(disable)
    for (int shift = 8; shift > 0; shift >>= 1)
        if (v >> shift) {
            v >>= shift;
            log += shift;
        }
    return log;
}

SEC("socket")
int sizes(const __u8 *context)
{
    const __u8 *at = context + 1;
    int without = 0;

#pragma clang loop unroll(disable)
    for (int i = context[0]; i > 0; i--, at += 2) {
        __u32 slot = log2_of(at[0] | at[1] << 8);
        __u64 *count = bpf_map_lookup_elem(&slots, &slot);

        if (count)
            __sync_fetch_and_add(count, 1);
        else
            without++;
    }
    return without;
}

// Two CPUs count one length of 5 each.
// ; always array slots 2=0200000000000000
