// Counts packets and bytes by protocol, in values that each CPU has of its own: plain additions are enough,
// and no CPU waits for another. The context is a number of packets, then of each a protocol and a length, a
// byte each; protocols from 4 on are passed over. The answer is how many packets were.
#include <linux/bpf.h>
#include <bpf/bpf_helpers.h>

struct count {
    __u64 packets;
    __u64 bytes;
};

struct {
    __uint(type, BPF_MAP_TYPE_PERCPU_ARRAY);
    __uint(max_entries, 4);
    __type(key, __u32);
    __type(value, struct count);
} counts SEC(".maps");

SEC("socket")
int cpu_counters(const __u8 *context)
{
    const __u8 *at = context + 1;
    int passed_over = 0;

#pragma clang loop unroll(disable)
    for (int i = context[0]; i > 0; i--, at += 2) {
        __u32 protocol = at[0];
        struct count *it = bpf_map_lookup_elem(&counts, &protocol);

        if (!it) {
            passed_over++;
            continue;
        }
        it->packets++;
        it->bytes += at[1];
    }
    return passed_over;
}

// Two CPUs count one packet each of protocol 1, of 10 and of 20 bytes. Were there one value for both, one
// of the additions could be lost.
// ; always array counts 1 cpu 0=01000000000000000a00000000000000
// ; always array counts 1 cpu 1=01000000000000001400000000000000
