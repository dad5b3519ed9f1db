// A rate limiter: a bucket of tokens a source. The context is the time in ticks, four bytes, and the
// source, two bytes. A tick gives a token, a bucket holds eight. 1 lets the packet through, 0 doesn't.
#include <linux/bpf.h>
#include <bpf/bpf_helpers.h>

enum { MOST = 8 };

struct bucket {
    __u32 tokens;
    __u32 filled;
};

struct {
    __uint(type, BPF_MAP_TYPE_HASH);
    __uint(max_entries, 16);
    __type(key, __u16);
    __type(value, struct bucket);
} buckets SEC(".maps");

SEC("socket")
int limiter(const __u8 *context)
{
    __u32 now = context[0] | context[1] << 8 | context[2] << 16 | (__u32)context[3] << 24;
    __u16 source = context[4] | context[5] << 8;
    struct bucket *found = bpf_map_lookup_elem(&buckets, &source), next = { MOST, now };

    if (found) {
        __u32 gained = now > found->filled ? now - found->filled : 0;
        next.tokens = gained >= MOST - found->tokens ? MOST : found->tokens + gained;
    }
    int passes = next.tokens > 0;
    next.tokens -= passes;
    // A source that finds no room isn't limited.
    return bpf_map_update_elem(&buckets, &source, &next, BPF_ANY) == 0 ? passes : 1;
}
