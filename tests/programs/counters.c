// Counts keys: the context is a number of keys, then each of them in four bytes.
#include <linux/bpf.h>
#include <bpf/bpf_helpers.h>

struct {
    __uint(type, BPF_MAP_TYPE_HASH);
    __uint(max_entries, 64);
    __type(key, __u32);
    __type(value, __u64);
} counts SEC(".maps");

SEC("socket")
int counters(const __u8 *context)
{
    const __u8 *at = context + 1;
#pragma clang loop unroll(disable)
    for (int i = context[0]; i > 0; i--, at += 4) {
        __u32 key = at[0] | at[1] << 8 | at[2] << 16 | (__u32)at[3] << 24;
        __u64 one = 1, *count = bpf_map_lookup_elem(&counts, &key);

        if (!count) {
            if (bpf_map_update_elem(&counts, &key, &one, BPF_NOEXIST) == 0)
                continue;
            count = bpf_map_lookup_elem(&counts, &key);
        }
        if (!count)
            return 1;
        __sync_fetch_and_add(count, 1);
    }
    return 0;
}
