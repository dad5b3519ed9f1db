// A histogram of sizes by their powers of two: the context is a number of sizes, then each in two bytes.
#include <linux/bpf.h>
#include <bpf/bpf_helpers.h>

struct {
    __uint(type, BPF_MAP_TYPE_HASH);
    __uint(max_entries, 17);
    __type(key, __u8);
    __type(value, __u64);
} sizes SEC(".maps");

static __attribute__((noinline)) __u32 bits(__u32 number)
{
    __u32 count = 0;
#pragma clang loop unroll(disable)
    for (; number != 0; number >>= 1)
        count++;
    return count;
}

SEC("socket")
int histogram(const __u8 *context)
{
    const __u8 *at = context + 1;
#pragma clang loop unroll(disable)
    for (int i = context[0]; i > 0; i--, at += 2) {
        __u8 key = bits(at[0] | at[1] << 8);
        __u64 zero = 0, *count;

        bpf_map_update_elem(&sizes, &key, &zero, BPF_NOEXIST);
        count = bpf_map_lookup_elem(&sizes, &key);
        if (!count)
            return 1;
        __sync_fetch_and_add(count, 1);
    }
    return 0;
}
