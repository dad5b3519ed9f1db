// Counts the bytes of the context by their upper half, in an array of sixteen values, which are there from the first
// on: nothing is inserted. array-histogram.run is made of it by tools/from-elf; examples/histogram.c does the same
// with a hash map.
#include <linux/bpf.h>
#include <bpf/bpf_helpers.h>

struct {
    __uint(type, BPF_MAP_TYPE_ARRAY);
    __uint(max_entries, 16);
    __type(key, __u32);
    __type(value, __u64);
} bytes SEC(".maps");

SEC("socket")
int count(const __u8 *context)
{
#pragma clang loop unroll(disable)
    for (int i = 1; i <= context[0]; i++) {
        __u32 key = context[i] >> 4;
        __u64 *found = bpf_map_lookup_elem(&bytes, &key);

        if (!found)
            return 1;
        __sync_fetch_and_add(found, 1);
    }
    return 0;
}
