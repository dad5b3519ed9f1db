// Two CPUs add 1 to one value, by a load, an addition and a store. Where both load before either stores, one of the
// additions is lost. docs/guide/editor.md steps into that by line of C.
#include <linux/bpf.h>
#include <bpf/bpf_helpers.h>

struct {
    __uint(type, BPF_MAP_TYPE_ARRAY);
    __uint(max_entries, 1);
    __type(key, __u32);
    __type(value, __u64);
} counter SEC(".maps");

SEC("socket")
int add(void *context)
{
    __u32 key = 0;
    volatile __u64 *count = bpf_map_lookup_elem(&counter, &key);
    if (!count)
        return 1;
    __u64 seen = *count;
    *count = seen + 1;
    return 0;
}
