// Each CPU adds 1 to one value ten times, by one atomic instruction each: no addition is lost.
// counter.run is made of it by tools/from-elf.
#include <linux/bpf.h>
#include <bpf/bpf_helpers.h>

struct {
    __uint(type, BPF_MAP_TYPE_HASH);
    __uint(max_entries, 1);
    __type(key, __u32);
    __type(value, __u64);
} counter SEC(".maps");

SEC("socket")
int add(void *context)
{
    __u32 key = 0;
    __u64 zero = 0, *count;

    bpf_map_update_elem(&counter, &key, &zero, BPF_NOEXIST);
    count = bpf_map_lookup_elem(&counter, &key);
    if (!count)
        return 1;
#pragma clang loop unroll(disable)
    for (int i = 0; i < 10; i++)
        __sync_fetch_and_add(count, 1);
    return 0;
}
