// Each CPU adds 1 to a value of its own ten times, by a load, an addition and a store: no other CPU touches the value,
// so no addition is lost, and none waits. counter-by-cpu.run is made of it by tools/from-elf.
#include <linux/bpf.h>
#include <bpf/bpf_helpers.h>

struct {
    __uint(type, BPF_MAP_TYPE_PERCPU_ARRAY);
    __uint(max_entries, 1);
    __type(key, __u32);
    __type(value, __u64);
} counter SEC(".maps");

SEC("socket")
int add(void *context)
{
    __u32 key = 0;
    volatile __u64 *count = bpf_map_lookup_elem(&counter, &key);

    if (!count)
        return 1;
#pragma clang loop unroll(disable)
    for (int i = 0; i < 10; i++)
        *count += 1;
    return 0;
}

// ; always array counter 0 cpu 0=0a00000000000000
// ; always array counter 0 cpu 1=0a00000000000000
