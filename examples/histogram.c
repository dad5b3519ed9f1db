// Counts the bytes of the context by their upper half, a key of one byte each. Who finds no key yet
// inserts it with BPF_NOEXIST and looks it up again, since another CPU may have been first.
// histogram-c.run is made of it by tools/from-elf.
#include <linux/bpf.h>
#include <bpf/bpf_helpers.h>

struct {
    __uint(type, BPF_MAP_TYPE_HASH);
    __uint(max_entries, 16);
    __type(key, __u8);
    __type(value, __u64);
} bytes SEC(".maps");

SEC("socket")
int count(const __u8 *context)
{
#pragma clang loop unroll(disable)
    for (int i = 1; i <= context[0]; i++) {
        __u8 key = context[i] >> 4;
        __u64 zero = 0, *found = bpf_map_lookup_elem(&bytes, &key);

        if (!found) {
            bpf_map_update_elem(&bytes, &key, &zero, BPF_NOEXIST);
            found = bpf_map_lookup_elem(&bytes, &key);
        }
        if (!found)
            return 1;
        __sync_fetch_and_add(found, 1);
    }
    return 0;
}
