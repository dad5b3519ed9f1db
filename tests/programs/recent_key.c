// A memory of the last four keys that came: the context is a key in eight bytes. The answer is how many
// other keys came since it was last here, or 4 where it isn't remembered. Who comes back stays in place.
#include <linux/bpf.h>
#include <bpf/bpf_helpers.h>

enum { KEEPS = 4 };

struct {
    __uint(type, BPF_MAP_TYPE_HASH);
    __uint(max_entries, KEEPS);
    __type(key, __u64);
    __type(value, __u64);
} recent SEC(".maps");

struct {
    __uint(type, BPF_MAP_TYPE_HASH);
    __uint(max_entries, KEEPS + 1);
    __type(key, __u64);
    __type(value, __u64);
} places SEC(".maps");

SEC("socket")
int recent_key(const __u8 *context)
{
    __u64 key = 0, zero = 0, head = ~0ull, *count, *found, *old, number, place;

#pragma clang loop unroll(disable)
    for (int i = 7; i >= 0; i--)
        key = key << 8 | context[i];
    // Under the key of all ones stands how many keys have come.
    bpf_map_update_elem(&places, &head, &zero, BPF_NOEXIST);
    count = bpf_map_lookup_elem(&places, &head);
    if (!count)
        return -1;
    number = *count;
    found = bpf_map_lookup_elem(&recent, &key);
    if (found)
        return number - 1 - *found;
    place = number % KEEPS;
    old = bpf_map_lookup_elem(&places, &place);
    if (old)
        bpf_map_delete_elem(&recent, old);
    bpf_map_update_elem(&places, &place, &key, BPF_ANY);
    bpf_map_update_elem(&recent, &key, &number, BPF_ANY);
    *count = number + 1;
    return KEEPS;
}
