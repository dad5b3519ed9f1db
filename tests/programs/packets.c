// Counts packets by a hash of their bytes (Jenkins' one_at_a_time): the context is a length and as many
// bytes. The answer is the hash.
#include <linux/bpf.h>
#include <bpf/bpf_helpers.h>

struct seen {
    __u32 count;
    __u32 bytes;
};

struct {
    __uint(type, BPF_MAP_TYPE_HASH);
    __uint(max_entries, 256);
    __type(key, __u32);
    __type(value, struct seen);
} seen SEC(".maps");

SEC("socket")
int packets(const __u8 *context)
{
    __u32 hash = 0;
    struct seen none = {}, *it;

#pragma clang loop unroll(disable)
    for (int i = 1; i <= context[0]; i++) {
        hash += context[i];
        hash += hash << 10;
        hash ^= hash >> 6;
    }
    hash += hash << 3;
    hash ^= hash >> 11;
    hash += hash << 15;
    bpf_map_update_elem(&seen, &hash, &none, BPF_NOEXIST);
    it = bpf_map_lookup_elem(&seen, &hash);
    if (it) {
        __sync_fetch_and_add(&it->count, 1);
        __sync_fetch_and_add(&it->bytes, context[0]);
    }
    return hash;
}
