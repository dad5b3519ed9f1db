// A Bloom filter of 1,024 bits, 64 a value. The context is what to do (0 asks, 1 adds), a length, and as
// many bytes of a name. The answer is 1 where the name may have been added.
#include <linux/bpf.h>
#include <bpf/bpf_helpers.h>

enum { HASHES = 3, BITS = 1024 };

struct {
    __uint(type, BPF_MAP_TYPE_HASH);
    __uint(max_entries, BITS / 64);
    __type(key, __u32);
    __type(value, __u64);
} filter SEC(".maps");

static __attribute__((noinline)) __u32 hash(const __u8 *name, __u32 size, __u32 seed)
{
    __u32 sum = 2166136261u ^ seed;
#pragma clang loop unroll(disable)
    for (__u32 i = 0; i < size; i++)
        sum = (sum ^ name[i]) * 16777619u;
    return sum ^ sum >> 15;
}

SEC("socket")
int bloom(const __u8 *context)
{
    int all = 1;
#pragma clang loop unroll(disable)
    for (__u32 i = 0; i < HASHES; i++) {
        __u32 bit = hash(context + 2, context[1], i * 0x9e3779b9u) % BITS, word = bit / 64;
        __u64 zero = 0, *found = bpf_map_lookup_elem(&filter, &word);

        if (!found && context[0]) {
            bpf_map_update_elem(&filter, &word, &zero, BPF_NOEXIST);
            found = bpf_map_lookup_elem(&filter, &word);
        }
        if (!found || !(*found & 1ull << bit % 64))
            all = 0;
        if (found && context[0])
            __sync_fetch_and_or(found, 1ull << bit % 64);
    }
    return all;
}
