// A spin lock over two numbers that have to change together. The context is how often, one byte, and by
// how much, one byte.
#include <linux/bpf.h>
#include <bpf/bpf_helpers.h>

struct account {
    __u64 lock;
    __u64 out;
    __u64 in;
};

struct {
    __uint(type, BPF_MAP_TYPE_HASH);
    __uint(max_entries, 1);
    __type(key, __u8);
    __type(value, struct account);
} accounts SEC(".maps");

SEC("socket")
int lock(const __u8 *context)
{
    struct account none = {}, *it;
    __u8 key = 0;

    bpf_map_update_elem(&accounts, &key, &none, BPF_NOEXIST);
    it = bpf_map_lookup_elem(&accounts, &key);
    if (!it)
        return 1;
#pragma clang loop unroll(disable)
    for (int i = 0; i < context[0]; i++) {
        while (__sync_val_compare_and_swap(&it->lock, 0, 1) != 0)
            ;
        *(volatile __u64 *)&it->out -= context[1];
        *(volatile __u64 *)&it->in += context[1];
        __sync_lock_test_and_set(&it->lock, 0);
    }
    return 0;
}
