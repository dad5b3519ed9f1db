// A lock of a program's own making: the value's first word is the lock, its second a count that is
// changed by who has the lock alone, so that a load and a store are enough. lock.run is made of it
// by tools/from-elf.
#include <linux/bpf.h>
#include <bpf/bpf_helpers.h>

struct guarded {
    __u64 lock;
    __u64 count;
};

struct {
    __uint(type, BPF_MAP_TYPE_HASH);
    __uint(max_entries, 1);
    __type(key, __u32);
    __type(value, struct guarded);
} guarded SEC(".maps");

static __attribute__((noinline)) void add(struct guarded *it)
{
    while (__sync_val_compare_and_swap(&it->lock, 0, 1) != 0)
        ;
    *(volatile __u64 *)&it->count += 1;
    __sync_lock_test_and_set(&it->lock, 0);
}

SEC("socket")
int count(void *context)
{
    struct guarded none = {}, *it;
    __u32 key = 0;

    bpf_map_update_elem(&guarded, &key, &none, BPF_NOEXIST);
    it = bpf_map_lookup_elem(&guarded, &key);
    if (!it)
        return 1;
#pragma clang loop unroll(disable)
    for (int i = 0; i < 10; i++)
        add(it);
    return 0;
}
