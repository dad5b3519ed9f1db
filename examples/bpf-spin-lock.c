// Two sums of one value, which change together: who adds to them has the value's lock, by the helpers bpf_spin_lock and
// bpf_spin_unlock, so that a load and a store are enough for each. bpf-spin-lock-c.run is made of it by tools/from-elf.
#include <linux/bpf.h>
#include <bpf/bpf_helpers.h>

struct traffic {
    struct bpf_spin_lock lock;
    __u64 packets;
    __u64 bytes;
};

struct {
    __uint(type, BPF_MAP_TYPE_ARRAY);
    __uint(max_entries, 1);
    __type(key, __u32);
    __type(value, struct traffic);
} traffic SEC(".maps");

SEC("socket")
int count(void *context)
{
    __u32 key = 0;
    struct traffic *it = bpf_map_lookup_elem(&traffic, &key);

    if (!it)
        return 1;
    bpf_spin_lock(&it->lock);
    it->packets += 1;
    it->bytes += 60;
    bpf_spin_unlock(&it->lock);
    return 0;
}

// ; check patient
// ; always array traffic 0=000000000000000002000000000000007800000000000000
