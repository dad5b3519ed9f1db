// Two CPUs add to two global variables: to `plain` by a load, an addition and a store, so that one of the additions
// may be lost, and to `safe` by one atomic instruction. How much they add is a constant that a loader could set.
// globals.run is made of it by tools/from-elf.
#include <linux/bpf.h>
#include <bpf/bpf_helpers.h>

const volatile __u64 by = 10;
volatile __u64 plain;
__u64 safe;

SEC("socket")
int add(void *context)
{
    plain += by;
    __sync_fetch_and_add(&safe, by);
    return 0;
}

// ; always var safe=20
// ; sometimes var plain=10
// ; sometimes var plain=20
// ; always var plain=10 or var plain=20
