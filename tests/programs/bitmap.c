// A bitmap of ports: who sees a port sets its bit by an atomic or, which answers what was there, so that of all
// CPUs just one is the first to see it. The context is a number of ports, then each of them in a byte. The
// answer is of how many it was the first.
#include <linux/bpf.h>
#include <bpf/bpf_helpers.h>

static __u64 seen[256 / 64];

SEC("socket")
int bitmap(const __u8 *context)
{
    int first = 0;

#pragma clang loop unroll(disable)
    for (int i = 1; i <= context[0]; i++) {
        __u64 bit = 1ull << context[i] % 64, before = __sync_fetch_and_or(&seen[context[i] / 64], bit);

        first += !(before & bit);
    }
    return first;
}

// Two CPUs see port 65 and port 66 each.
// ; never r0 of job 0 = 2 and r0 of job 1 != 0
// ; never r0 of job 0 = 1 and r0 of job 1 != 1
// ; never r0 of job 0 = 0 and r0 of job 1 != 2
// ; sometimes r0 of job 0 = 1 and r0 of job 1 = 1
