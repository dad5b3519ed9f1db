// Peterson's lock: two CPUs keep each other out by loads and stores alone. Each says that it wants to enter, gives
// way to the other, and waits while the other wants to and has been given way. That is right where stores are
// seen in one order, as here; x86 may keep a store back behind a load, and there it takes a barrier. The context
// is who one is, 0 or 1, and how often to enter. The answer is the count as one made it last.
#include <linux/bpf.h>
#include <bpf/bpf_helpers.h>

static volatile __u32 wants[2];
static volatile __u32 turn;
static volatile __u32 count;

SEC("socket")
int peterson(const __u8 *context)
{
    __u32 me = context[0] & 1, other = !me, seen = 0;

#pragma clang loop unroll(disable)
    for (int i = 0; i < context[1]; i++) {
        wants[me] = 1;
        turn = other;
        while (wants[other] && turn == other)
            ;
        seen = count + 1;
        count = seen;
        wants[me] = 0;
    }
    return seen;
}

// Each CPU enters once. Were both inside at a time, both could make the count 1.
// ; always var count=2
// ; never r0 of job 0 = 1 and r0 of job 1 = 1
// ; never r0 of job 0 = 2 and r0 of job 1 = 2
