// A sequence lock over two numbers that change together: who writes makes the sequence odd, writes both, and
// makes it even; who reads takes what it read where the sequence was even and is still the same. The context is
// a byte: by how much both numbers grow, or 0 to read. Who reads is answered the number, -1 where the two
// differ, and -2 where a writer was in the way each time.
#include <linux/bpf.h>
#include <bpf/bpf_helpers.h>

enum { TRIES = 2 };

// Each access to them is one instruction. There is one writer.
static volatile __u32 sequence;
static volatile __u32 sent, received;

static void write_both(__u32 by)
{
    sequence++;
    sent += by;
    received += by;
    sequence++;
}

static int read_both(void)
{
#pragma clang loop unroll(disable)
    for (int i = 0; i < TRIES; i++) {
        __u32 before = sequence, out = sent, in = received;

        if (before % 2 == 0 && sequence == before)
            return out == in ? out : -1;
    }
    return -2;
}

SEC("socket")
int seqlock(const __u8 *context)
{
    if (context[0] == 0)
        return read_both();
    write_both(context[0]);
    return 0;
}

// CPU 0 adds 5, and CPU 1 reads.
// ; always var sent=5 and var received=5
// ; never r0 of job 1 = 4294967295
// ; sometimes r0 of job 1 = 0
// ; sometimes r0 of job 1 = 5
// ; sometimes r0 of job 1 = 4294967294
