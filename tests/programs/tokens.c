// A bucket of tokens that all CPUs share: time and tokens are one number of 64 bits, which is changed by a
// compare-exchange alone, so that no token is spent twice. The context is the time in ticks, four bytes, and how
// many tokens the packet costs. 1 lets the packet through, 0 doesn't.
#include <linux/bpf.h>
#include <bpf/bpf_helpers.h>

// Whoever loads the program could set these: what the bucket holds, and what a tick brings.
const volatile __u32 most = 8, each_tick = 1;

// The time in the upper half, the tokens in the lower: at first it is full.
__u64 bucket = 8;
__u64 passed, dropped;

SEC("socket")
int tokens(const __u8 *context)
{
    __u32 now = context[0] | context[1] << 8 | context[2] << 16 | (__u32)context[3] << 24, cost = context[4];
    __u64 old, new;
    int passes;

    do {
        old = *(volatile __u64 *)&bucket;
        __u32 filled = old >> 32, left = old, gained = now > filled ? (now - filled) * each_tick : 0;

        left = gained >= most - left ? most : left + gained;
        passes = left >= cost;
        new = (__u64)(now > filled ? now : filled) << 32 | (passes ? left - cost : left);
    } while (__sync_val_compare_and_swap(&bucket, old, new) != old);
    __sync_fetch_and_add(passes ? &passed : &dropped, 1);
    return passes;
}

// Two packets come at one time, each of 5 tokens.
// ; always var bucket=3 and var passed=1 and var dropped=1
// ; always r0 of job 0 = 1 or r0 of job 1 = 1
// ; never r0 of job 0 = 1 and r0 of job 1 = 1
