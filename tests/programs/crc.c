// CRC-32 (IEEE 802.3) by a constant table of 16 numbers, four bits at a time. The table and the two constants are in
// .rodata, which a program reads and can't write; how many bytes came is counted in .bss. The context is a
// length and as many bytes. The answer is their CRC.
#include <linux/bpf.h>
#include <bpf/bpf_helpers.h>

// Whoever loads the program could set these.
const volatile __u32 first = 0xffffffff, last = 0xffffffff;

static const __u32 table[16] = {
    0x00000000, 0x1db71064, 0x3b6e20c8, 0x26d930ac, 0x76dc4190, 0x6b6b51f4, 0x4db26158, 0x5005713c,
    0xedb88320, 0xf00f9344, 0xd6d6a3e8, 0xcb61b38c, 0x9b64c2b0, 0x86d3d2d4, 0xa00ae278, 0xbdbdf21c,
};

static __u64 bytes;

SEC("socket")
int crc(const __u8 *context)
{
    __u32 sum = first;

#pragma clang loop unroll(disable)
    for (int i = 1; i <= context[0]; i++) {
        sum ^= context[i];
        sum = table[sum & 15] ^ sum >> 4;
        sum = table[sum & 15] ^ sum >> 4;
    }
    __sync_fetch_and_add(&bytes, context[0]);
    return sum ^ last;
}
