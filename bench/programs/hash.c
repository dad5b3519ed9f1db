// FNV-1a, 64 bits, of a context of 4,096 bytes, 1,000 times over; r0 is the last hash.
typedef unsigned int u32;
typedef unsigned long long u64;

u64 program(const unsigned char *context) {
    u64 hash = 0xcbf29ce484222325;
#pragma clang loop unroll(disable)
    for (u32 round = 0; round < 1000; round++) {
#pragma clang loop unroll(disable)
        for (u32 at = 0; at < 4096; at++)
            hash = (hash ^ context[at]) * 0x100000001b3;
    }
    return hash;
}
