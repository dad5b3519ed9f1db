// Sorts 64 numbers on the stack by insertion, 2,000 times over, each time other numbers; r0 is a sum over all orders.
typedef unsigned int u32;
typedef unsigned long long u64;

u64 program(void *context) {
    u64 sum = 0;
    u32 seed = 1;
    for (u32 round = 0; round < 2000; round++) {
        volatile u32 numbers[64];
        for (u32 at = 0; at < 64; at++) {
            seed = seed * 1664525 + 1013904223;
            u32 number = seed >> 8, place = at;
            while (place > 0 && numbers[place - 1] > number) {
                numbers[place] = numbers[place - 1];
                place--;
            }
            numbers[place] = number;
        }
        for (u32 at = 0; at < 64; at++)
            sum = sum * 31 + numbers[at];
    }
    return sum;
}
