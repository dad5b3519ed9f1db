// The yardstick of map calls: std::map of byte strings, for the same keys in the same order as the programs of
// bench/maps. usage: maps KEYS CALLS; prints nanoseconds of the processor a lookup, an update and a deletion with an
// insertion.
#include <cstdint>
#include <cstdio>
#include <cstdlib>
#include <cstring>
#include <ctime>
#include <map>
#include <string>

using Bytes = std::string;

static Bytes key_of(uint32_t number, uint32_t keys) {
    uint32_t key = (number * 40503u) & (keys - 1);
    return Bytes(reinterpret_cast<const char *>(&key), sizeof key);
}

static double now() {
    timespec time;
    clock_gettime(CLOCK_PROCESS_CPUTIME_ID, &time);
    return time.tv_sec * 1e9 + time.tv_nsec;
}

template <typename Call> static double nanoseconds(uint32_t calls, Call call) {
    double start = now();
    for (uint32_t number = 0; number < calls; number++)
        call(number);
    return (now() - start) / calls;
}

int main(int, char **argv) {
    uint32_t keys = strtoul(argv[1], nullptr, 10), calls = strtoul(argv[2], nullptr, 10);
    std::map<Bytes, Bytes> map;
    const Bytes value(8, '\1');
    for (uint32_t number = 0; number < keys; number++)
        map[key_of(number, keys)] = value;
    uint64_t sum = 0;
    double lookups = nanoseconds(calls, [&](uint32_t number) {
        auto found = map.find(key_of(number, keys));
        sum += reinterpret_cast<uintptr_t>(found->second.data());
    });
    double updates = nanoseconds(calls, [&](uint32_t number) { map[key_of(number, keys)] = value; });
    double pairs = nanoseconds(calls, [&](uint32_t number) {
        Bytes key = key_of(number, keys);
        map.erase(key);
        map[key] = value;
    });
    printf("%f %f %f %d\n", lookups, updates, pairs / 2, static_cast<int>(sum & 1));
}
