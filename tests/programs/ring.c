// A ring of at most eight tasks, by one producer and one consumer. The context is what to do (0 takes,
// 1 puts), and a task in four bytes. The answer is the task that was taken or put, or 0 where there is
// none, or no room.
#include <linux/bpf.h>
#include <bpf/bpf_helpers.h>

enum { ROOM = 8 };

struct ends {
    __u32 taken;
    __u32 put;
};

struct {
    __uint(type, BPF_MAP_TYPE_HASH);
    __uint(max_entries, 1);
    __type(key, __u8);
    __type(value, struct ends);
} ends SEC(".maps");

struct {
    __uint(type, BPF_MAP_TYPE_HASH);
    __uint(max_entries, ROOM);
    __type(key, __u32);
    __type(value, __u32);
} tasks SEC(".maps");

SEC("socket")
int ring(const __u8 *context)
{
    __u32 task = context[1] | context[2] << 8 | context[3] << 16 | (__u32)context[4] << 24, place;
    struct ends none = {}, *it;
    __u32 *found;
    __u8 key = 0;

    bpf_map_update_elem(&ends, &key, &none, BPF_NOEXIST);
    it = bpf_map_lookup_elem(&ends, &key);
    if (!it)
        return 0;
    if (context[0]) {
        if (it->put - it->taken == ROOM)
            return 0;
        place = it->put % ROOM;
        if (bpf_map_update_elem(&tasks, &place, &task, BPF_ANY))
            return 0;
        __sync_fetch_and_add(&it->put, 1);
        return task;
    }
    if (it->put == it->taken)
        return 0;
    place = it->taken % ROOM;
    found = bpf_map_lookup_elem(&tasks, &place);
    if (!found)
        return 0;
    task = *found;
    __sync_fetch_and_add(&it->taken, 1);
    return task;
}
