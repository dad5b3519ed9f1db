// A table of connections, which end by a message or by age. The context is a message: its kind (0 opens,
// 1 carries on, 2 closes), the connection in four bytes, the time in two. The answer is 0, or why not.
#include <linux/bpf.h>
#include <bpf/bpf_helpers.h>

enum { OPENS, CARRIES_ON, CLOSES };
enum { TAKEN = 1, UNKNOWN = 2, TOO_OLD = 3, FULL = 4, MALFORMED = 5 };
enum { OLDEST = 100 };

struct connection {
    __u16 last;
    __u16 messages;
};

struct {
    __uint(type, BPF_MAP_TYPE_HASH);
    __uint(max_entries, 8);
    __type(key, __u32);
    __type(value, struct connection);
} connections SEC(".maps");

SEC("socket")
int connection(const __u8 *context)
{
    __u32 key = context[1] | context[2] << 8 | context[3] << 16 | (__u32)context[4] << 24;
    __u16 now = context[5] | context[6] << 8;
    struct connection *found = bpf_map_lookup_elem(&connections, &key), new = { now, 1 };

    if (found && (__u16)(now - found->last) > OLDEST) {
        bpf_map_delete_elem(&connections, &key);
        if (context[0] != OPENS)
            return TOO_OLD;
        found = 0;
    }
    switch (context[0]) {
    case OPENS:
        if (found)
            return TAKEN;
        return bpf_map_update_elem(&connections, &key, &new, BPF_NOEXIST) ? FULL : 0;
    case CARRIES_ON:
        if (!found)
            return UNKNOWN;
        found->last = now;
        found->messages++;
        return 0;
    case CLOSES:
        return bpf_map_delete_elem(&connections, &key) ? UNKNOWN : 0;
    default:
        return MALFORMED;
    }
}
