// The average of the last samples: an array of eight, which is summed up at each call. The context is a slot and
// a sample in two bytes. Slots from 8 on aren't there, and the answer is then the error; else it is the average.
#include <linux/bpf.h>
#include <bpf/bpf_helpers.h>

enum { SAMPLES = 8 };

struct {
    __uint(type, BPF_MAP_TYPE_ARRAY);
    __uint(max_entries, SAMPLES);
    __type(key, __u32);
    __type(value, __u16);
} samples SEC(".maps");

SEC("socket")
int average(const __u8 *context)
{
    __u32 slot = context[0], sum = 0;
    __u16 sample = context[1] | context[2] << 8;
    int error = bpf_map_update_elem(&samples, &slot, &sample, BPF_EXIST);

    if (error)
        return error;
#pragma clang loop unroll(disable)
    for (slot = 0; slot < SAMPLES; slot++) {
        __u16 *it = bpf_map_lookup_elem(&samples, &slot);

        if (it)
            sum += *it;
    }
    return sum / SAMPLES;
}
