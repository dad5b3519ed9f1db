// A ring of at most four tasks over global variables, by one producer and one consumer: each writes one of
// the two ends alone, and only after the task. So no lock is needed where stores are seen in their order, as
// they are here. The context is what to do (0 takes, 1 puts), and a task in four bytes. The answer is the
// task that was taken or put, or 0 where there is none, or no room.
#include <linux/bpf.h>
#include <bpf/bpf_helpers.h>

enum { ROOM = 4 };

static volatile __u32 put, taken;
static volatile __u32 tasks[ROOM];

SEC("socket")
int queue(const __u8 *context)
{
    __u32 task = context[1] | context[2] << 8 | context[3] << 16 | (__u32)context[4] << 24;

    if (context[0]) {
        if (put - taken == ROOM)
            return 0;
        tasks[put % ROOM] = task;
        put++;
        return task;
    }
    if (put == taken)
        return 0;
    task = tasks[taken % ROOM];
    taken++;
    return task;
}

// CPU 0 puts 7 and 9, and CPU 1 takes twice: what it takes comes in this order, whole, and once.
// ; always var put=2
// ; always r0 of job 2 = 0 or r0 of job 2 = 7
// ; always r0 of job 3 != 9 or r0 of job 2 = 7
// ; always r0 of job 3 != 7 or r0 of job 2 = 0
// ; sometimes r0 of job 2 = 7 and r0 of job 3 = 9
