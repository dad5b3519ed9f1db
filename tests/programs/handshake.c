// A state machine over the program's own data: the state of a connection, and a table of where each event
// leads from it, which the program changes itself (a reset closes the door that it came by). The context is a
// number of events, then each of them in a byte. The answer is the state that is reached.
#include <linux/bpf.h>
#include <bpf/bpf_helpers.h>

enum state { CLOSED, LISTENS, HALF_OPEN, OPEN, CLOSING, STATES };
enum event { CALLED, ANSWERED, FINISHED, RESET, EVENTS };

// Both begin with something other than zeros, and are in .data.
__u8 next[STATES][EVENTS] = {
    [CLOSED] = { CLOSED, CLOSED, CLOSED, LISTENS },
    [LISTENS] = { HALF_OPEN, LISTENS, LISTENS, LISTENS },
    [HALF_OPEN] = { HALF_OPEN, OPEN, CLOSED, LISTENS },
    [OPEN] = { OPEN, OPEN, CLOSING, LISTENS },
    [CLOSING] = { CLOSING, LISTENS, CLOSING, CLOSED },
};
enum state state = LISTENS;
// And these with zeros, in .bss.
__u32 resets;
__u64 taken[EVENTS];

SEC("socket")
int handshake(const __u8 *context)
{
#pragma clang loop unroll(disable)
    for (int i = 1; i <= context[0]; i++) {
        __u8 event = context[i];

        if (event >= EVENTS || state >= STATES)
            continue;
        taken[event]++;
        if (event == RESET && resets++ % 4 == 3)
            next[state][CALLED] = state;
        state = next[state][event];
    }
    return state;
}
