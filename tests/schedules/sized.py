"""Stores and loads of unequal sizes on CPUs with store buffers: drawn programs over sixteen bytes, and every outcome of every
order of operations and flushes, byte by byte.

An operation is ("store", at, size, number) or ("load", at, size). A load takes each byte from the newest of its CPU's
stores that waits and has it, or else from memory. It shares nothing with the program.
"""

import random

from .litmus import FIRST_ARRAY

BYTES = 16
SIZES = (1, 2, 4, 8)
WORD = 2**64
# By what a CPU's r0 is multiplied before what it loads is added.
FACTOR = 1_000_003


def draw_test(seed):
    """Two CPUs, each of which stores and then loads, mostly to the same eight bytes."""
    draw = random.Random(seed)

    def draw_operation(kind):
        size = draw.choice(SIZES)
        at = draw.randrange(0, 8, size) + (8 if draw.random() < 0.3 else 0)
        return ("load", at, size) if kind == "load" else ("store", at, size, draw.randrange(1, 2 ** min(31, 8 * size)))

    kinds = [["store", "load", "load"], ["store", "store", "load"], ["store", "load"]]
    return [[draw_operation(kind) for kind in draw.choice(kinds)] for _ in range(2)]


def written(memory, at, size, number):
    return memory[:at] + number.to_bytes(size, "little") + memory[at + size :]


def outcomes(cpus):
    """Each CPU's r0, and what memory holds in the end."""
    ended, seen = set(), set()
    pending = [((0,) * len(cpus), bytes(BYTES), (0,) * len(cpus), ((),) * len(cpus))]
    while pending:
        state = pending.pop()
        if state in seen:
            continue
        seen.add(state)
        places, memory, sums, buffers = state
        if all(place == len(cpu) for place, cpu in zip(places, cpus)) and not any(buffers):
            ended.add((sums, memory))
        for number, cpu in enumerate(cpus):

            def put(whole, mine):
                return (*whole[:number], mine, *whole[number + 1 :])

            if buffers[number]:
                oldest, *rest = buffers[number]
                pending.append((places, written(memory, *oldest), sums, put(buffers, tuple(rest))))
            if places[number] == len(cpu):
                continue
            kind, *access = cpu[places[number]]
            moved = put(places, places[number] + 1)
            if kind == "store":
                pending.append((moved, memory, sums, put(buffers, (*buffers[number], tuple(access)))))
                continue
            own = memory
            for waiting in buffers[number]:
                own = written(own, *waiting)
            at, size = access
            found = int.from_bytes(own[at : at + size], "little")
            pending.append((moved, memory, put(sums, (sums[number] * FACTOR + found) % WORD), buffers))
    return ended


def run_file(cpus):
    lines = ["ebpf-run 3", f"cpus {len(cpus)}", f"array bytes value {BYTES} max 1", "var low bytes 0 8", "var high bytes 8 8"]
    for number, cpu in enumerate(cpus):
        lines += ["", f"prog cpu{number}", f"r6 = {FIRST_ARRAY:#x} ll", "r7 = 0"]
        for kind, at, size, *what in cpu:
            place = f"*(u{8 * size} *)(r6 + {at})"
            lines += [f"{place} = {what[0]}"] if kind == "store" else [f"r8 = {place}", f"r7 *= {FACTOR}", "r7 += r8"]
        lines += ["r0 = r7", "exit", "end"]
    lines += [""] + [f"job {number} cpu{number}" for number in range(len(cpus))]
    return "".join(line + "\n" for line in lines)


def report(sums, memory):
    """What `ebpf run --maps` prints of an outcome."""
    lines = [f"job {number} cpu {number} r0={found}" for number, found in enumerate(sums)]
    lines += [f"var {name}={int.from_bytes(memory[at : at + 8], 'little')}" for name, at in (("low", 0), ("high", 8))]
    return "".join(line + "\n" for line in lines)
