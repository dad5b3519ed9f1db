"""Litmus tests: what CPUs do to shared values, as abstract operations, the outcomes that an order of
all operations can have, and two run files that do the same: over values of a map, which CPUs insert and look
up first, and over global variables, which are there from the first on.

An operation is ("read", variable, register), ("write", variable, number), ("add", variable, number,
register), ("exchange", variable, number, register) or ("compare", variable, expected, number,
register): add and exchange are atomic and put the number found into the register, compare puts the
new number where the expected one stands. Or it is ("write sum", variable, register, number), which
writes the register's number and this one together, or ("unless", register, number, count), which
passes over so many operations unless the register has this number. What a CPU comes to is its
registers, in order, as digits.

The enumeration knows nothing of BPF: it takes one operation of some CPU after the other.
"""

READ, WRITE, ADD, EXCHANGE, COMPARE = "read", "write", "add", "exchange", "compare"
SUM, UNLESS = "write sum", "unless"
# Where the values of the first array begin (docs/reference/machine.md).
FIRST_ARRAY = 0x11_0000_0000

# By name: what it shows, and each CPU's operations. Named as in the literature (herd7, the Linux
# kernel's memory model); the outcome that weaker processors add is one that none of these may have.
TESTS = {
    "store-buffering": (
        "Each CPU writes one variable and reads the other: not both read 0.",
        [[(WRITE, "x", 1), (READ, "y", "a")], [(WRITE, "y", 1), (READ, "x", "a")]],
    ),
    "message-passing": (
        "A number and then a flag: who sees the flag sees the number.",
        [[(WRITE, "x", 1), (WRITE, "y", 1)], [(READ, "y", "a"), (READ, "x", "b")]],
    ),
    "load-buffering": (
        "Each CPU reads one variable and writes the other: not both read 1.",
        [[(READ, "x", "a"), (WRITE, "y", 1)], [(READ, "y", "a"), (WRITE, "x", 1)]],
    ),
    "two-writes-twice": (
        "2+2W: both CPUs write both variables, in opposite orders: not both first writes are last.",
        [[(WRITE, "x", 1), (WRITE, "y", 2)], [(WRITE, "y", 1), (WRITE, "x", 2)]],
    ),
    "read-after-write": (
        "R: who writes y last and reads x 0 wrote y before the other wrote x.",
        [[(WRITE, "x", 1), (WRITE, "y", 1)], [(WRITE, "y", 2), (READ, "x", "a")]],
    ),
    "write-after-read": (
        "S: who reads the flag writes the number after it was first written.",
        [[(WRITE, "x", 2), (WRITE, "y", 1)], [(READ, "y", "a"), (WRITE, "x", 1)]],
    ),
    "write-to-read-causality": (
        "WRC: what a CPU has read it passes on.",
        [
            [(WRITE, "x", 1)],
            [(READ, "x", "a"), (WRITE, "y", 1)],
            [(READ, "y", "a"), (READ, "x", "b")],
        ],
    ),
    "causality-over-three": (
        "ISA2: a message by way of another CPU.",
        [
            [(WRITE, "x", 1), (WRITE, "y", 1)],
            [(READ, "y", "a"), (WRITE, "z", 1)],
            [(READ, "z", "a"), (READ, "x", "b")],
        ],
    ),
    "independent-reads": (
        "IRIW: two readers never disagree on the order of two writes.",
        [
            [(WRITE, "x", 1)],
            [(WRITE, "y", 1)],
            [(READ, "x", "a"), (READ, "y", "b")],
            [(READ, "y", "a"), (READ, "x", "b")],
        ],
    ),
    "coherence-of-reads": (
        "CoRR: two reads of one variable never see the newer number first.",
        [[(WRITE, "x", 1)], [(READ, "x", "a"), (READ, "x", "b")]],
    ),
    "coherence-of-read-and-write": (
        "CoRW: a CPU never reads what it writes only later.",
        [[(READ, "x", "a"), (WRITE, "x", 1)], [(WRITE, "x", 2)]],
    ),
    "coherence-of-write-and-read": (
        "CoWR: a CPU never reads what was there before its own write.",
        [[(WRITE, "x", 1), (READ, "x", "a")], [(WRITE, "x", 2)]],
    ),
    "coherence-of-writes": (
        "CoWW: of two writes of one CPU the second is the later one.",
        [[(WRITE, "x", 1), (WRITE, "x", 2)], [(READ, "x", "a")]],
    ),
    "lost-addition": (
        "Both read and then write: an addition may be lost.",
        [
            [(READ, "x", "a"), (WRITE, "x", 1)],
            [(READ, "x", "a"), (WRITE, "x", 2)],
        ],
    ),
    "additions": (
        "Atomic additions: none is lost, and each finds another number.",
        [[(ADD, "x", 1, "a")], [(ADD, "x", 1, "a")], [(ADD, "x", 1, "a")]],
    ),
    "one-compare-wins": (
        "Of three compare-exchanges from 0 just one wins.",
        [
            [(COMPARE, "x", 0, 1, "a")],
            [(COMPARE, "x", 0, 2, "a")],
            [(COMPARE, "x", 0, 3, "a")],
        ],
    ),
    "one-exchange-wins": (
        "Of two exchanges just one finds 0.",
        [[(EXCHANGE, "x", 1, "a"), (READ, "y", "b")], [(EXCHANGE, "x", 2, "a"), (WRITE, "y", 1)]],
    ),
    "store-buffering-by-exchange": (
        "Store buffering whose writes are exchanges: not both read 0.",
        [[(EXCHANGE, "x", 1, "b"), (READ, "y", "a")], [(EXCHANGE, "y", 1, "b"), (READ, "x", "a")]],
    ),
    "store-buffering-with-own-reads": (
        "SB+rfis: each CPU also reads what it wrote itself: not both then read 0 of the other's.",
        [
            [(WRITE, "x", 1), (READ, "x", "a"), (READ, "y", "b")],
            [(WRITE, "y", 1), (READ, "y", "a"), (READ, "x", "b")],
        ],
    ),
    "own-read-before-the-other-s-write": (
        "n6: who reads its own x, and then y 0, wrote x before the other did.",
        [[(WRITE, "x", 1), (READ, "x", "a"), (READ, "y", "b")], [(WRITE, "y", 2), (WRITE, "x", 2)]],
    ),
    "turns-of-two": (
        "Peterson's entry: not both read that the other doesn't want to, or that it is their turn.",
        [
            [(WRITE, "x", 1), (WRITE, "z", 1), (READ, "y", "a"), (READ, "z", "b")],
            [(WRITE, "y", 1), (WRITE, "z", 2), (READ, "x", "a"), (READ, "z", "b")],
        ],
    ),
    "flags-of-two": (
        "Dekker's entry: who wants to, and reads that the other doesn't, adds to z: no addition is lost.",
        [
            [(WRITE, "x", 1), (READ, "y", "a"), (UNLESS, "a", 0, 2), (READ, "z", "b"), (SUM, "z", "b", 1)],
            [(WRITE, "y", 1), (READ, "x", "a"), (UNLESS, "a", 0, 2), (READ, "z", "b"), (SUM, "z", "b", 1)],
        ],
    ),
    "lock": (
        "Who takes the lock x adds to y by a read and a write: no addition is lost of two that both took it.",
        2 * [[(COMPARE, "x", 0, 1, "a"), (UNLESS, "a", 0, 3), (READ, "y", "b"), (SUM, "y", "b", 1), (WRITE, "x", 0)]],
    ),
}


def variables_of(cpus):
    return sorted({operation[1] for cpu in cpus for operation in cpu if operation[0] != UNLESS})


def registers_of(cpu):
    return sorted({op[-1] for op in cpu if op[0] in (READ, ADD, EXCHANGE, COMPARE)})


def performed(operation, memory, registers):
    """What memory and registers are after the operation."""
    kind, variable = operation[0], operation[1]
    if kind == UNLESS:
        return memory, registers
    found = memory[variable]
    if kind == WRITE:
        return {**memory, variable: operation[2]}, registers
    if kind == SUM:
        return {**memory, variable: registers[operation[2]] + operation[3]}, registers
    left = {
        READ: found,
        ADD: found + operation[2] if kind == ADD else None,
        EXCHANGE: operation[2] if kind == EXCHANGE else None,
        COMPARE: (operation[3] if found == operation[2] else found) if kind == COMPARE else None,
    }[kind]
    return {**memory, variable: left}, {**registers, operation[-1]: found}


def passed(operation, registers):
    """How many operations the CPU goes on by."""
    skips = operation[0] == UNLESS and registers[operation[1]] != operation[2]
    return 1 + (operation[3] if skips else 0)


def outcomes(cpus):
    """Each CPU's number, and what the variables hold in the end, of every order of the operations."""
    names = variables_of(cpus)
    ended, seen = set(), set()
    waiting = [((0,) * len(cpus), (0,) * len(names), ((),) * len(cpus))]
    while waiting:
        state = waiting.pop()
        if state in seen:
            continue
        seen.add(state)
        places, memory, registers = state
        if all(place == len(cpu) for place, cpu in zip(places, cpus)):
            numbers = tuple(
                int("".join(str(dict(known).get(name, 0)) for name in registers_of(cpu)) or "0")
                for known, cpu in zip(registers, cpus)
            )
            ended.add((numbers, memory))
            continue
        for number, cpu in enumerate(cpus):
            if places[number] < len(cpu):
                operation, known = cpu[places[number]], dict(registers[number])
                new_memory, new_registers = performed(operation, dict(zip(names, memory)), known)
                by = passed(operation, known)
                waiting.append(
                    (
                        tuple(p + (by if n == number else 0) for n, p in enumerate(places)),
                        tuple(new_memory[name] for name in names),
                        tuple(
                            tuple(sorted(new_registers.items())) if n == number else known
                            for n, known in enumerate(registers)
                        ),
                    )
                )
    return ended


def report(numbers, memory, names=None):
    """What `ebpf run --maps` prints of an outcome: of values of a map, or of global variables of these names."""
    lines = [f"job {n} cpu {n} r0={number}" for n, number in enumerate(numbers)]
    if names is None:
        lines += [
            f"map shared {key.to_bytes(4, 'little').hex()}={value.to_bytes(8, 'little').hex()}"
            for key, value in enumerate(memory)
        ]
    else:
        lines += [f"var {name}={value}" for name, value in zip(names, memory)]
    return "".join(line + "\n" for line in lines)


def program_of(cpu, names):
    """The lines of a CPU's program: it inserts each of its variables unless it is there, looks it up,
    and then does its operations."""
    lines, places = [], {}
    for register, name in enumerate(variables_of([cpu]), start=6):
        places[name] = f"r{register}"
        lines += [
            f"*(u32 *)(r10 - 4) = {names.index(name)}",
            "*(u64 *)(r10 - 16) = 0",
            "r1 = map 0",
            "r2 = r10",
            "r2 += -4",
            "r3 = r10",
            "r3 += -16",
            "r4 = 1",
            "call 2",
            "r1 = map 0",
            "r2 = r10",
            "r2 += -4",
            "call 1",
            f"r{register} = r0",
        ]
    saved = {name: 24 + 8 * n for n, name in enumerate(registers_of(cpu))}
    labels = {}
    for number, operation in enumerate(cpu):
        if number in labels:
            lines += [f"{labels[number]}:"]
        if operation[0] == UNLESS:
            labels[number + 1 + operation[3]] = label = f"after{number}"
            lines += [f"r1 = *(u64 *)(r10 - {saved[operation[1]]})", f"if r1 != {operation[2]} goto {label}"]
            continue
        at = f"*(u64 *)({places[operation[1]]} + 0)"
        if operation[0] == WRITE:
            lines += [f"r1 = {operation[2]}", f"{at} = r1"]
            continue
        if operation[0] == SUM:
            lines += [f"r1 = *(u64 *)(r10 - {saved[operation[2]]})", f"r1 += {operation[3]}", f"{at} = r1"]
            continue
        if operation[0] == READ:
            lines += [f"r1 = {at}"]
        elif operation[0] == ADD:
            lines += [f"r1 = {operation[2]}", f"r1 = atomic_fetch_add((u64 *)({places[operation[1]]} + 0), r1)"]
        elif operation[0] == EXCHANGE:
            lines += [f"r1 = {operation[2]}", f"r1 = xchg_64({places[operation[1]]} + 0, r1)"]
        else:
            lines += [
                f"r0 = {operation[2]}",
                f"r1 = {operation[3]}",
                f"r0 = cmpxchg_64({places[operation[1]]} + 0, r0, r1)",
                "r1 = r0",
            ]
        lines += [f"*(u64 *)(r10 - {saved[operation[-1]]}) = r1"]
    lines += [f"{labels[len(cpu)]}:"] if len(cpu) in labels else []
    lines += ["r0 = 0"]
    for place in saved.values():
        lines += ["r0 *= 10", f"r1 = *(u64 *)(r10 - {place})", "r0 += r1"]
    return lines + ["exit"]


def operation_over_globals(operation, at, kept):
    """The lines of an operation on the variable at this place; `kept` has the BPF register of each register."""
    into = kept.get(operation[-1])
    if operation[0] == WRITE:
        return [f"*(u64 *)({at}) = {operation[2]}"]
    if operation[0] == SUM:
        return [f"r1 = {kept[operation[2]]}", f"r1 += {operation[3]}", f"*(u64 *)({at}) = r1"]
    if operation[0] == READ:
        return [f"{into} = *(u64 *)({at})"]
    if operation[0] == ADD:
        return [f"{into} = {operation[2]}", f"{into} = atomic_fetch_add((u64 *)({at}), {into})"]
    if operation[0] == EXCHANGE:
        return [f"{into} = {operation[2]}", f"{into} = xchg_64({at}, {into})"]
    return [f"r0 = {operation[2]}", f"r1 = {operation[3]}", f"r0 = cmpxchg_64({at}, r0, r1)", f"{into} = r0"]


def program_over_globals(cpu, names):
    """The lines of a CPU's program over globals: its operations alone."""
    lines, labels = [f"r6 = {FIRST_ARRAY:#x} ll"], {}
    kept = {name: f"r{number}" for number, name in enumerate(registers_of(cpu), start=7)}
    for number, operation in enumerate(cpu):
        lines += [f"{labels[number]}:"] if number in labels else []
        if operation[0] == UNLESS:
            labels[number + 1 + operation[3]] = label = f"after{number}"
            lines += [f"if {kept[operation[1]]} != {operation[2]} goto {label}"]
        else:
            lines += operation_over_globals(operation, f"r6 + {8 * names.index(operation[1])}", kept)
    lines += [f"{labels[len(cpu)]}:"] if len(cpu) in labels else []
    lines += ["r0 = 0"] if not kept else []
    for number, register in enumerate(kept.values()):
        lines += [f"r0 = {register}"] if number == 0 else ["r0 *= 10", f"r0 += {register}"]
    return lines + ["exit"]


def run_file_over_globals(name):
    """The run file of a test over globals."""
    shown, cpus = TESTS[name]
    return file_over_globals(cpus, [f"; {shown}", "; Made by tests/schedules/litmus.py."])


def file_over_globals(cpus, comments=()):
    """The run file of CPUs with these operations on globals."""
    names = variables_of(cpus)
    lines = [
        *comments,
        "ebpf-run 3",
        f"cpus {len(cpus)}",
        f"array globals value {8 * len(names)} max 1",
        *(f"var {name} globals {8 * place} 8" for place, name in enumerate(names)),
    ]
    for number, cpu in enumerate(cpus):
        lines += ["", f"prog cpu{number}"]
        lines += ["        " + line for line in program_over_globals(cpu, names)]
        lines += ["end"]
    lines += [""] + [f"job {number} cpu{number}" for number in range(len(cpus))]
    return "".join(line + "\n" for line in lines)


def files():
    """Each run file by its name: the test's, and `-of-globals` after it where it is over globals."""
    for name in TESTS:
        yield name, run_file(name)
        yield f"{name}-of-globals", run_file_over_globals(name)


def reports(name):
    """What may be printed of the run file of this name."""
    test = name.removesuffix("-of-globals")
    names = variables_of(TESTS[test][1]) if test != name else None
    return {report(*outcome, names) for outcome in outcomes(TESTS[test][1])}


def run_file(name):
    """The run file of a test over a map. Each CPU may have an element in hand for each variable at once, so there
    are enough to spare: by workers an insertion is answered -ENOMEM else."""
    shown, cpus = TESTS[name]
    names = variables_of(cpus)
    lines = [
        f"; {shown}",
        f"; The variables {', '.join(names)} are the keys 0 on. Made by tests/schedules/litmus.py.",
        "ebpf-run 1",
        f"cpus {len(cpus)}",
        f"map shared key 4 value 8 max {len(names)} spare 16",
    ]
    for number, cpu in enumerate(cpus):
        lines += ["", f"prog cpu{number}"]
        lines += ["        " + line for line in program_of(cpu, names)]
        lines += ["end"]
    lines += [""] + [f"job {number} cpu{number}" for number in range(len(cpus))]
    return "".join(line + "\n" for line in lines)
