"""A small model of CPUs that run programs over one map, for a few instructions, and every outcome
that any order of their turns can have, by going through all of it.

It shares nothing with the program: states are Python values, each turn of each CPU is made from each
state, and nothing is left out for being private. What the instructions, helpers and turns do is
written down here after docs/reference/machine.md.
"""

import random
from itertools import combinations

WORD = 2**64
EEXIST, ENOENT, E2BIG, ENOMEM = WORD - 17, WORD - 2, WORD - 7, WORD - 12
ANSWERS = {0: "done", EEXIST: "EEXIST", ENOENT: "ENOENT", E2BIG: "E2BIG", ENOMEM: "ENOMEM"}
KEY, VALUE = "key", "value"
NO_CPU = frozenset()
LOCKS = ("lock", "unlock")
ACCESSES = ("load", "store", "add", "fetch_add", "exchange", "compare", *LOCKS)
# What a lock has of the number that is the value.
LOW = 2**32
# Steps that are left in a job's budget before each turn, where none is ever used up.
ENOUGH = 2

# An instruction is its text, its words, and what it does: a tuple of a name and operands.


def text_of(instruction):
    kind, *operands = instruction
    return {
        "set": "{0} = {1}",
        "copy": "{0} = {1}",
        "plus": "{0} += {1}",
        "key": "*(u32 *)(r10 - 4) = {0}",
        "value": "*(u64 *)(r10 - 16) = {0}",
        "map": "r1 = map 0",
        "top2": "r2 = r10",
        "to_key": "r2 += -4",
        "top3": "r3 = r10",
        "to_value": "r3 += -16",
        "call": "call {0}",
        "lock": "call 93",
        "unlock": "call 94",
        "load": "{0} = *(u64 *)({1} + 0)",
        "store": "*(u64 *)({0} + 0) = {1}",
        "add": "lock *(u64 *)({0} + 0) += {1}",
        "fetch_add": "{1} = atomic_fetch_add((u64 *)({0} + 0), {1})",
        "exchange": "{1} = xchg_64({0} + 0, {1})",
        "compare": "r0 = cmpxchg_64({0} + 0, r0, {1})",
        "if_zero": "if {0} == 0 goto {1:+}",
        "exit": "exit",
    }[kind].format(*operands)


def words_of(instruction):
    return 2 if instruction[0] == "map" else 1


class Program:
    def __init__(self, instructions):
        self.instructions = instructions
        self.at = {}
        pc = 0
        for instruction in instructions:
            self.at[pc] = instruction
            pc += words_of(instruction)

    def lines(self):
        return [text_of(instruction) for instruction in self.instructions]


# What a CPU has in hand: job, pc, registers, the key's and the value's bytes, steps left, the held
# elements. A register holds a number, or ("element", n) for a value's address.
# What the store has: keys with their elements, each element's value, the CPUs in a run, and of each
# element the CPUs that keep it.


class File:
    def __init__(self, cpus, most, spare, jobs, pairs=()):
        self.cpus, self.most, self.spare = cpus, most, spare
        # the map's keys at first, each with its number
        self.pairs = pairs
        # (cpu, program, budget)
        self.jobs = jobs

    def text(self):
        version = 3 if self.pairs else 1
        lines = [f"ebpf-run {version}", f"cpus {self.cpus}", f"map m key 4 value 8 max {self.most} spare {self.spare}"]
        lines += [f"put m {key.to_bytes(4, 'little').hex()} {number.to_bytes(8, 'little').hex()}" for key, number in self.pairs]
        for number, (_, program, _) in enumerate(self.jobs):
            lines += [f"prog p{number}", *program.lines(), "end"]
        lines += [f"job {cpu} p{n} budget {budget}" for n, (cpu, _, budget) in enumerate(self.jobs)]
        return "".join(line + "\n" for line in lines)

    def first(self):
        numbers = [number for _, number in self.pairs] + [0] * (self.most + self.spare - len(self.pairs))
        elements = tuple((number, NO_CPU) for number in numbers)
        keys = tuple(sorted((key, place) for place, (key, _) in enumerate(self.pairs)))
        return (keys, elements, frozenset()), (None,) * self.cpus, (None,) * len(self.jobs)

    # A state is the store, each CPU's hand, each job's outcome.

    def next_job(self, state, cpu):
        for number, (its, _, _) in enumerate(self.jobs):
            if its == cpu and state[2][number] is None:
                return number
        return None

    def turn(self, state, cpu):
        """The state after the CPU's turn, or none where it has no work."""
        store, hands, ends = state
        hand = hands[cpu]
        if hand is None:
            job = self.next_job(state, cpu)
            if job is None:
                return None
            registers = tuple([0] * 10)
            hand = (job, 0, registers, (0, 0), self.jobs[job][2], frozenset())
            store = (store[0], store[1], store[2] | {cpu})
        job, pc, registers, frame, left, held = hand
        if left == 0:
            outcome = f"out of budget at {pc}"
        else:
            left -= 1
            store, made = self.step(store, cpu, hand)
            if isinstance(made, str):
                outcome = made
            else:
                pc, registers, frame, held = made
                outcome = f"out of budget at {pc}" if left == 0 else None
        if outcome is None:
            hand = (job, pc, registers, frame, left, held)
        else:
            hand = None
            ends = tuple(outcome if n == job else end for n, end in enumerate(ends))
            elements = tuple((value, kept - {cpu}) for value, kept in store[1])
            store = (store[0], elements, store[2] - {cpu})
        return store, tuple(hand if n == cpu else other for n, other in enumerate(hands)), ends

    def step(self, store, cpu, hand):
        """The store, and where the CPU goes on, or the job's outcome."""
        job, pc, registers, frame, _, held = hand
        instruction = self.jobs[job][1].at[pc]
        kind, *operands = instruction
        after = pc + words_of(instruction)
        number = {f"r{n}": n for n in range(10)}

        def value(operand):
            return registers[number[operand]]

        def put(name, what):
            return tuple(what if n == number[name] else old for n, old in enumerate(registers))

        def on(new_registers=registers, new_frame=frame, new_held=held, new_pc=after):
            return new_pc, new_registers, new_frame, new_held

        keys, elements, running = store
        if kind in ("set", "copy", "plus"):
            target, source = operands
            if kind == "set":
                return store, on(put(target, source % WORD))
            if kind == "copy":
                return store, on(put(target, value(source)))
            return store, on(put(target, (value(target) + source) % WORD))
        if kind == "key":
            return store, on(new_frame=(operands[0], frame[1]))
        if kind == "value":
            return store, on(new_frame=(frame[0], operands[0]))
        if kind in ("map", "top2", "to_key", "top3", "to_value"):
            return store, on()
        if kind == "if_zero":
            taken = value(operands[0]) == 0
            return store, on(new_pc=after + (operands[1] if taken else 0))
        if kind == "exit":
            return store, f"r0={registers[0]}"
        if kind == "call":
            return self.call(store, cpu, operands[0], registers, frame, held, on)
        pointer = self.pointer(kind, operands, registers)
        if not isinstance(pointer, tuple) or pointer[1] not in held:
            return store, f"fault F1 at {pc}"
        place = pointer[1]
        old = elements[place][0]

        def written(new):
            new_elements = tuple(
                (new % WORD, kept) if n == place else (was, kept) for n, (was, kept) in enumerate(elements)
            )
            return keys, new_elements, running

        if kind == "load":
            return store, on(put(operands[0], old))
        if kind == "store":
            return written(value(operands[1])), on()
        if kind == "add":
            return written(old + value(operands[1])), on()
        if kind == "fetch_add":
            return written(old + value(operands[1])), on(put(operands[1], old))
        if kind == "exchange":
            return written(value(operands[1])), on(put(operands[1], old))
        if kind == "lock" and old % LOW:
            return store, on(new_pc=pc)
        if kind in LOCKS:
            return written(old - old % LOW + (kind == "lock")), on((0,) * 6 + registers[6:])
        # compare
        new = value(operands[1]) if old == registers[0] else old
        return written(new), on(put("r0", old))

    def pointer(self, kind, operands, registers):
        """What the register has that an access takes its address from."""
        name = "r1" if kind in LOCKS else operands[1] if kind == "load" else operands[0]
        return registers[int(name[1:])]

    def call(self, store, cpu, helper, registers, frame, held, on):
        """What a helper answers; R1 to R5 are 0 behind it."""
        keys, elements, running = store
        found = dict(keys)
        key = frame[0]

        def answered(store, answer, held=held):
            return store, on((answer, 0, 0, 0, 0, 0) + registers[6:], new_held=held)

        def freed(elements, place):
            return tuple((v, running if n == place else k) for n, (v, k) in enumerate(elements))

        if helper == 8:
            return answered(store, cpu)
        if helper == 1:
            if key not in found:
                return answered(store, 0)
            return answered(store, ("element", found[key]), held | {found[key]})
        if helper == 3:
            if key not in found:
                return answered(store, ENOENT)
            left = tuple(sorted((k, e) for k, e in found.items() if k != key))
            return answered((left, freed(elements, found[key]), running), 0)
        flags = registers[4]
        if flags == 1 and key in found:
            return answered(store, EEXIST)
        if flags == 2 and key not in found:
            return answered(store, ENOENT)
        if key not in found and len(found) == self.most:
            return answered(store, E2BIG)
        used = set(found.values())
        free = [n for n, (_, kept) in enumerate(elements) if n not in used and not kept]
        if not free:
            return answered(store, ENOMEM)
        place = free[0]
        if key in found:
            elements = freed(elements, found[key])
        elements = tuple((frame[1], NO_CPU) if n == place else e for n, e in enumerate(elements))
        found[key] = place
        return answered((tuple(sorted(found.items())), elements, running), 0)

    def report(self, state):
        (keys, elements, _), _, ends = state
        lines = [f"job {n} cpu {self.jobs[n][0]} {end}" for n, end in enumerate(ends)]
        lines += sorted(
            f"map m {key.to_bytes(4, 'little').hex()}={elements[place][0].to_bytes(8, 'little').hex()}"
            for key, place in keys
        )
        return "".join(line + "\n" for line in lines)

    def moves(self, state, turn):
        """The states that such turns lead to from this one."""
        return [after for cpu in range(self.cpus) if (after := turn(state, cpu)) is not None]

    def reached(self, turn, most):
        """Each state that such turns lead to, with those that its own turns lead to; or none where there are more than so many."""
        seen, waiting = {}, [self.first()]
        while waiting:
            state = waiting.pop()
            if state in seen:
                continue
            seen[state] = self.moves(state, turn)
            if len(seen) > most:
                return None
            waiting += seen[state]
        return seen

    def outcomes(self, most, turn=None):
        """All reports, or none where there are more states than so many; where no budget is ever used up, if the turn is
        `after`."""
        seen = self.reached(turn or self.turn, most)
        return None if seen is None else {self.report(state) for state, new in seen.items() if not new}

    def after(self, state, cpu):
        """The state after the CPU's turn, where no budget is ever used up, or none where it has no work."""
        hands = tuple(hand and (*hand[:4], ENOUGH, hand[5]) for hand in state[1])
        new = self.turn((state[0], hands, *state[2:]), cpu)
        return new and (new[0], tuple(hand and (*hand[:4], ENOUGH, hand[5]) for hand in new[1]), *new[2:])

    def endings(self, most):
        """All reports where no budget is ever used up, and of each state whether an end can be reached from it; or
        none where there are more states than so many."""
        seen = self.reached(self.after, most)
        if seen is None:
            return None
        before = {state: set() for state in seen}
        for state, new in seen.items():
            for after in new:
                before[after].add(state)
        ending = [state for state, new in seen.items() if not new]
        reports = {self.report(state) for state in ending}
        ends = dict.fromkeys(before, False)
        while ending:
            state = ending.pop()
            if not ends[state]:
                ends[state] = True
                ending += before[state]
        return reports, ends

    def state_by(self, schedule):
        """The state after the turns of a list of CPUs, where no budget is ever used up."""
        state = self.first()
        for cpu in schedule:
            state = self.after(state, cpu) or state
        return state

    def access(self, state, cpu):
        """The number of the program that the CPU runs, the pc at which it stands, the element that its next step touches,
        whether it writes that, and whether it is atomic; or none where it touches none."""
        hand = state[1][cpu]
        if hand is None or not hand[4]:
            return None
        job, pc, registers, _, _, held = hand
        kind, *operands = self.jobs[job][1].at[pc]
        if kind not in ACCESSES:
            return None
        pointer = self.pointer(kind, operands, registers)
        if not isinstance(pointer, tuple) or pointer[1] not in held:
            return None
        return job, pc, pointer[1], kind != "load", kind not in ("load", "store")

    def races_in(self, state):
        """The races in a state: two CPUs, each with its program and its pc, and the key of the value for which they race."""
        keys = {place: key.to_bytes(4, "little").hex() for key, place in state[0][0]}
        touched = [(cpu, *access) for cpu in range(self.cpus) if (access := self.access(state, cpu))]
        return {
            (*one, *other, keys.get(place, "deleted"))
            for (*one, place, writes, atomic), (*other, its, writes_too, atomic_too) in combinations(touched, 2)
            if place == its and (writes or writes_too) and not (atomic and atomic_too)
        }

    def races(self, turn, most):
        """The races in all states that such turns lead to, or none where there are more states than so many."""
        seen = self.reached(turn, most)
        return None if seen is None else {race for state in seen for race in self.races_in(state)}

    def events(self, state, cpu):
        """What the CPU does at the map in its next turn, a line each, and whether its job ends."""
        (keys, elements, running), hands, _ = state
        done = [] if hands[cpu] else ["begin"]
        number = self.next_job(state, cpu)
        hand = hands[cpu] or (number, 0, (0,) * 10, (0, 0), self.jobs[number][2], NO_CPU)
        job, pc, registers, frame, left, _ = hand
        if left:
            _, made = self.step((keys, elements, running | {cpu}), cpu, hand)
            if not isinstance(made, str):
                done += self.call_told(state[0], registers, frame, self.jobs[job][1].at[pc], made[1][0])
        if self.turn(state, cpu)[2][job] is not None:
            done.append("end")
        return "".join(f"cpu {cpu} job {job} pc {pc} {what}\n" for what in done)

    def call_told(self, store, registers, frame, instruction, answer):
        """The call of the map that an instruction makes, if it makes one; R0 then has the answer."""
        kind, *operands = instruction
        keys, elements, _ = store

        def place(element):
            return f"0x{0x1000000000 + 8 * element:x}"

        if kind == "call":
            key = frame[0].to_bytes(4, "little").hex()
            if operands[0] == 1:
                found = dict(keys).get(frame[0])
                return [f"lookup m {key} = {'none' if found is None else place(found)}"]
            if operands[0] == 2:
                value = frame[1].to_bytes(8, "little").hex()
                return [f"update m {key} {value} flags {registers[4]} = {ANSWERS[answer]}"]
            return [f"delete m {key} = {ANSWERS[answer]}"] if operands[0] == 3 else []
        if kind not in ACCESSES:
            return []
        values = {f"r{n}": number for n, number in enumerate(registers)}
        element = self.pointer(kind, operands, registers)[1]
        old, at = elements[element][0], f"8 at {place(element)}"
        if kind in LOCKS:
            change = "cmpxchg 4 at {} 1 expected 0 = {}" if kind == "lock" else "xchg 4 at {} 0 = {}"
            return [change.format(place(element), old % LOW)]
        if kind == "load":
            return [f"load {at} = {old}"]
        if kind == "store":
            return [f"store {at} {values[operands[1]]}"]
        name = {"add": "add", "fetch_add": "add", "exchange": "xchg", "compare": "cmpxchg"}[kind]
        expected = f" expected {registers[0]}" if kind == "compare" else ""
        return [f"{name} {at} {values[operands[1]]}{expected} = {old}"]

    def by(self, schedule):
        """What happens in the turns of a list of CPUs, and then in rounds, a line each, and their report."""
        state, told = self.first(), ""
        cpus = [cpu for cpu in schedule if cpu < self.cpus]
        while True:
            any_work = False
            for cpu in cpus:
                after = self.turn(state, cpu)
                if after is not None:
                    told += self.events(state, cpu)
                    state, any_work = after, True
            if not any_work and cpus == list(range(self.cpus)):
                return told, self.report(state)
            cpus = list(range(self.cpus))


def pointer_to(key):
    return [("key", key), ("map",), ("top2",), ("to_key",), ("call", 1), ("copy", "r6", "r0")]


def update(key, number, flags):
    return [
        ("key", key),
        ("value", number),
        ("map",),
        ("top2",),
        ("to_key",),
        ("top3",),
        ("to_value",),
        ("set", "r4", flags),
        ("call", 2),
        ("copy", "r7", "r0"),
    ]


def draw_key(draw):
    return 1 if draw.random() < 0.2 else 0


def draw_call(draw):
    """A change of the map, whose answer is kept in R7."""
    key = draw_key(draw)
    if draw.random() < 0.3:
        return [("key", key), ("map",), ("top2",), ("to_key",), ("call", 3), ("copy", "r7", "r0")]
    return update(key, draw.randrange(1, 4), draw.choice([0, 0, 1, 2]))


def draw_access(draw):
    """A look at a value, and something done to it: where the key is absent a fault, or nothing."""
    lines = pointer_to(draw_key(draw))
    number = draw.randrange(1, 4)
    kind = draw.choice(["load", "store", "add", "fetch_add", "exchange", "compare", "slow"])
    if kind == "load":
        body = [("load", "r7", "r6")]
    elif kind == "slow":
        body = [("load", "r7", "r6"), ("plus", "r7", number), ("store", "r6", "r7")]
    elif kind == "compare":
        body = [("set", "r0", draw.randrange(3)), ("set", "r7", number), ("compare", "r6", "r7"), ("copy", "r7", "r0")]
    else:
        body = [("set", "r7", number), (kind, "r6", "r7")]
    if draw.random() < 0.3:
        body += [("load", "r7", "r6")]
    return lines + ([("if_zero", "r6", len(body))] if draw.random() < 0.7 else []) + body


def draw_locked(draw):
    """An access under the lock that is the value's lowest bytes, which is sometimes kept."""
    body = draw.choice([
        [("load", "r7", "r6"), ("plus", "r7", LOW // 4), ("store", "r6", "r7")],
        [("set", "r7", LOW // 4), ("add", "r6", "r7")],
        [("load", "r7", "r6")],
    ])
    body = [("copy", "r1", "r6"), ("lock",), *body]
    body += [("copy", "r1", "r6"), ("unlock",)] if draw.random() < 0.9 else []
    lines = pointer_to(draw_key(draw))
    return lines + ([("if_zero", "r6", len(body))] if draw.random() < 0.9 else []) + body


def draw_locked_file(seed, budget):
    """Two CPUs that take locks, and do other things to the values too."""
    draw = random.Random(seed)
    jobs = []
    for cpu in range(2):
        lines = update(0, 0, 1) + draw_locked(draw)
        if draw.random() < 0.5:
            lines += draw_access(draw) if draw.random() < 0.5 else draw_locked(draw)
        jobs.append((cpu, Program([*lines, ("copy", "r0", "r7"), ("exit",)]), budget))
    return File(2, 2, 0, jobs)


def draw_program(draw):
    lines = update(0, draw.randrange(3), 1) if draw.random() < 0.6 else []
    for _ in range(draw.randrange(1, 3)):
        lines += draw_call(draw) if draw.random() < 0.3 else draw_access(draw)
    # No address is told: what R0 ends with is a number.
    return Program(lines + [("copy", "r0", "r7"), ("exit",)])


def draw_file(seed):
    draw = random.Random(seed)
    cpus = draw.choice([2, 2, 3])
    jobs = [(cpu, draw_program(draw)) for cpu in range(cpus)]
    if cpus == 2 and draw.random() < 0.4:
        jobs.append((draw.randrange(2), draw_program(draw)))
    file = File(
        cpus,
        draw.choice([1, 2]),
        draw.choice([0, 0, 1]),
        [(cpu, program, draw.choice([1000] * 5 + [draw.randrange(20)])) for cpu, program in jobs],
    )
    if draw.random() < 0.4:
        keys = draw.sample([0, 1], draw.randrange(1, file.most + 1))
        file.pairs = [(key, draw.randrange(1, 4)) for key in keys]
    return file
