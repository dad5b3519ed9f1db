"""CPUs with store buffers, as those of x86 have: the small models of this folder with a buffer for each CPU, and every
outcome of every order of turns and of flushes.

After docs/proofs/x86.md: a plain store waits behind those of its CPU, a load takes the newest of its CPU's that waits for
its place, or else what memory has, and what else changes a value makes all that waits first. It shares nothing with the
program.
"""

import random

from . import litmus, model

# What drawn files do to values.
KINDS = ["store"] * 4 + ["load"] * 4 + ["exchange", "fetch_add", "delete", "update"]
DRAINS = ("add", "fetch_add", "exchange", "compare", *model.LOCKS)


class File(model.File):
    """A state has one thing more: by CPU what waits, a place and a number each, the oldest first."""

    def first(self):
        return *super().first(), ((),) * self.cpus

    def plain(self):
        """The same file on CPUs without buffers."""
        return model.File(self.cpus, self.most, self.spare, self.jobs, self.pairs)

    def report(self, state):
        return super().report(state[:3])

    @staticmethod
    def made(store, stores):
        """The store after these have reached it."""
        keys, elements, running = store
        for place, number in stores:
            elements = tuple((number if n == place else was, kept) for n, (was, kept) in enumerate(elements))
        return keys, elements, running

    def drains(self, hand):
        """Whether the next step makes first all that waits: it changes a value or the map by itself."""
        job, pc, registers, _, left, held = hand
        kind, *operands = self.jobs[job][1].at[pc]
        if not left:
            return False
        if kind == "call":
            return operands[0] == 3 or operands[0] == 2 and registers[4] <= 2
        if kind not in DRAINS:
            return False
        pointer = self.pointer(kind, operands, registers)
        return isinstance(pointer, tuple) and pointer[1] in held

    def plain_store(self, hand):
        """The place and the number of the store that the next step makes, if it makes one."""
        if hand is None or not hand[4]:
            return None
        job, pc, registers, _, _, held = hand
        kind, *operands = self.jobs[job][1].at[pc]
        if kind != "store":
            return None
        pointer = self.pointer(kind, operands, registers)
        if not isinstance(pointer, tuple) or pointer[1] not in held:
            return None
        return pointer[1], registers[int(operands[1][1:])] % model.WORD

    def turn(self, state, cpu):
        *plain, buffers = state
        waiting, hand = buffers[cpu], plain[1][cpu]
        if hand is not None and self.drains(hand):
            plain[0], waiting = self.made(plain[0], waiting), ()
        stored = self.plain_store(hand)
        if stored is not None:
            waiting += (stored,)
        # The CPU sees memory as its own stores leave it, and what it stored is not in memory yet.
        seen = super().turn((self.made(plain[0], waiting), *plain[1:]), cpu)
        if seen is None:
            return None
        (keys, elements, running), hands, ends = seen
        if hands[cpu] is None:
            waiting = ()
        else:
            places = {place for place, _ in waiting}
            memory = plain[0][1]
            elements = tuple((memory[n][0], kept) if n in places else (was, kept) for n, (was, kept) in enumerate(elements))
        buffers = tuple(waiting if n == cpu else other for n, other in enumerate(buffers))
        return (keys, elements, running), hands, ends, buffers

    def flush(self, state, cpu):
        """The state after the flush of the CPU's oldest store, or none where nothing waits."""
        store, hands, ends, buffers = state
        if not buffers[cpu]:
            return None
        first, *rest = buffers[cpu]
        buffers = tuple(tuple(rest) if n == cpu else other for n, other in enumerate(buffers))
        return self.made(store, [first]), hands, ends, buffers

    @staticmethod
    def flushed(cpu, stores):
        return [f"cpu {cpu} flush store 8 at 0x{0x1000000000 + 8 * place:x} {number}\n" for place, number in stores]

    def events(self, state, cpu):
        """What the CPU does at the map in its next turn, a line each, and before what drains the stores that it drains."""
        store, hands, ends, buffers = state
        waiting, told = list(buffers[cpu]), []
        for line in self.plain().events((self.made(store, waiting), hands, ends), cpu).splitlines(keepends=True):
            what = line.split()[6:]
            if what[0] == "store":
                place = (int(what[3], 16) - 0x1000000000) // 8
                waiting.append((place, int(what[4])))
            elif what[0] not in ("load", "lookup") and not (what[0] == "update" and int(what[5]) > 2):
                told += self.flushed(cpu, waiting)
                waiting = []
            told.append(line)
        return "".join(told)

    def by(self, schedule):
        """What happens by a list of moves, each a CPU and whether it flushes, and then in rounds, and their report."""
        state, told, moves = self.first(), "", schedule
        while True:
            for cpu, flushes in moves:
                after = (self.flush if flushes else self.turn)(state, cpu)
                if after is not None:
                    told += "".join(self.flushed(cpu, state[3][cpu][:1])) if flushes else self.events(state, cpu)
                    state = after
            if None not in state[2]:
                return told, self.report(state)
            moves = [(cpu, flushes) for cpu in range(self.cpus) for flushes in (False, True)]

    def moves(self, state, turn):
        """The states that such turns and flushes lead to from this one."""
        flushed = [after for cpu in range(self.cpus) if (after := self.flush(state, cpu)) is not None]
        return super().moves(state, turn) + flushed

    def state_by(self, schedule):
        """The state after a list of moves, each a CPU and whether it flushes, where no budget is ever used up."""
        state = self.first()
        for cpu, flushes in schedule:
            state = (self.flush if flushes else self.after)(state, cpu) or state
        return state


def litmus_outcomes(cpus):
    """Each CPU's number, and what the variables hold in the end, of every order of operations and flushes."""
    names = litmus.variables_of(cpus)
    ended, seen = set(), set()
    pending = [((0,) * len(cpus), (0,) * len(names), ((),) * len(cpus), ((),) * len(cpus))]
    while pending:
        state = pending.pop()
        if state in seen:
            continue
        seen.add(state)
        places, memory, registers, buffers = state
        for number, cpu in enumerate(cpus):

            def put(whole, mine):
                return tuple(mine if n == number else other for n, other in enumerate(whole))

            if buffers[number]:
                (name, stored), *rest = buffers[number]
                after = tuple(stored if it == name else was for it, was in zip(names, memory))
                pending.append((places, after, registers, put(buffers, tuple(rest))))
            if places[number] == len(cpu):
                continue
            operation, known = cpu[places[number]], dict(registers[number])
            now, own = dict(zip(names, memory)), {**dict(zip(names, memory)), **dict(buffers[number])}
            waits = operation[0] in (litmus.WRITE, litmus.SUM)
            if not waits and operation[0] not in (litmus.READ, litmus.UNLESS) and buffers[number]:
                continue
            seen_now, kept = litmus.performed(operation, own if operation[0] == litmus.READ or waits else now, known)
            buffer = (*buffers[number], (operation[1], seen_now[operation[1]])) if waits else buffers[number]
            after = memory if waits or operation[0] in (litmus.READ, litmus.UNLESS) else tuple(seen_now[name] for name in names)
            place = places[number] + litmus.passed(operation, known)
            pending.append((put(places, place), after, put(registers, tuple(sorted(kept.items()))), put(buffers, buffer)))
        if all(place == len(cpu) for place, cpu in zip(places, cpus)) and not any(buffers):
            numbers = tuple(
                int("".join(str(dict(known).get(name, 0)) for name in litmus.registers_of(cpu)) or "0")
                for known, cpu in zip(registers, cpus)
            )
            ended.add((numbers, memory))
    return ended


def draw_file(seed):
    """Two CPUs, each of which stores mostly to one of two values that the map has at first, and loads from the other."""
    draw = random.Random(seed)
    jobs = []
    for cpu in range(2):
        lines = [*model.pointer_to(0), *model.pointer_to(1)[:-1], ("copy", "r8", "r0")]
        mine, other = ("r6", "r8") if cpu else ("r8", "r6")
        for kind in ["store"] + draw.choices(KINDS, k=draw.randrange(1, 4)) + ["load"]:
            at = mine if (draw.random() < 0.8) == (kind != "load") else other
            if kind == "load":
                lines += [("load", "r9", at)]
            elif kind == "delete":
                lines += [("key", 1), ("map",), ("top2",), ("to_key",), ("call", 3)]
            elif kind == "update":
                lines += model.update(0, draw.randrange(4, 7), 0)
            else:
                lines += [("set", "r7", draw.randrange(1, 4)), (kind, at, "r7")]
        budget = draw.choice([1000] * 4 + [draw.randrange(10, 24)])
        jobs.append((cpu, model.Program([*lines, ("copy", "r0", "r9"), ("exit",)]), budget))
    return File(2, 2, draw.choice([0, 1]), jobs, [(0, 0), (1, 0)])
