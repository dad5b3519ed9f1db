"""x86-TSO by axioms: the outcomes of a litmus test that no order of flushes is asked for.

An execution is the events of each CPU in program order, for each read the write that it reads from, and for each variable
an order of its writes (coherence). It is allowed where

- program order of one variable, reads-from, coherence and from-reads have no cycle together, and
- program order but from a write to a later read, reads-from between CPUs, coherence and from-reads have none, and
- nothing is written between what an atomic operation reads and what it writes.

An atomic operation is a read and a write, so it is in order with all of its CPU; a compare-exchange that fails writes
nothing, and is in that order too. These are the axioms of Owens, Sarkar and Sewell, 'A better x86 memory model: x86-TSO'
(TPHOLs 2009), in the form in which herd7 has them. They share nothing with the program, and nothing with buffered.py
but the operations of litmus.py.
"""

import random
from itertools import permutations, product
from typing import NamedTuple

from .litmus import ADD, COMPARE, EXCHANGE, READ, SUM, UNLESS, WRITE, registers_of, variables_of

ATOMIC = (ADD, EXCHANGE, COMPARE)


class Event(NamedTuple):
    cpu: int
    place: int
    operation: tuple
    # Of a compare-exchange, whether it succeeds.
    succeeds: bool = True

    @property
    def variable(self):
        return self.operation[1]

    @property
    def reads(self):
        return self.operation[0] in (READ, *ATOMIC)

    @property
    def writes(self):
        return self.operation[0] in (WRITE, SUM, ADD, EXCHANGE) or self.operation[0] == COMPARE and self.succeeds

    @property
    def is_atomic(self):
        return self.operation[0] in ATOMIC


def ways_of(number, cpu):
    """The ways through a CPU's operations: its events, and for each test that it passed whether that skipped."""
    pending = [(0, (), ())]
    while pending:
        place, events, tests = pending.pop()
        if place == len(cpu):
            yield events, tests
            continue
        operation = cpu[place]
        if operation[0] == UNLESS:
            for skips in (False, True):
                to = place + 1 + (operation[3] if skips else 0)
                pending.append((to, events, (*tests, (len(events), operation, skips))))
        elif operation[0] == COMPARE:
            for succeeds in (False, True):
                pending.append((place + 1, (*events, Event(number, place, operation, succeeds)), tests))
        else:
            pending.append((place + 1, (*events, Event(number, place, operation)), tests))


class Values:
    """What each event reads and writes, where reads are from these writes; None where that goes in a circle."""

    def __init__(self, events, source):
        self.events, self.source, self.known, self.asked = events, source, {}, set()

    def read(self, event):
        write = self.source[event]
        return 0 if write is None else self.written(write)

    def register(self, cpu, count, name):
        """What a register of a CPU holds after so many of its events: 0 before the first that reads into it."""
        into = [it for it in self.events[cpu][:count] if it.reads and it.operation[-1] == name]
        return self.read(into[-1]) if into else 0

    def written(self, event):
        if event not in self.known:
            if event in self.asked:
                raise RecursionError
            self.asked.add(event)
            self.known[event] = self.made(event)
        return self.known[event]

    def made(self, event):
        kind, _, *rest = event.operation
        if kind == ADD:
            return self.read(event) + rest[0]
        if kind == SUM:
            return self.register(event.cpu, self.events[event.cpu].index(event), rest[0]) + rest[1]
        return rest[1] if kind == COMPARE else rest[0]

    def are_as_assumed(self, tests):
        """Whether each test skips, and each compare-exchange succeeds, as its way has it."""
        return all(
            (self.register(cpu, count, operation[1]) != operation[2]) == skips
            for cpu, own in enumerate(tests)
            for count, operation, skips in own
        ) and all(
            (self.read(event) == event.operation[2]) == event.succeeds
            for own in self.events
            for event in own
            if event.operation[0] == COMPARE
        )


def has_cycle(edges):
    after = {}
    for one, other in edges:
        after.setdefault(one, set()).add(other)
    done, on_way = set(), set()

    def leads_back(event):
        if event in done:
            return False
        if event in on_way:
            return True
        on_way.add(event)
        found = any(leads_back(other) for other in after.get(event, ()))
        on_way.discard(event)
        done.add(event)
        return found

    return any(leads_back(event) for event in list(after))


def is_allowed(events, source, order):
    before = [(one, other) for own in events for n, one in enumerate(own) for other in own[n + 1 :]]
    coherence = [(one, other) for own in order.values() for n, one in enumerate(own) for other in own[n + 1 :]]
    reads_from = [(write, read) for read, write in source.items() if write is not None]
    from_reads = []
    for read, write in source.items():
        own = order[read.variable]
        later = own[own.index(write) + 1 :] if write is not None else own
        from_reads += [(read, other) for other in later if other != read]
        if read.is_atomic and read.writes and later[:1] != [read]:
            return False
    communication = coherence + from_reads
    if has_cycle(communication + reads_from + [(a, b) for a, b in before if a.variable == b.variable]):
        return False
    kept = [(a, b) for a, b in before if a.reads or b.writes or a.is_atomic or b.is_atomic]
    return not has_cycle(communication + kept + [(w, r) for w, r in reads_from if w.cpu != r.cpu])


def executions(events):
    """What each read may read from, and each order of the writes of each variable."""
    every = [event for own in events for event in own]
    writes = {event.variable: [] for event in every}
    for event in every:
        if event.writes:
            writes[event.variable].append(event)
    reads = [event for event in every if event.reads]
    for sources in product(*([None, *(w for w in writes[r.variable] if w != r)] for r in reads)):
        for orders in product(*(permutations(own) for own in writes.values())):
            yield dict(zip(reads, sources)), {name: list(own) for name, own in zip(writes, orders)}


def outcomes(cpus):
    """Each CPU's number, and what the variables hold in the end, of every execution that is allowed."""
    names, ended = variables_of(cpus), set()
    for ways in product(*(list(ways_of(number, cpu)) for number, cpu in enumerate(cpus))):
        events, tests = zip(*ways)
        for source, order in executions(events):
            values = Values(events, source)
            try:
                if not values.are_as_assumed(tests) or not is_allowed(events, source, order):
                    continue
                numbers = tuple(
                    int("".join(str(values.register(n, len(events[n]), name)) for name in registers_of(cpu)) or "0")
                    for n, cpu in enumerate(cpus)
                )
                last = [order.get(name) for name in names]
                ended.add((numbers, tuple(values.written(own[-1]) if own else 0 for own in last)))
            except RecursionError:
                continue
    return ended


def draw_test(seed):
    """Two CPUs with up to three operations each on two variables, or three with two each."""
    draw = random.Random(seed)
    cpus, number = [], 0
    for most in draw.choice([(3, 3), (3, 3), (3, 2), (2, 2, 2)]):
        cpu = []
        for place in range(most):
            number += 1
            name, register = draw.choice("xy"), "abc"[place]
            operations = [(WRITE, name, number)] * 4 + [(READ, name, register)] * 4
            operations += [(EXCHANGE, name, number, register), (ADD, name, 1, register)]
            cpu.append(draw.choice(operations))
        cpus.append(cpu)
    return cpus
