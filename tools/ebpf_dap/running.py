"""Turns until something stops them: breakpoints, a line's end, a fault, a race, a pause."""

import re
from dataclasses import dataclass

from .variables import VALUES

# How many turns are asked for before the next look whether the client wants a pause.
MOST_TURNS = 4096
# After this turn two CPUs may race: their registers say.
LOOK = "look"
ACCESS = re.compile(r"\*\((?:u|s)(?P<bits>8|16|32|64) \*\)\((?P<base>r\d+) (?P<sign>[+-]) (?P<offset>\d+)\)")
FETCH = re.compile(r"\((?:u)(?P<bits>32|64) \*\)\((?P<base>r\d+) (?P<sign>[+-]) (?P<offset>\d+)\)")
EXCHANGE = re.compile(r"(?:cmp)?xchg_(?P<bits>32|64)\((?P<base>r\d+) (?P<sign>[+-]) (?P<offset>\d+),")


@dataclass(frozen=True)
class Stop:
    """Why turns end: DAP's reason, the CPU, and more for who reads it."""

    reason: str
    cpu: int
    text: str = ""
    exception: str = ""


@dataclass(frozen=True)
class Access:
    """An instruction's access to memory: base register, offset, bytes, whether it writes, whether it is atomic."""

    base: int
    offset: int
    size: int
    writes: bool
    is_atomic: bool

    def range(self, registers):
        at = (registers[self.base] + self.offset) % 2**64
        return at, at + self.size


def access_of(text):
    """Returns the access that an instruction makes, if it makes one; a helper's call isn't looked at."""
    is_atomic = text.startswith("lock ") or "atomic_" in text or "xchg_" in text
    found = EXCHANGE.search(text) or FETCH.search(text) if is_atomic and "lock" not in text else ACCESS.search(text)
    if not found:
        return None
    offset = int(found["offset"]) * (1 if found["sign"] == "+" else -1)
    writes = is_atomic or text.startswith("*")
    return Access(int(found["base"][1:]), offset, int(found["bits"]) // 8, writes, is_atomic)


class Runner:
    """Makes turns of a machine over a run file, by the breakpoints and filters that a client has set."""

    def __init__(self, machine, run_file):
        self.machine, self.run_file = machine, run_file
        self.breakpoints, self.filters, self.seen = set(), {"fault", "race"}, set()
        # CPUs that were shown where they are: a breakpoint there doesn't stop them again.
        self.shown = set(range(machine.cpus))
        self.accesses = {
            (name, pc): found
            for name, program in run_file.programs.items()
            for pc, text in program.texts.items()
            if (found := access_of(text))
        }

    # ---- where a CPU is

    def place(self, where):
        """Returns the program's name and the pc of the next instruction, or None where a CPU has no work."""
        return (self.run_file.jobs[where.job][1], where.pc) if where.has_work else None

    def line(self, where):
        place = self.place(where)
        return self.run_file.programs[place[0]].line(place[1]) if place else None

    def is_at_breakpoint(self, cpu):
        return self.place(self.machine.where[cpu]) in self.breakpoints

    def working(self):
        return [cpu for cpu in range(self.machine.cpus) if self.machine.where[cpu].has_work]

    # ---- what may stop after each turn

    def fault_of(self, turn):
        """The stop after a turn that ended a job in a fault, or out of its budget, if that is asked for."""
        ended = turn.ended
        if not ended or "fault" not in self.filters or not (ended.fault or ended.is_out_of_budget):
            return None
        return Stop("exception", turn.cpu, ended.line, ended.fault or "out of budget")

    def may_race(self):
        """Returns the pairs of CPUs whose next instructions are accesses that could race."""
        if "race" not in self.filters:
            return []
        known = ((cpu, self.accesses.get(self.place(self.machine.where[cpu]))) for cpu in range(self.machine.cpus))
        next_ones = [(cpu, it) for cpu, it in known if it]
        return [
            (one, other)
            for at, (one, a) in enumerate(next_ones)
            for other, b in next_ones[at + 1 :]
            if (a.writes or b.writes) and not (a.is_atomic and b.is_atomic) and self.pair(one, other) not in self.seen
        ]

    def pair(self, one, other):
        return (one, self.place(self.machine.where[one]), other, self.place(self.machine.where[other]))

    def race(self):
        """The stop at the first two CPUs whose next accesses race, each pair of instructions once."""
        for one, other in self.may_race():
            ranges = [self.range_of(cpu) for cpu in (one, other)]
            if all(ranges) and max(it[0] for it in ranges) < min(it[1] for it in ranges) and ranges[0][0] >= VALUES:
                self.seen.add(self.pair(one, other))
                text = " and ".join(f"cpu {cpu} at {self.spelled(cpu)}" for cpu in (one, other))
                return Stop("exception", one, f"data race: {text}", "race")
        return None

    def range_of(self, cpu):
        where, registers = self.machine.where[cpu], self.machine.registers(cpu)
        # A job about to begin has no registers yet.
        return self.accesses[self.place(where)].range(registers) if registers else None

    def spelled(self, cpu):
        name, pc = self.place(self.machine.where[cpu])
        return f"{name} {pc}: {self.run_file.programs[name].texts[pc]}"

    # ---- turns

    def make(self, plan, is_done, is_wanted):
        """Makes turns until something stops them; returns the stop, or None where no CPU of the plan has work.

        `plan(most)` gives the CPUs of the next turns, `is_done(turn)` says whether a turn was what is wanted, and
        `is_wanted()` whether to go on. Before a turn of a CPU at a breakpoint it stops, unless it was shown there.
        """
        most = 1
        while order := plan(most):
            if self.is_due(order[0]):
                return Stop("breakpoint", order[0])
            stop = self.batch(order, is_done)
            # A look needs registers, which only the last state has.
            stop, most = (self.race(), 1) if stop == LOOK else (stop, min(2 * most, MOST_TURNS))
            if stop:
                return stop
            if not is_wanted():
                return Stop("pause", order[-1])
        return None

    def is_due(self, cpu):
        """Returns whether a CPU is to stop before its next turn."""
        return cpu not in self.shown and self.is_at_breakpoint(cpu)

    def batch(self, order, is_done):
        """Makes turns up to the first after which there is a reason to stop; returns the reason, or LOOK."""

        def check(number, turn):
            self.shown.discard(turn.cpu)
            if stop := self.fault_of(turn) or (Stop("step", turn.cpu) if is_done(turn) else None):
                return stop
            if number + 1 < len(order) and self.is_due(order[number + 1]):
                return Stop("breakpoint", order[number + 1])
            return LOOK if self.may_race() else None

        return self.machine.make(order, check)

    def rounds(self, most):
        """Returns the CPUs of some rounds of all that have work, at most this many turns, and at least one round.

        The first is the one after the CPU of the last turn.
        """
        last, working = self.machine.turns[-1].cpu if self.machine.turns else -1, self.working()
        order = [cpu for cpu in working if cpu > last] + [cpu for cpu in working if cpu <= last]
        return order * max(1, most // max(1, len(order)))

    def go(self, is_wanted):
        """Rounds of all CPUs, until something stops them or no CPU has work."""
        return self.make(self.rounds, lambda turn: False, is_wanted)

    def alone(self, cpu, is_done, is_wanted):
        """Turns of one CPU until its place is what is wanted or its job ends."""
        return self.make(
            lambda most: [cpu] * most if self.machine.where[cpu].has_work else [],
            lambda turn: bool(turn.ended) or is_done(self.machine.where[cpu]),
            is_wanted,
        )

    def among_others(self, cpu, is_done, is_wanted):
        """The same by rounds of all CPUs, in which this one is the last."""

        def plan(most):
            order = [it for it in self.working() if it != cpu] + [cpu]
            return order * max(1, most // len(order)) if self.machine.where[cpu].has_work else []

        def is_it(turn):
            return turn.cpu == cpu and (bool(turn.ended) or is_done(self.machine.where[cpu]))

        return self.make(plan, is_it, is_wanted)

    # ---- back

    def turns_of_line(self, cpu):
        """Returns how many turns to undo so that a CPU is where its last line began: 0 where it has made none."""
        turns, wanted, found = self.machine.turns, None, 0
        for count, turn in enumerate(reversed(turns), 1):
            if turn.cpu != cpu or not turn.before.has_work:
                continue
            here = (turn.before.job, self.line(turn.before), turn.before.depth)
            if wanted not in (None, here):
                break
            wanted, found = here, count
        return found

    def turns_of_step(self, cpu):
        """Returns how many turns to undo so that a CPU's last one is undone: 0 where it has made none."""
        turns = enumerate(reversed(self.machine.turns), 1)
        return next((count for count, turn in turns if turn.cpu == cpu and turn.before.has_work), 0)

    def turns_to_breakpoint(self):
        """Returns how many turns to undo so that a CPU is at a breakpoint and its turn is next; None where none was."""
        turns = enumerate(reversed(self.machine.turns), 1)
        return next(((count, turn.cpu) for count, turn in turns if self.place(turn.before) in self.breakpoints), None)
