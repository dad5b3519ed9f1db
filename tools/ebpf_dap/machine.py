"""The machine that is stepped: a conversation with `ebpf debug FILE`, and all turns that it has made."""

import re
import subprocess
from dataclasses import dataclass

WHERE = re.compile(r"cpu (\d+) (?:job (\d+) (?:pc (\d+) depth (\d+)|waiting)|idle)")
ENDED = re.compile(r"job (\d+) cpu (\d+) (?:r0=(\d+)|fault (F\d+) at (\d+)|out of budget at (\d+))")
# How many commands are sent before their answers are read: all of them fit into a pipe.
AT_ONCE = 256
MOST_BACK = 1_000_000


class MachineError(Exception):
    """What `ebpf debug` refused, or that it ended."""


@dataclass(frozen=True)
class Where:
    """Where a CPU is: its job, its pc and how many functions are live; no job where it is idle."""

    job: int | None = None
    pc: int = 0
    depth: int = 0
    is_waiting: bool = False

    @property
    def has_work(self):
        return self.job is not None


@dataclass(frozen=True)
class Ended:
    """How a job ended, as the debugger printed it."""

    job: int
    line: str
    fault: str | None
    is_out_of_budget: bool
    pc: int | None


@dataclass(frozen=True)
class Turn:
    """A turn that was made: of which CPU, where that was before it, with which callers, and the job that it ended."""

    cpu: int
    before: Where
    callers: tuple
    ended: Ended | None


def where_of(line):
    """Reads a line that says where a CPU is."""
    found = WHERE.fullmatch(line)
    if not found:
        return None
    if found[2] is None:
        return Where()
    if found[3] is None:
        return Where(job=int(found[2]), is_waiting=True, depth=1)
    return Where(job=int(found[2]), pc=int(found[3]), depth=int(found[4]))


def ended_of(line):
    """Reads a line that says how a job ended."""
    found = ENDED.fullmatch(line)
    if not found:
        return None
    pc = found[5] or found[6]
    return Ended(int(found[1]), line, found[4], found[6] is not None, int(pc) if pc else None)


class Machine:
    """CPUs in a conversation with `ebpf debug`. Each turn is asked for by itself, so each is known."""

    def __init__(self, ebpf, file, cpus, alone=False):
        # `alone`: Ctrl-C at a terminal is for who asks, and doesn't end the program.
        self.process = subprocess.Popen(
            [ebpf, "debug", file],
            stdin=subprocess.PIPE,
            stdout=subprocess.PIPE,
            stderr=subprocess.DEVNULL,
            text=True,
            start_new_session=alone,
        )
        self.marks, self.cpus = 0, cpus
        self.turns, self.callers, self.printed = [], [()] * cpus, 0
        self.where = [self.whereabouts(lines) for lines in self.ask([f"where {cpu}" for cpu in range(cpus)])]

    def close(self):
        """Ends the conversation."""
        self.process.kill()
        self.process.wait()
        self.process.stdin.close()
        self.process.stdout.close()

    def ask(self, commands):
        """Sends commands, and returns the lines of each one's answer."""
        answers = []
        for at in range(0, len(commands), AT_ONCE):
            part = commands[at : at + AT_ONCE]
            marks = [f"mark {self.marks + number}" for number in range(1, len(part) + 1)]
            self.marks += len(part)
            try:
                self.process.stdin.write("".join(f"{it}\n{mark}\n" for it, mark in zip(part, marks)))
                self.process.stdin.flush()
            except OSError as error:
                raise MachineError(self.last_words()) from error
            answers += [self.answer(mark) for mark in marks]
        return answers

    def answer(self, mark):
        """Returns the lines before a mark."""
        lines = []
        while (line := self.process.stdout.readline()).rstrip("\n") != mark:
            if not line:
                raise MachineError("\n".join(lines) or self.last_words())
            lines.append(line.rstrip("\n"))
        return lines

    def last_words(self):
        return f"ebpf debug has ended, with status {self.process.wait()}"

    def one(self, command):
        """Sends one command; returns its answer's lines, or raises what it was refused as."""
        lines = self.ask([command])[0]
        if lines and lines[-1].startswith("refused "):
            raise MachineError(f"{command}: {lines[-1]}")
        return lines

    @staticmethod
    def whereabouts(lines):
        """The last line of an answer says where a CPU is."""
        found = where_of(lines[-1]) if lines else None
        if found is None:
            raise MachineError("\n".join(lines) or "an answer without a line")
        return found

    def make(self, cpus, check=None):
        """Makes a turn of each of these CPUs, in this order, up to the first after which `check` finds a reason to stop.

        `check(number, turn)` is given each turn with its place in the order. Returns what it found, if it did; the turns
        after that one are undone. A turn of a CPU without work changes nothing, but counts as one.
        """
        answers = self.ask([f"step {cpu}" for cpu in cpus])
        for number, (cpu, lines) in enumerate(zip(cpus, answers)):
            turn = self.note(cpu, lines)
            if check and (found := check(number, turn)):
                if number + 1 < len(cpus):
                    self.one(f"back {len(cpus) - number - 1}")
                return found
        return None

    def note(self, cpu, lines):
        """Notes a turn by the answer to it, and returns it."""
        before, after = self.where[cpu], self.whereabouts(lines)
        turn = Turn(cpu, before, self.callers[cpu], ended_of(lines[0]) if len(lines) > 1 else None)
        self.where[cpu] = after
        if turn.ended or not after.has_work:
            self.callers[cpu] = ()
        elif after.depth > before.depth and not before.is_waiting:
            self.callers[cpu] += (before.pc,)
        else:
            self.callers[cpu] = self.callers[cpu][: after.depth - 1]
        self.turns.append(turn)
        return turn

    def back(self, count):
        """Undoes the last turns, this many."""
        left = count
        while left:
            part = min(left, MOST_BACK)
            self.one(f"back {part}")
            left -= part
        for turn in reversed(self.turns[len(self.turns) - count :]):
            self.where[turn.cpu], self.callers[turn.cpu] = turn.before, turn.callers
        del self.turns[len(self.turns) - count :]

    def follow(self):
        """Learns the turns that commands of somebody else's made, by making all of them again."""
        known = self.one("schedule")[0].split()[1:]
        runs = [run.split("*") for run in known]
        order = [int(cpu) for cpu, count in runs for _ in range(int(count))]
        if [turn.cpu for turn in self.turns] != order:
            self.undo_all(len(order))
            self.make(order)

    def undo_all(self, count):
        """Undoes all turns, of which there are this many, whoever made them."""
        while count:
            part = min(count, MOST_BACK)
            self.one(f"back {part}")
            count -= part
        self.turns, self.callers = [], [()] * self.cpus
        self.where = [self.whereabouts(lines) for lines in self.ask([f"where {cpu}" for cpu in range(self.cpus)])]

    def new_endings(self):
        """Returns the lines of the jobs that have ended since the last time, or since they were undone."""
        new = [turn.ended.line for turn in self.turns[self.printed :] if turn.ended]
        self.printed = len(self.turns)
        return new

    def registers(self, cpu):
        """Returns r0 to r10 of a CPU with a job in hand, else none."""
        lines = self.one(f"regs {cpu}")
        return [int(line.split("=")[1]) for line in lines] if lines[0].startswith("r0=") else []

    def bytes_at(self, cpu, address, count):
        """Returns bytes as a CPU's program may read them, or None where it may not."""
        found = bytearray()
        for at in range(address, address + count, 256):
            lines = self.one(f"mem {cpu} {at} {min(256, address + count - at)}")
            try:
                found += bytes.fromhex(lines[0])
            except ValueError:
                return None
        return bytes(found)
