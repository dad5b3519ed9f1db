"""Run files, by `run`, `run --workers` and `explore`."""

import re

from damage.asking import Tally, is_documented
from damage.drawing import Drawn
from damage.texts import a_line, damaged, labels_alone

NAMES = ["a", "b", "m", "n", "x" * 32, "x" * 33, "9", "end", "job"]
EDGES = ["0", "1", "8", "16", "17", "64", "65", "256", "257", "0x7", "-1", "4294967296", "", "x"]
LAST = re.compile(rb"[ \t\r]*end[ \t\r]*(;.*)?")
# How many states of a file are searched, and what is told of them.
STATES = "200"
LAST_LINES = re.compile(rb"^(?:threads may .*|all: .*)\n", re.M)
PUT = "*(u32 *)(r10 - 4) = 0|*(u64 *)(r10 - 16) = 7|r1 = map 0|r2 = r10|r2 += -4|r3 = r10|r3 += -16|r4 = 0|call 2|exit"
FIND = "*(u32 *)(r10 - 4) = 0|r1 = map 0|r2 = r10|r2 += -4|call 1|if r0 == 0 goto none|r0 = *(u64 *)(r0 + 0)|none: exit"
CONTEXT = "r0 = *(u8 *)(r1 + 0)|r2 = 9|r0 += r2|call f|exit|f: r0 += 1|exit"
GIVEN = "call 5|r6 = r0|call get_prandom_u32|r6 += r0|call 14|r0 += r6|exit"
# What a file of version 3 has, and a program that counts under its lock.
VARIABLES = ["array t value 16 max 1", "var l t 0 4", "var s t 8 8"]
LOCKED = "r1 = &l|call spin_lock|r2 = &s|r1 = *(u64 *)(r2 + 0)|r1 += 1|*(u64 *)(r2 + 0) = r1|r1 = &l|call spin_unlock|exit"


def a_map(drawn, number):
    """A small one, as a rule of a program's keys and values."""
    key, value = (4, 8) if drawn.happens(3, 4) else (drawn.among(1, 64), drawn.among(1, 256))
    line = f"map {'mnop'[number]} key {key} value {value} max {drawn.among(1, 80)} spare {drawn.below(4)}"
    return line + (f" mask {drawn.one_of(['0', '0xffffffff', '4294967295', '63'])}" if drawn.happens(1, 3) else "")


def a_program(drawn, name, version):
    """Its lines."""
    if drawn.happens(1, 8):
        return [f"prog {name} hex {'b7000000' + drawn.some_bytes(4).hex()}9500000000000000"]
    if drawn.happens(3, 4):
        lines = drawn.one_of([PUT, FIND, CONTEXT, GIVEN, *[LOCKED] * (version == 3)]).split("|")
    else:
        lines = [a_line(drawn, 64) for _ in range(drawn.among(0, 8))] + ["exit"]
    return [f"prog {name}", *lines, "end"]


def a_job(drawn, cpus, programs, version):
    line = f"job {drawn.below(cpus)} {drawn.one_of('abc'[:programs])} budget {drawn.below(200)}"
    line += f" ctx {drawn.some_bytes(drawn.among(1, 9)).hex()}" if drawn.happens(1, 2) else ""
    for word in ("time", "random") if version == 3 else ():
        line += f" {word} {drawn.number()}" if drawn.happens(1, 3) else ""
    return line


def a_file(drawn):
    """A file that is right, as far as its programs are."""
    cpus, programs, version = drawn.among(1, 4), drawn.among(1, 3), drawn.one_of([1, 3])
    lines = [f"ebpf-run {version}", f"cpus {cpus}"]
    if drawn.happens(1, 2):
        lines.append(f"seed {drawn.number()}")
    lines += [a_map(drawn, number) for number in range(drawn.among(1, 3))]
    lines += VARIABLES if version == 3 else []
    for name in "abc"[:programs]:
        lines += a_program(drawn, name, version)
    return lines + [a_job(drawn, cpus, programs, version) for _ in range(drawn.below(6))]


def damage(drawn, lines):
    """One line less, twice, elsewhere, with another number or name, or with other tokens."""
    at = drawn.below(len(lines))
    match drawn.below(6):
        case 0:
            del lines[at]
        case 1:
            lines.insert(at, lines[at])
        case 2:
            lines.insert(drawn.below(len(lines)), lines.pop(at))
        case 3:
            lines[at] = damaged(drawn, lines[at])
        case _:
            tokens = lines[at].split(" ")
            tokens[drawn.below(len(tokens))] = drawn.one_of(EDGES if drawn.happens(2, 3) else NAMES)
            lines[at] = " ".join(tokens)


def a_damaged_file(drawn):
    lines = a_file(drawn)
    for _ in range(drawn.one_of([0, 1, 1, 1, 2, 5])):
        if lines:
            damage(drawn, lines)
    text = drawn.one_of(["\n", "\n", "\n", "\r\n", "\n;\n"]).join(lines).encode()
    if drawn.happens(1, 32):
        at = drawn.below(len(text) + 1)
        text = text[:at] + drawn.some_bytes(2) + text[at:]
    return drawn.some_bytes(drawn.below(64)) if drawn.happens(1, 64) else text


class RunFiles:
    """Tries run files, of which nothing has to be read back."""

    name = "run file"

    def __init__(self, program):
        self.program = program
        self.tally = Tally()

    def try_one(self, number):
        drawn = Drawn(self.name, number)
        text = a_damaged_file(drawn)
        name = f"{self.name} {number}"
        got = self.program(["run", "--maps"], text)
        self.tally.see(f"{name} is run or refused", is_documented("run", got), (text, got))
        if number % 4 == 0 or got.status == 1:
            by_workers = self.program(["run", "--maps", "--workers", "2"], text)
            is_run = by_workers.status != 1 and is_documented("run", by_workers)
            holds = by_workers == got if got.status == 1 else is_run
            self.tally.see(f"{name} is refused by workers where it is without", holds, (text, got, by_workers))
        if number % 4 == 2 or got.status == 1:
            self.see_explored(name, text, got)
        if at := re.fullmatch(rb"refused line (\d+) (L1|L6|\w+).*\n", got.stdout):
            self.see_lowest(name, text.split(b"\n"), int(at[1]), at[2], got)

    def finish(self):
        return self.tally

    def see_explored(self, name, text, got):
        """What is refused by `run` is so by `explore`; of what isn't, the outcome by rounds is one of all."""
        explored = self.program(["explore", "--limit", STATES], text)
        if got.status == 1:
            holds = explored == got
        else:
            outcomes = re.split(rb"^by.*\n", b"\n" + explored.stdout, flags=re.M)[1:]
            holds = is_documented("explore", explored)
            holds = holds and (explored.status == 4 or got.stdout in [LAST_LINES.sub(b"", it) for it in outcomes])
        self.tally.see(f"{name} is explored, or refused as by rounds", holds, (text, got, explored))

    def see_lowest(self, name, lines, line, code, got):
        """A line is refused so without what is behind it, or behind the program that it is in; if it goes too, no line
        before it is, but the program that it is in, whose instructions are looked at behind its text. A file without a
        line has no first one, and a program without an end is refused for all lines."""
        if code != b"L6":
            kept = self.program(["run"], b"\n".join(lines[:line]))
            if kept != got:
                kept = self.program(["run"], b"\n".join(lines[: self.end_behind(lines, line)]))
            self.tally.see(f"{name} is refused without what is behind the line", kept == got, (lines, got, kept))
        if code == b"L1" or line == 1:
            return
        before = self.program(["run"], b"\n".join(lines[: line - 1]))
        cut = re.fullmatch(rb"refused line (\d+) L6\n", before.stdout)
        if cut:
            before = self.program(["run"], b"\n".join(self.with_an_end(lines, line)))
        lower = re.fullmatch(rb"refused line (\d+) (\w+).*\n", before.stdout)
        is_cut = lower is not None and cut is not None and lower[1] == cut[1] and lower[2].startswith(b"E")
        holds = lower is None or int(lower[1]) >= line or is_cut
        self.tally.see(f"{name} is refused by the lowest line", holds, (lines, got, before))

    def end_behind(self, lines, line):
        """How many lines there are to the first end of a program that doesn't stand before the line."""
        for number in range(line, len(lines) + 1):
            if LAST.fullmatch(lines[number - 1]):
                return number
        return len(lines)

    def with_an_end(self, lines, line):
        """What stands before the line, which is in a program, and an end of that program with its labels."""
        rest = lines[line - 1 : self.end_behind(lines, line) - 1]
        return [*lines[: line - 1], *labels_alone(rest), b"exit", b"end"]
