"""A run of the program, with as little beside it as serves: some hundred thousand are made."""

import os
import re
import signal
from typing import NamedTuple

SECONDS = 60


class Got(NamedTuple):
    stdout: bytes
    stderr: bytes
    status: int  # below 0: the signal that ended it


class Program:
    def __init__(self, path):
        self.path = path
        self.running = None

    def end(self, *_):
        if self.running:
            os.kill(self.running, signal.SIGKILL)

    def __call__(self, words, stdin, environment=None):
        """What it prints and exits with, which is -9 where it doesn't end in time."""
        files = [os.memfd_create(name) for name in ("stdin", "stdout", "stderr")]
        with os.fdopen(os.dup(files[0]), "wb") as given:
            given.write(stdin)
        os.lseek(files[0], 0, os.SEEK_SET)
        put = [(os.POSIX_SPAWN_DUP2, file, place) for place, file in enumerate(files)]
        signal.signal(signal.SIGALRM, self.end)
        signal.alarm(SECONDS)
        self.running = os.posix_spawn(self.path, [self.path, *words], environment or {}, file_actions=put)
        status = os.waitstatus_to_exitcode(os.waitpid(self.running, 0)[1])
        self.running = None
        signal.alarm(0)
        stdout, stderr = (os.pread(file, os.fstat(file).st_size, 0) for file in files[1:])
        for file in files:
            os.close(file)
        return Got(stdout, stderr, status)


def refused(*codes):
    """What is printed of one of these refusals, by its code and the forms of what stands beside it."""
    return Documented(1, rb"refused (" + b"|".join(code.encode() for code in codes) + rb")\n")


class Documented:
    """What may be printed with an exit status."""

    def __init__(self, status, pattern):
        self.status = status
        self.pattern = re.compile(pattern)

    def allows(self, got):
        return got.status == self.status and not got.stderr and self.pattern.fullmatch(got.stdout) is not None


OUTCOME = rb"(r0=\d+|fault F[1-7] at \d+|out of budget at \d+)"
KEYS = rb"(map \w+ ([0-9a-f]{2})+=([0-9a-f]{2})+\n)*(var \w+=\d+\n)*(array \w+ \d+=([0-9a-f]{2})+\n)*"
THREADS = rb"(threads may run out of elements\n)?(threads may see keys or values in part\n)?"
FOUND = rb"(by( \d+\*\d+)*\n(job \d+ cpu \d+ " + OUTCOME + rb"\n)*" + KEYS + rb")*"
LINE_OF_A_FILE = r"line \d+ (L[1-6]|S([1-6]|8|9|1[0-2])|H1|A[1-5]|E1|E3|E2 \d+|E[4-9] \d+|E1[0-3] \d+)"
DOCUMENTED = {
    "hex": [
        Documented(0, rb"r0=\d+\n"),
        Documented(3, rb"(fault F[1-7] at \d+|out of budget at \d+)\n"),
        refused("E1", "E3", r"E2 \d+", r"E[4-9] \d+", r"E1[0-3] \d+", "H1", "L8"),
    ],
    "disasm": [
        Documented(0, rb"([ -~]+\n)+"),
        refused("E1", "E3", r"E2 \d+", r"E[4-7] \d+", "H1", "L8"),
    ],
    "asm": [Documented(0, rb"([0-9a-f]{16}\n)*"), refused(r"A[1-5] \d+", "L8")],
    "run": [
        Documented(0, rb"(job \d+ cpu \d+ r0=\d+\n)*" + KEYS),
        Documented(3, rb"(job \d+ cpu \d+ " + OUTCOME + rb"\n)+" + KEYS),
        refused(LINE_OF_A_FILE, "L8"),
    ],
    "explore": [
        *(Documented(status, FOUND + THREADS + rb"all: \d+ outcomes, \d+ states\n") for status in (0, 3)),
        Documented(4, FOUND + THREADS + rb"not all: \d+ outcomes, \d+ states\n"),
        refused(LINE_OF_A_FILE, "L8"),
    ],
    "debug": [
        *(
            Documented(
                status,
                rb"((break \d+ \d+ set|stop \d+ \d+|done|r\d+=\d+|cpu \d+ (idle|job \d+ (waiting|pc \d+ depth [1-8]))"
                rb"|job \d+ cpu \d+ (open|" + OUTCOME + rb")|([0-9a-f]{2})+|unreadable|([0-9a-f]{2})+=([0-9a-f]{2})+"
                rb"|break \d+ \d+ deleted|steps( \d+\*\d+)*|map \w+ key \d+ value \d+ max \d+ spare \d+( grow)?|mark \d+"
                rb"|array \w+ value \d+ max \d+|var \w+ \w+ \d+ \d+"
                rb"|refused G[1-4])\n)*",
            )
            for status in (0, 3)
        ),
        refused(LINE_OF_A_FILE, "L8"),
    ],
}


def is_documented(command, got):
    return any(one.allows(got) for one in DOCUMENTED[command])


class Tally:
    """How many cases passed, and what those show that didn't, each with its name."""

    def __init__(self):
        self.passed = 0
        self.failed = []

    def see(self, name, holds, shown=""):
        if holds:
            self.passed += 1
        else:
            self.failed.append(f"{name}: {shown!r:.2000}")

    def add(self, other):
        self.passed += other.passed
        self.failed += other.failed
