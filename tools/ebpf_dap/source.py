"""Programs and their lines: which instruction begins at which pc, and which line it was made of."""

import json
import re
import shutil
import subprocess
import sys
import tempfile
from dataclasses import dataclass, field
from pathlib import Path

TOOLS = Path(__file__).resolve().parent.parent
LISTED = re.compile(r"^(?P<text>.*) ; (?P<pc>\d+): [0-9a-f]+$")
LABEL = re.compile(r"^\s*([A-Za-z_]\w*):")
# Loads by a name, which `ebpf asm` has no file to look up in: of a map's or an array's number, and of an address.
MAP_BY_NAME = re.compile(r"=\s*map\s+([A-Za-z_]\w*)")
ADDRESS_BY_NAME = re.compile(r"=\s*&\s*([A-Za-z_]\w*)(?:\s*([+-])\s*(\w+))?")
# The number of the first array, where its values begin, and how far from there those of the next (docs/reference/machine.md).
FIRST_ARRAY, FIRST_VALUE, AREA = 16, 0x11_0000_0000, 0x1000_0000


class SourceError(Exception):
    """Why no run file could be made of what is to be debugged."""


@dataclass(frozen=True)
class Line:
    """A line of a file, counted from 1."""

    path: str
    number: int


@dataclass
class Program:
    """A program: its instructions' texts by pc, the lines that they were made of, and the functions' names by pc."""

    name: str
    texts: dict = field(default_factory=dict)
    lines: dict = field(default_factory=dict)
    of_c: dict = field(default_factory=dict)
    names: dict = field(default_factory=dict)

    def line(self, pc):
        """Returns the line of C of an instruction, or of the run file where there is no C."""
        if not self.of_c:
            return self.lines.get(pc)
        return self.of_c.get(max((at for at in self.of_c if at <= pc), default=None))

    def starts(self, path, number):
        """Returns the pcs at which a line's instructions begin: the first of each group that follow each other."""
        found, last = [], None
        for pc in sorted(self.texts):
            line = self.line(pc)
            if line == Line(path, number) and line != last:
                found.append(pc)
            last = line
        return found

    def function(self, pc):
        """Returns the name of the function in which an instruction is."""
        at = max((it for it in self.names if it <= pc), default=None)
        return self.name if at in (None, 0) else f"{self.name}: {self.names[at]}"


@dataclass(frozen=True)
class Map:
    """A map: how long its keys and values are, in bytes."""

    name: str
    key: int
    value: int


@dataclass(frozen=True)
class Array:
    """An array: how long its values are, in bytes, how many it has, whether each CPU has its own, and whether they can only be read."""

    name: str
    value: int
    most: int
    is_per_cpu: bool
    is_frozen: bool

    def place(self, offset):
        """Returns what is so many bytes after the first value: an index, the CPU, and the bytes after the value's first."""
        pace = -(-self.value // 8) * 8
        block = -(-self.most * pace // 64) * 64
        cpu, own = divmod(offset, block) if self.is_per_cpu else (None, offset)
        return own // pace, cpu, own % pace


@dataclass(frozen=True)
class Variable:
    """A name for bytes of an array's first value."""

    name: str
    array: str
    at: int
    size: int


@dataclass
class RunFile:
    """What is debugged: the run file's text, its programs by name, and of each job its program."""

    path: str
    text: str
    cpus: int
    programs: dict
    maps: list
    jobs: list
    arrays: list = field(default_factory=list)
    variables: list = field(default_factory=list)

    def program(self, job):
        return self.programs[self.jobs[job][1]]


def run_tool(words, text):
    """Runs a command over a text; returns what it printed, or raises what it said."""
    done = subprocess.run(words, input=text, capture_output=True, text=True)
    if done.returncode not in (0, 3):
        raise SourceError((done.stdout + done.stderr).strip() or f"{words[0]} ended with {done.returncode}")
    return done.stdout


@dataclass
class Named:
    """What programs may load by a name: the numbers of maps and arrays, and the addresses of arrays and variables."""

    numbers: dict = field(default_factory=dict)
    addresses: dict = field(default_factory=dict)
    maps: int = 0

    def add(self, words):
        """Adds what a line of a run file names, by its words."""
        if words[0] == "map":
            self.numbers[words[1]] = self.maps
            self.maps += 1
        elif words[0] == "array":
            number = len(self.numbers) - self.maps
            self.numbers[words[1]] = FIRST_ARRAY + number
            self.addresses[words[1]] = FIRST_VALUE + AREA * number
        elif words[0] == "var":
            self.addresses[words[1]] = self.addresses[words[2]] + int(words[3], 0)

    def numbered(self, line):
        """Returns a line of assembly with numbers in place of names."""

        def address(found):
            more = int(found[3], 0) * (-1 if found[2] == "-" else 1) if found[2] else 0
            return f"= {self.addresses[found[1]] + more:#x} ll"

        code, mark, comment = line.partition(";")
        code = MAP_BY_NAME.sub(lambda found: f"= map {self.numbers[found[1]]}", code)
        return ADDRESS_BY_NAME.sub(address, code) + mark + comment


def read_program(ebpf, name, first, body, named):
    """Reads a program's assembly, whose first line is this one of its file."""
    made = Program(name)
    listing = run_tool([ebpf, "asm", "--listing"], "".join(f"{named.numbered(line)}\n" for line in body)).splitlines()
    waiting = []
    for place, line in enumerate(listing):
        if label := LABEL.match(line):
            waiting.append(label[1])
        if found := LISTED.match(line):
            pc, text = int(found["pc"]), LABEL.sub("", body[place].split(";")[0]).strip()
            made.texts[pc], made.lines[pc] = text, Line(first.path, first.number + place)
            made.names.update({pc: label for label in waiting})
            waiting = []
    keep_called(made)
    return made


def keep_called(made):
    """Of a program's labels, those that are called are names of functions."""
    called = {text.split()[-1] for text in made.texts.values() if text.startswith("call ")}
    made.names = {pc: name for pc, name in made.names.items() if name in called}
    for pc, text in made.texts.items():
        if found := re.fullmatch(r"call ([+-]\d+)", text):
            target = pc + 1 + int(found[1])
            made.names.setdefault(target, f"function at {target}")


def read_words(ebpf, name, line, digits):
    """Reads a program that a run file has as hex digits."""
    made = Program(name)
    for text in run_tool([ebpf, "disasm", "--pc"], digits).splitlines():
        if found := LISTED.match(text):
            pc = int(found["pc"])
            made.texts[pc], made.lines[pc] = found["text"].strip(), line
    keep_called(made)
    return made


def read_run_file(ebpf, path, text):
    """Reads a run file that `ebpf run` takes."""
    lines = text.splitlines()
    made, named = RunFile(path, text, 1, {}, [], []), Named()
    at = 0
    while at < len(lines):
        words = lines[at].split(";")[0].split()
        if words:
            named.add(words)
        if words[:1] == ["cpus"]:
            made.cpus = int(words[1], 0)
        elif words[:1] == ["map"]:
            made.maps.append(Map(words[1], int(words[3], 0), int(words[5], 0)))
        elif words[:1] == ["array"]:
            made.arrays.append(Array(words[1], int(words[3], 0), int(words[5], 0), "percpu" in words[6:], "frozen" in words[6:]))
        elif words[:1] == ["var"]:
            made.variables.append(Variable(words[1], words[2], int(words[3], 0), int(words[4], 0)))
        elif words[:1] == ["job"]:
            made.jobs.append((int(words[1], 0), words[2]))
        elif words[:1] == ["prog"] and words[2:3] == ["hex"]:
            made.programs[words[1]] = read_words(ebpf, words[1], Line(path, at + 1), words[3])
        elif words[:1] == ["prog"]:
            end = next(it for it in range(at, len(lines)) if lines[it].split(";")[0].split() == ["end"])
            made.programs[words[1]] = read_program(ebpf, words[1], Line(path, at + 2), lines[at + 1 : end], named)
            at = end
        at += 1
    return made


def from_object(ebpf, path, jobs, cpus):
    """Makes a run file of an object, or of C, by tools/from-elf; returns its text and the lines of C by program and pc."""
    with tempfile.TemporaryDirectory() as room:
        lines = Path(room) / "lines.json"
        words = [sys.executable, tool("from-elf"), path, "--ebpf", ebpf, "--lines", lines]
        words += ["--cpus", str(cpus)] if cpus else []
        for job in jobs:
            words += ["--job", job]
        done = subprocess.run(list(map(str, words)), capture_output=True, text=True)
        if done.returncode:
            raise SourceError(done.stderr.strip())
        return done.stdout, json.loads(lines.read_text())


def tool(name):
    """Returns where a tool is: beside this one, or as the Debian package installs it."""
    beside = TOOLS / name
    return str(beside) if beside.exists() else shutil.which(f"ebpf-{name}") or name


def with_jobs(text, jobs, cpus):
    """Returns a run file's text with other jobs (`C:NAME`, `C:NAME:DIGITS`, `C:NAME:xdp:DIGITS`), another number of CPUs, or as it is."""
    lines = text.splitlines()
    if cpus:
        lines = [it for it in lines if first_word(it) != "cpus"]
        at = next((it for it, line in enumerate(lines) if first_word(line) == "ebpf-run"), -1)
        lines.insert(at + 1, f"cpus {cpus}")
    if jobs:
        lines = [it for it in lines if first_word(it) != "job"]
        for job in jobs:
            said = re.fullmatch(r"(\d+):([^:]*)(?::(?:(xdp|tc):)?([^:]*))?", job)
            if not said:
                raise SourceError(f"job {job}: it isn't C:NAME, C:NAME:DIGITS, C:NAME:xdp:DIGITS or C:NAME:tc:DIGITS")
            lines.append(f"job {said[1]} {said[2]}" + (f" {said[3] or 'ctx'} {said[4]}" if said[4] is not None else ""))
    return "".join(f"{it}\n" for it in lines)


def first_word(line):
    return next(iter(line.split(";")[0].split()), "")


def checked(ebpf, text):
    """Returns a run file's text, or raises what the program refuses of it."""
    done = subprocess.run([ebpf, "debug", "--explain"], input=f"{text}---\n", capture_output=True, text=True)
    if done.returncode not in (0, 3):
        raise SourceError((done.stdout + done.stderr).strip())
    return text


def read_source(ebpf, path, jobs, cpus, room):
    """Reads C or an object. Where it has no lines of C, the run file that is made of it is what is shown."""
    text, of_c = from_object(ebpf, path, jobs, cpus)
    shown = Path(room) / f"{Path(path).stem}.run"
    shown.write_text(text)
    made = read_run_file(ebpf, str(shown), checked(ebpf, text))
    for name, program in made.programs.items():
        known = of_c.get(name, {}).items()
        program.of_c = {int(pc): Line(str(Path(file).resolve()), number) for pc, (file, number) in known}
    return made


def read(ebpf, path, jobs, cpus, room):
    """Reads what is to be debugged: a run file, C or an object; `jobs` and `cpus` take the place of its own."""
    path = str(Path(path).resolve())
    if not Path(path).is_file():
        raise SourceError(f"{path} isn't there")
    if path.endswith((".c", ".o")):
        return read_source(ebpf, path, jobs, cpus, room)
    lines = Path(path).read_text(errors="replace").splitlines()
    cut = next((at for at, line in enumerate(lines) if line.split() == ["---"]), len(lines))
    text = "".join(f"{line}\n" for line in lines[:cut])
    # The lines that are shown are the file's own, whatever jobs are asked for.
    shown = read_run_file(ebpf, path, checked(ebpf, text))
    asked = read_run_file(ebpf, path, checked(ebpf, with_jobs(text, jobs, cpus)))
    return RunFile(path, asked.text, asked.cpus, shown.programs, asked.maps, asked.jobs, asked.arrays, asked.variables)
