"""What is shown of a CPU, the maps, the arrays and their variables: scopes, and what a text in a watch or a hover names."""

import re

FRAMES, FRAME_STEP, FRAME_SIZE = 0x3_0000_0000, 0x1000, 512
CONTEXT = 0x2_0000_0000
VALUES = 0x10_0000_0000
FIRST_ARRAY, ARRAY_VALUES, AREA = 16, 0x11_0000_0000, 0x1000_0000
HELD = re.compile(r"(\w+)\[([^\]]*)\] (\d+) ([0-9a-f]*)")
ELEMENT = re.compile(r"(\w+)\[(0x[0-9a-f]+|\d+|[0-9a-f]+)\]")
# Linux's numbers of the errors that helpers return.
ERRORS = {2: "ENOENT", 7: "E2BIG", 12: "ENOMEM", 16: "EBUSY", 17: "EEXIST", 22: "EINVAL"}


def number_of(data):
    """Returns bytes as text: as a number, too, where a program could load them at once."""
    shown = data.hex()
    return f"{int.from_bytes(data, 'little')} (0x{shown})" if len(data) in (1, 2, 4, 8) else shown


def signed_text(value):
    """Returns a small negative number with its sign, and the error that it may be; nothing of another number."""
    if 0 < 2**64 - value <= 4095:
        return f"-{2**64 - value} {ERRORS.get(2**64 - value, '')}".rstrip()
    return ""


def numbers_in(digits):
    """Returns bytes as numbers of 8 bytes where they are as many, else as one number, else as they are."""
    data = bytes.fromhex(digits)
    if len(data) > 8 and len(data) % 8:
        return digits
    return " ".join(str(int.from_bytes(data[at : at + 8], "little")) for at in range(0, len(data), 8))


class Variables:
    """Scopes and variables of one stop. Each that has parts has a number, which is good until the next stop."""

    def __init__(self, machine, run_file):
        self.machine, self.run_file, self.parts = machine, run_file, []

    def reference(self, make):
        """Returns the number of variables that are made when they are asked for."""
        self.parts.append(make)
        return len(self.parts)

    def made(self, reference):
        """Returns the variables with this number, or None where there are none."""
        return self.parts[reference - 1]() if 0 < reference <= len(self.parts) else None

    def scopes(self, cpu):
        """Returns the scopes of a CPU: registers, memory, held values; and the maps, arrays and variables, which are everybody's."""
        found = [
            ("Registers", lambda: self.registers(cpu), "registers"),
            ("Frames", lambda: self.frames(cpu), "locals"),
            ("Context", lambda: self.context(cpu), "arguments"),
            ("Held values", lambda: self.held(cpu), None),
            ("Maps", self.maps, None),
            *([("Variables", self.variables, None)] if self.run_file.variables else []),
            *([("Arrays", self.arrays, None)] if self.run_file.arrays else []),
            ("Jobs", self.jobs, None),
        ]
        made = []
        for name, make, hint in found:
            scope = {"name": name, "variablesReference": self.reference(make), "expensive": False}
            made.append({**scope, "presentationHint": hint} if hint else scope)
        return made

    def plain(self, name, value, **more):
        return {"name": name, "value": value, "variablesReference": 0, **more}

    def group(self, name, value, make):
        return {"name": name, "value": value, "variablesReference": self.reference(make)}

    def registers(self, cpu):
        held = self.held_spans(cpu)
        made = []
        for number, value in enumerate(self.machine.registers(cpu)):
            meaning = self.meaning(value, held)
            more = {"memoryReference": f"{cpu}:{value:#x}"} if meaning else {}
            text = f"{value} ({value:#x})" if value > 9 else str(value)
            made.append(self.plain(f"r{number}", f"{text} {meaning}".rstrip(), evaluateName=f"r{number}", **more))
        return made

    def meaning(self, value, held):
        """Says what a number is where it is an address, a map or an error's number."""
        for name, address, data in held:
            if address <= value < address + len(data):
                return f"{name}+{value - address}"
        frame, offset = divmod(value - FRAMES, FRAME_STEP)
        if 0 <= frame < 8 and offset <= FRAME_SIZE:
            return f"frame {frame}, {FRAME_SIZE - offset} bytes below its end"
        if CONTEXT <= value <= CONTEXT + 4096:
            return f"context+{value - CONTEXT}"
        if 0 <= value - (1 << 32) < len(self.run_file.maps):
            return f"map {self.run_file.maps[value - (1 << 32)].name}"
        if 0 <= value - (1 << 32) - FIRST_ARRAY < len(self.run_file.arrays):
            return f"array {self.run_file.arrays[value - (1 << 32) - FIRST_ARRAY].name}"
        if 0 <= value - ARRAY_VALUES < len(self.run_file.arrays) * AREA:
            return self.place(*divmod(value - ARRAY_VALUES, AREA))
        return signed_text(value)

    def place(self, number, offset):
        """Says what is so many bytes after the first of an array: a variable, or a value by its index."""
        array = self.run_file.arrays[number]
        for it in self.run_file.variables:
            if it.array == array.name and it.at <= offset < it.at + it.size:
                return f"var {it.name}" + (f"+{offset - it.at}" if offset > it.at else "")
        index, cpu, rest = array.place(offset)
        return f"{array.name}[{index}]+{rest}" + ("" if cpu is None else f" of CPU {cpu}")

    def frames(self, cpu):
        """The numbers of a CPU's live frames that aren't 0, the newest frame first."""
        where, made = self.machine.where[cpu], []
        if not where.has_work or where.is_waiting:
            return made
        for frame in reversed(range(where.depth)):
            data = self.machine.bytes_at(cpu, FRAMES + FRAME_STEP * frame, FRAME_SIZE) or b""
            words = [(at, data[at : at + 8]) for at in range(0, len(data), 8) if any(data[at : at + 8])]
            for at, word in reversed(words):
                name = f"r10 - {FRAME_SIZE - at}" + (f" of frame {frame}" if where.depth > 1 else "")
                reference = f"{cpu}:{FRAMES + FRAME_STEP * frame + at:#x}"
                made.append(self.plain(name, number_of(word), memoryReference=reference))
        return made

    def context(self, cpu):
        """A CPU's context, sixteen bytes a line: as long as its program may read."""
        where, made, at = self.machine.where[cpu], [], 0
        if not where.has_work or where.is_waiting:
            return made
        while at < 4096:
            count = next((it for it in range(16, 0, -1) if self.machine.bytes_at(cpu, CONTEXT + at, it) is not None), 0)
            if not count:
                break
            data = self.machine.bytes_at(cpu, CONTEXT + at, count)
            made.append(self.plain(f"context+{at}", data.hex(" "), memoryReference=f"{cpu}:{CONTEXT + at:#x}"))
            at += count
        return made

    def held_spans(self, cpu):
        """Returns the values that a CPU's job holds: name, address, bytes."""
        found = (HELD.fullmatch(line) for line in self.machine.one(f"held {cpu}"))
        return [(f"{it[1]}[{it[2]}]", int(it[3]), bytes.fromhex(it[4])) for it in found if it]

    def held(self, cpu):
        made = []
        for name, address, data in self.held_spans(cpu):
            made.append(self.plain(name, number_of(data), memoryReference=f"{cpu}:{address:#x}"))
        return made

    def maps(self):
        return [self.group(it.name, self.counted(it), lambda it=it: self.pairs(it)) for it in self.run_file.maps]

    def counted(self, it):
        count = len(self.machine.one(f"keys {it.name}"))
        return f"{count} key{'' if count == 1 else 's'}"

    def pairs(self, it):
        """The keys of a map with their values."""
        made = []
        for line in self.machine.one(f"map {it.name}"):
            key, _, value = line.partition("=")
            name = f"{it.name}[{key}]"
            made.append(self.plain(name, number_of(bytes.fromhex(value)), evaluateName=name))
        return made

    def variables(self):
        """The variables with their numbers, also those that can only be read."""
        return [self.variable(it) for it in self.run_file.variables]

    def variable(self, it):
        (line,) = self.machine.one(f"var {it.name}")
        number = int(line.partition("=")[2])
        return self.plain(it.name, number_of(number.to_bytes(it.size, "little")), evaluateName=it.name)

    def arrays(self):
        return [self.array(it) for it in self.run_file.arrays]

    def array(self, it):
        return self.group(it.name, f"{it.most} value{'' if it.most == 1 else 's'}", lambda: self.values(it))

    def values(self, it):
        """The values of an array that have a byte other than zero."""
        made = []
        for line in self.machine.one(f"map {it.name}"):
            place, _, value = line.removeprefix(f"array {it.name} ").partition("=")
            index, _, cpu = place.partition(" cpu ")
            name = f"{it.name}[{index}]" + (f" of CPU {cpu}" if cpu else "")
            made.append(self.plain(name, number_of(bytes.fromhex(value))))
        return made

    def value_at(self, it, index, cpu):
        """Returns the value of an index, of this CPU where each has its own; None where the array has no such index."""
        try:
            number = int(index, 0)
        except ValueError:
            return None
        if number >= it.most:
            return None
        name = f"{it.name}[{number}]" + (f" of CPU {cpu}" if it.is_per_cpu else "")
        found = [value for value in self.values(it) if value["name"] == name]
        return found[0] if found else self.plain(name, number_of(bytes(it.value)))

    def jobs(self):
        return [self.job(line) for line in self.machine.one("jobs")]

    def job(self, line):
        """How a job ended, or that it is open, by the line that the debugger prints of it."""
        words = line.split(" ", 4)
        return self.plain(" ".join(words[:4]), words[4])

    def named(self, cpu, text):
        """Returns a variable by its name: `r3`, `x`, `counter`, `counter[00000000]`, `counter[0]`; None where none has it."""
        text = text.strip()
        if re.fullmatch(r"[rw]\d+", text):
            found = [it for it in self.registers(cpu) if it["name"] == f"r{text[1:]}"]
            return found[0] if found else None
        for it in self.run_file.maps:
            if it.name == text:
                return self.group(it.name, self.counted(it), lambda it=it: self.pairs(it))
            if (found := ELEMENT.fullmatch(text)) and found[1] == it.name:
                return self.element(it, found[2])
        for it in self.run_file.variables:
            if it.name == text:
                return self.variable(it)
        for it in self.run_file.arrays:
            if it.name == text:
                return self.array(it)
            if (found := ELEMENT.fullmatch(text)) and found[1] == it.name:
                return self.value_at(it, found[2], cpu)
        return None

    def element(self, it, key):
        """Returns the value of a key, which is all its bytes in hex, or a number."""
        if len(key) != 2 * it.key:
            try:
                key = int(key, 0).to_bytes(it.key, "little").hex()
            except (ValueError, OverflowError):
                return None
        found = [pair for pair in self.pairs(it) if pair["name"] == f"{it.name}[{key}]"]
        return found[0] if found else self.plain(f"{it.name}[{key}]", "no value")
