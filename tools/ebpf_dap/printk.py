"""What a call of `bpf_trace_printk` would print, as `ebpf run --explain` shows it."""

import re

CALL = re.compile(r"call (6|trace_printk|bpf_trace_printk)\b")
LONGEST = 512
# A conversion of a format, as Linux reads one: flags, a width, a length, and what is printed.
CONVERSION = re.compile(r"%(?:%|([0+ -]*)([1-9][0-9]*)?(?:(l{0,2})([diuxX])|([cs])))")
UNTAKEN = "its format has a byte or a conversion that isn't taken"


class Unprinted(Exception):
    """Why a call prints nothing."""


def is_call(text):
    """Whether an instruction is such a call."""
    return CALL.match(text) is not None


def shown(data):
    """Bytes as they are shown."""
    escapes = {9: "\\t", 10: "\\n"}
    return "".join(escapes.get(it) or (chr(it) if 32 <= it < 127 else f"\\x{it:x}") for it in data)


def text_at(machine, cpu, address, size):
    """The bytes from an address on up to a 0, which is among the first `size`."""
    data = bytearray()
    while len(data) < size:
        count = min(64, size - len(data))
        line = machine.one(f"mem {cpu} {address + len(data)} {count}")[-1]
        if line == "unreadable":
            count, line = 1, machine.one(f"mem {cpu} {address + len(data)} 1")[-1]
        if line == "unreadable":
            raise Unprinted("the program may not read the bytes of its format")
        data += bytes.fromhex(line)
        if 0 in data:
            return bytes(data[: data.index(0)])
    raise Unprinted("its format has no 0 within the size in r2")


def converted(machine, cpu, found, value):
    """What a conversion prints of a register."""
    flags, width, length, kind, byte = found.groups()
    width = min(int(width or 0), 1024)
    if byte == "c":
        text, sign = shown([value & 255]), ""
    elif byte == "s":
        try:
            text, sign = shown(text_at(machine, cpu, value, LONGEST)), ""
        except Unprinted:
            text, sign = "", ""
    else:
        bits = 64 if length else 32
        value %= 2**bits
        signed = kind in "di"
        negative = signed and value >= 2 ** (bits - 1)
        sign = "-" if negative else "+" if signed and "+" in flags else " " if signed and " " in flags else ""
        size = 2**bits - value if negative else value
        text = f"{size:{kind if kind in 'xX' else 'd'}}"
        if "0" in flags and "-" not in flags:
            text = text.rjust(width - len(sign), "0")
    return (sign + text).ljust(width) if "-" in flags else (sign + text).rjust(width)


def printed(machine, cpu):
    """What the call at which a CPU is would print; raises Unprinted."""
    lines = machine.one(f"regs {cpu}")
    r = {it.split("=")[0]: int(it.split("=")[1]) for it in lines if re.fullmatch(r"r\d+=\d+", it)}
    data = text_at(machine, cpu, r["r1"], r["r2"] % 2**32).removesuffix(b"\n")
    if any(it not in (*range(9, 14), *range(32, 127)) for it in data):
        raise Unprinted(UNTAKEN)
    values = [r["r3"], r["r4"], r["r5"]]
    text, at, form = "", 0, data.decode("ascii")
    while at < len(form):
        if form[at] != "%":
            text, at = text + shown(form[at].encode()), at + 1
            continue
        found = CONVERSION.match(form, at)
        if not found:
            raise Unprinted(UNTAKEN)
        if found[0] == "%%":
            text += "%"
        elif not values:
            raise Unprinted("its format has more than three conversions")
        else:
            text += converted(machine, cpu, found, values.pop(0))
        at = found.end()
    return text


def line_of_call(machine, cpu):
    """The line that is shown of it."""
    try:
        return f"prints: {printed(machine, cpu)}"
    except Unprinted as why:
        return f"prints nothing: {why}"
