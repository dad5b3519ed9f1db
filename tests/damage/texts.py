"""Texts of assembly, by `asm` and `disasm`."""

import re

from damage.asking import Tally, is_documented
from damage.drawing import Drawn

NUMBERS = ["0", "1", "-1", "7", "2147483647", "-2147483648", "2147483648", "4294967295", "0x10", "-0x80", "0xffffffff"]
OFFSETS = ["+ 0", "- 8", "+8", "-32768", "+ 32767", "+ 32768", "+ 0x10"]
LABELS = ["a", "b", "next", "end", "r12", "_x9"]
SIGNS = "= += -= *= /= s/= |= &= <<= >>= %= s%= ^= s>>= == > >= & != s> s>= < <= s< s<= ( ) * , : ; + -".split()
TOKENS = [*SIGNS, *NUMBERS, *LABELS, "r0", "r10", "r11", "w3", "u8", "u64", "s32", "goto", "gotol", "if", "call"]
TOKENS += ["exit", "lock", "map", "ll", "le16", "bswap64", "xchg_64", "atomic_fetch_add", "cmpxchg_32"]
TOKENS += ["mov", "#", "é", "\x00", "\r"]
# R, W: a register, its low half; N, O: a number, an offset; J: a target; C: a condition; A: an assignment; S: a size
FORMS = [
    *("R A R", "R A N", "W A W", "W A N", "r1 = -r1", "w2 = -w2", "R = (s8)R", "R = (s32)R", "W = (s16)W"),
    *("r3 = le16 r3", "r3 = be64 r3", "r4 = bswap32 r4", "goto J", "gotol J", "if R C R goto J", "if W C N goto J"),
    *("call 1", "call 8", "call 93", "call bpf_ktime_get_ns", "call J", "exit", "R = *(S *)(R O)", "R = *(s16 *)(R O)"),
    *("*(S *)(R O) = R", "*(S *)(R O) = N"),
    *("lock *(u64 *)(R O) += R", "lock *(u32 *)(R O) ^= R", "r5 = atomic_fetch_or((u64 *)(R O), r5)"),
    *("w5 = atomic_fetch_add((u32 *)(R O), w5)", "r6 = xchg_64(R O, r6)", "w0 = cmpxchg_32(R O, w0, W)"),
    *("R = 0x1122334455667788 ll", "R = 18446744073709551615 ll", "R = map 0", ""),
]
DRAWN = {
    "R": lambda drawn: f"r{drawn.below(11) if drawn.happens(63, 64) else 11}",
    "W": lambda drawn: f"w{drawn.below(11)}",
    "N": lambda drawn: drawn.one_of(NUMBERS),
    "O": lambda drawn: drawn.one_of(OFFSETS),
    "J": lambda drawn: drawn.one_of(LABELS if drawn.happens(1, 2) else ["+0", "-1", "+1", "-2", "+70000"]),
    "C": lambda drawn: drawn.one_of("== > >= & != s> s>= < <= s< s<=".split()),
    "A": lambda drawn: drawn.one_of("+= -= *= /= s/= |= &= <<= >>= %= s%= ^= = s>>=".split()),
    "S": lambda drawn: drawn.one_of(["u8", "u16", "u32", "u64"]),
}
LABEL = re.compile(rb"[ \t\r]*([A-Za-z_][A-Za-z0-9_]*)[ \t\r]*:")


def a_form(drawn):
    """A line that has a form, but for numbers out of range and labels that aren't there."""
    return re.sub(r"\b[RWNOJCAS]\b", lambda word: DRAWN[word[0]](drawn), drawn.one_of(FORMS))


def damaged(drawn, line):
    """The line with a character or a token more, less or another."""
    tokens = line.split(" ")
    at = drawn.below(len(tokens))
    match drawn.below(4):
        case 0:
            tokens[at] = drawn.one_of(TOKENS)
        case 1:
            tokens.insert(at, drawn.one_of(TOKENS))
        case 2:
            del tokens[at]
        case _:
            return line[: drawn.below(len(line) + 1)] + drawn.one_of(TOKENS)
    return drawn.one_of([" ", " ", "", "\t"]).join(tokens)


def a_line(drawn, damages):
    line = a_form(drawn)
    if drawn.happens(1, damages):
        line = damaged(drawn, line)
    if drawn.happens(1, 8):
        line = f"{drawn.one_of(LABELS)}: {line}"
    if drawn.happens(1, 16):
        line += " ; r11 = 5 ; é"
    return line


def a_text(drawn):
    """Some lines: of the language, damaged in one place or more, or of tokens alone."""
    damages = drawn.one_of([8, 64, 1000, 1000])
    lines = [a_line(drawn, damages) for _ in range(drawn.among(0, 20))]
    if drawn.happens(1, 8):
        lines = [" ".join(drawn.one_of(TOKENS) for _ in range(drawn.below(8))) for _ in lines]
    if drawn.happens(1, 2):
        # few texts have all labels that they name by chance
        lines += [f"{label}: exit" for label in LABELS if not any(line.startswith(f"{label}:") for line in lines)]
    text = "\n".join(lines).encode()
    if drawn.happens(1, 32):
        at = drawn.below(len(text) + 1)
        text = text[:at] + drawn.some_bytes(drawn.among(1, 3)) + text[at:]
    return text


def labels_alone(lines):
    """The labels of these lines, where a line begins with one, so that jumps from elsewhere find them."""
    return [b"".join(LABEL.findall(line)[:1]) + b":" if LABEL.match(line) else b"" for line in lines]


class Texts:
    """Tries texts, a chunk at a time: what is accepted is read back together."""

    name = "text"

    def __init__(self, program):
        self.program = program
        self.tally = Tally()
        self.assembled = []  # name, what asm printed

    def try_one(self, number):
        drawn = Drawn(self.name, number)
        text = a_text(drawn)
        name = f"{self.name} {number}"
        got = self.program(["asm"], text)
        self.tally.see(f"{name} is assembled or refused", is_documented("asm", got), (text, got))
        if got.status == 0:
            self.assembled.append((name, got.stdout))
        elif at := re.fullmatch(rb"refused A(\d) (\d+)\n", got.stdout):
            self.see_lowest(name, text.split(b"\n"), int(at[1]), int(at[2]), got)

    def see_lowest(self, name, lines, code, line, got):
        """A line is refused so if of those behind it only the labels are left; if it goes too, no line before it is.
        A label that is nowhere is refused for all lines."""
        if code in (1, 2, 4):
            kept = self.program(["asm"], b"\n".join(lines[:line] + labels_alone(lines[line:])))
            self.tally.see(f"{name} is refused without what is behind the line", kept == got, (lines, got, kept))
        before = self.program(["asm"], b"\n".join(lines[: line - 1] + labels_alone(lines[line - 1 :])))
        lower = re.fullmatch(rb"refused A\d (\d+)\n", before.stdout)
        holds = before.status == 0 or lower is not None and int(lower[1]) >= line
        self.tally.see(f"{name} is refused by the lowest line", holds, (lines, got, before))

    def finish(self):
        """Together all that was assembled is listed and assembled again; where that goes wrong, each alone."""
        if not self.reads_back(self.assembled):
            for one in self.assembled:
                self.tally.see(f"{one[0]} reads back", self.reads_back([one]), one)
        else:
            self.tally.passed += len(self.assembled)
        return self.tally

    def reads_back(self, assembled):
        words = b"".join(words for _, words in assembled)
        if not words:
            return True
        listed = self.program(["disasm"], words)
        return listed.status == 0 and self.program(["asm"], listed.stdout) == (words, b"", 0)
