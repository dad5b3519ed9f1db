"""Lists of words, by `disasm` and `hex`."""

import re

from damage.asking import Tally, is_documented
from damage.drawing import Drawn

# An opcode with a selecting field: opcode, offset or none, immediate or none; none stands for any that is drawn.
DIVISIONS = (0x34, 0x94, 0x37, 0x97)
SIGNED = [(opcode | source, offset, None) for opcode in DIVISIONS for source in (0, 8) for offset in (0, 1)]
PLAIN = [
    (code << 4 | source | kind, 0, None)
    for code in (0, 1, 2, 4, 5, 6, 7, 10, 12)
    for source in (0, 8)
    for kind in (4, 7)
]
MOVES = [(0xB4, 0, None), (0xB7, 0, None), *((opcode, bits, 0) for opcode in (0xBC, 0xBF) for bits in (0, 8, 16))]
SWAPS = [(opcode, 0, width) for opcode in (0xD4, 0xDC, 0xD7) for width in (16, 32, 64)]
JUMPS = [
    (code << 4 | source | kind, None, None)
    for code in (1, 2, 3, 4, 5, 6, 7, 10, 11, 12, 13)
    for source in (0, 8)
    for kind in (5, 6)
]
OTHERS = [(0x84, 0, 0), (0x87, 0, 0), (0xBF, 32, 0), (0x05, None, 0), (0x06, 0, 1), (0x95, 0, 0)]
CALLS = [*((0x85, 0, number) for number in (1, 2, 3, 5, 6, 7, 8, 9, 14, 15, 93, 94, 125))]
MEMORY = [(opcode, None, 0) for opcode in (0x61, 0x69, 0x71, 0x79, 0x81, 0x89, 0x91, 0x63, 0x6B, 0x73, 0x7B)]
STORES = [(opcode, None, None) for opcode in (0x62, 0x6A, 0x72, 0x7A)]
ATOMICS = [
    (opcode, None, kind) for opcode in (0xC3, 0xDB) for kind in (0, 1, 0x40, 0x41, 0x50, 0x51, 0xA0, 0xA1, 0xE1, 0xF1)
]
ROWS = [*SIGNED, *PLAIN, *MOVES, *SWAPS, *JUMPS, *OTHERS, *CALLS, *MEMORY, *STORES, *ATOMICS, (0x18, 0, None)]
WIDE = 0x18
EXIT = bytes.fromhex("9500000000000000")
OFFSETS = [0, 0, 0, 0, 1, 1, 2, 0xFFFF, 0xFFFE, 0xFFF8]
IMMEDIATES = [0, 1, 8, 16, 64, 255, 0x7FFFFFFF, 0x80000000, 0xFFFFFFFF]


def near_a_row(drawn):
    """A word or a wide instruction as a row has it, but for fields that may be in use or not."""
    opcode, offset, immediate = drawn.one_of(ROWS)
    if immediate is None:
        immediate = drawn.one_of(IMMEDIATES) if drawn.happens(3, 4) else drawn.below(1 << 32)
    if offset is None:
        offset = drawn.one_of(OFFSETS) if drawn.happens(15, 16) else drawn.below(1 << 16)
    kind = opcode & 7
    is_swap = kind in (4, 7) and opcode & 0xF0 == 0xD0
    uses_source = kind in (1, 3) or kind > 3 and opcode & 8 and not is_swap
    if uses_source and kind > 3:
        immediate = 0
    source = drawn.below(10) if uses_source else 0
    target = drawn.below(10) if drawn.happens(31, 32) else 10
    registers = source << 4 | target
    if opcode in (0x05, 0x06, 0x85, 0x95):
        registers = 0
    if opcode == 0x85 and drawn.happens(1, 2):
        registers, immediate = 0x10, drawn.below(3)
    if opcode == WIDE and drawn.happens(1, 8):
        registers |= 0x10
    if drawn.happens(1, 32):
        registers = drawn.below(256)
    word = bytes([opcode, registers]) + offset.to_bytes(2, "little") + immediate.to_bytes(4, "little")
    if opcode != WIDE:
        return word
    return word + bytes(4) + drawn.below(1 << 32).to_bytes(4, "little")


def a_list(drawn):
    """The bytes of a list, often a program, seldom a whole number of words no more."""
    words = b"".join(near_a_row(drawn) for _ in range(drawn.among(0, 16)))
    if drawn.happens(1, 4):
        words = b"".join(drawn.some_bytes(8) for _ in range(drawn.among(0, 6)))
    if drawn.happens(1, 2):
        words += EXIT
    damaged = bytearray(words)
    if damaged and drawn.happens(1, 3):
        damaged[drawn.below(len(damaged))] ^= 1 << drawn.below(8)
    if damaged and drawn.happens(1, 16):
        del damaged[drawn.below(len(damaged)) :]
    return bytes(damaged)


def as_digits(drawn, words):
    digits = words.hex(drawn.one_of(" \n"), -8) if words else ""
    if drawn.happens(1, 64):
        at = drawn.below(len(digits) + 1)
        digits = digits[:at] + drawn.one_of(["g", "0", "0x", "\x00", "\t", "é"]) + digits[at:]
    return digits.encode()


def bytes_of(digits):
    """Blanks and line ends may stand between any two digits."""
    return bytes.fromhex(b"".join(digits.split()).decode())


def instruction_at(words, pc):
    """Its bytes: a wide one has two words."""
    return words[8 * pc :][: 16 if words[8 * pc] == WIDE else 8]


class Lists:
    """Tries lists of words, a chunk at a time: what is accepted is read back together."""

    name = "list of words"

    def __init__(self, program):
        self.program = program
        self.tally = Tally()
        self.listed = []  # name, words, what disasm printed
        self.before = []  # name, words in front of a refused one

    def try_one(self, number):
        drawn = Drawn(self.name, number)
        words = a_list(drawn)
        digits = as_digits(drawn, words)
        name = f"{self.name} {number}"
        shown = self.program(["disasm"], digits)
        self.tally.see(f"{name} is listed or refused", is_documented("disasm", shown), (digits, shown))
        if shown.status == 0:
            self.listed.append((name, digits, shown.stdout))
        elif at := re.fullmatch(rb"refused E[4-7] (\d+)\n", shown.stdout):
            self.see_lowest(name, digits, int(at[1]), shown)
        ran = self.program(["hex", "--budget", "1000"], digits)
        self.tally.see(f"{name} is run or refused", is_documented("hex", ran), (digits, ran))
        if shown.status:
            self.tally.see(f"{name} is refused alike by disasm and hex", ran == shown, (digits, shown, ran))
        elif at := re.fullmatch(rb"refused E(\d+) (\d+)\n", ran.stdout):
            self.see_lowest_sound(name, digits, int(at[1]), int(at[2]), ran)

    def see_lowest(self, name, digits, pc, shown):
        """A word that is refused is so without what stands behind it, and what stands before it isn't."""
        words = bytes_of(digits)
        kept = words[: 8 * pc] + instruction_at(words, pc)
        got = self.program(["disasm"], kept.hex().encode())
        self.tally.see(f"{name} is refused without what is behind the word", got == shown, (digits, shown, got))
        if pc:
            self.before.append((name, words[: 8 * pc].hex().encode()))

    def see_lowest_sound(self, name, digits, code, pc, ran):
        """An instruction that may not stand in a program is refused where all behind it is exit; where it is exit
        too, nothing is refused. What jumps into a wide instruction, or falls off, is refused for what is behind."""
        words = bytes_of(digits)
        own = instruction_at(words, pc)
        behind = len(words) // 8 - pc
        if code not in (10, 11):
            kept = words[: 8 * pc] + own + EXIT * (behind - len(own) // 8)
            got = self.program(["hex", "--budget", "1000"], kept.hex().encode())
            # as the last instruction it falls off, which has a higher number
            self.tally.see(f"{name} is refused before exits", got.stdout == ran.stdout, (digits, ran, got))
        got = self.program(["hex", "--budget", "1000"], (words[: 8 * pc] + EXIT * behind).hex().encode())
        self.tally.see(f"{name} isn't refused with exits there", got.status != 1, (digits, ran, got))

    def finish(self):
        """Together all that was listed is assembled, and all that stood before a refused word is listed; where that
        goes wrong, each alone."""
        if not self.reads_back(self.listed):
            for one in self.listed:
                self.tally.see(f"{one[0]} reads back", self.reads_back([one]), one)
        else:
            self.tally.passed += len(self.listed)
        if not self.is_listed(self.before):
            for one in self.before:
                self.tally.see(f"{one[0]} is refused by the lowest word", self.is_listed([one]), one)
        else:
            self.tally.passed += len(self.before)
        return self.tally

    def reads_back(self, listed):
        words = b"".join(digits for _, digits, _ in listed)
        got = self.program(["asm"], b"".join(text for _, _, text in listed))
        return got.status == 0 and bytes_of(got.stdout) == bytes_of(words)

    def is_listed(self, before):
        return not before or self.program(["disasm"], b"".join(digits for _, digits in before)).status == 0
