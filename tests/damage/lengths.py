"""Inputs of each length: what is cut off, and what is as long as it may be, or longer."""

from damage.asking import Tally

FIVE = bytes.fromhex("b700000005000000 9500000000000000")
WIDE_FIVE = bytes.fromhex("1800000005000000 0000000000000000 9500000000000000")
EXIT = "9500000000000000"
MOST_BYTES = 16_777_216
COMMANDS = [["hex"], ["asm"], ["disasm"], ["run"], ["run", "--workers", "2"], ["debug"]]


def prefixes(tally, program, name, words, by_length):
    """Each prefix of the bytes is refused for its length, but for those that this says."""
    for length in range(len(words) + 1):
        wanted = by_length.get(length, f"refused E2 {length}")
        got = program(["hex"], words[:length].hex().encode())
        holds = got == (f"{wanted}\n".encode(), b"", 0 if wanted == "r0=5" else 1)
        tally.see(f"the first {length} bytes of {name}", holds, got)


def lengths(program):
    """The tally of these cases."""
    tally = Tally()
    prefixes(tally, program, "a move and exit", FIVE, {0: "refused E1", 8: "refused E11 0", 16: "r0=5"})
    wide = {0: "refused E1", 8: "refused E6 0", 16: "refused E11 0", 24: "r0=5"}
    prefixes(tally, program, "a wide load and exit", WIDE_FIVE, wide)
    for name, digits, wanted in [
        ("65,536 words are run", EXIT * 65_536, (b"r0=0\n", b"", 0)),
        ("65,537 words are refused", EXIT * 65_537, (b"refused E3\n", b"", 1)),
        ("524,289 bytes are no words", EXIT * 65_536 + "95", (b"refused E2 524289\n", b"", 1)),
    ]:
        got = program(["hex"], digits.encode())
        tally.see(name, got == wanted, got)
    for command in COMMANDS:
        name = " ".join(command)
        got = program(command, b" " * (MOST_BYTES + 1))
        tally.see(f"{name} refuses 16,777,217 bytes", got == (b"refused L10\n", b"", 1), got)
        got = program(command, b" " * MOST_BYTES)
        tally.see(f"{name} reads 16,777,216 bytes", b"L10" not in got.stdout and got.status in (0, 1), got)
    return tally
