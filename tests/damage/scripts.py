"""Scripts of the debugger."""

from damage.asking import Tally, is_documented
from damage.drawing import Drawn
from damage.run_files import a_damaged_file, a_file

COMMANDS = [
    *("step C", "step C", "step C", "step C", "go", "go", "regs C", "where C", "break C P", "map M", "mem C A N", ""),
    *("mem 0 0x300000000 8", "mem C 0x200000000 4", "mem C 0x1000000000 8", "map m", "map n", "break 0 1"),
    *("step C N", "steps S", "steps S S S", "go C until P", "delete C P", "keys M", "schedule", "maps", "jobs", "mark P"),
]
TOKENS = ["step", "steps", "go", "until", "regs", "where", "mem", "map", "break", "schedule", "mark", "quit"]
TOKENS += ["---", ";", "-1", "+1", "257", "é", "\x00", "0x", "x" * 33]
DRAWN = {
    "C": lambda drawn: str(drawn.below(5)),
    "P": lambda drawn: str(drawn.below(12)),
    "M": lambda drawn: drawn.one_of(["m", "n", "o", "p", "q", "a"]),
    "A": lambda drawn: hex(drawn.one_of([0x200000000, 0x300000000, 0x1000000000, 0x1010000000, 0]) + drawn.below(520)),
    "N": lambda drawn: str(drawn.one_of([0, 1, 2, 8, 256, 257])),
    "S": lambda drawn: f"{drawn.below(4)}*{drawn.one_of([0, 1, 2, 8, 30])}",
}
# Where the answers to what is drawn end, and what is asked behind them.
MARK = b"mark 4711"
ASKED = [b"schedule", b"jobs"] + [b"%s %d" % (word, cpu) for cpu in range(4) for word in (b"where", b"regs")]
ASKED += [b"map %s" % name for name in (b"m", b"n", b"o")]


def a_command(drawn):
    words = [DRAWN[word](drawn) if word in DRAWN else word for word in drawn.one_of(COMMANDS).split(" ")]
    if drawn.happens(1, 8):
        words[drawn.below(len(words))] = drawn.one_of(TOKENS)
    if drawn.happens(1, 16):
        words.insert(drawn.below(len(words) + 1), drawn.one_of(TOKENS))
    return drawn.one_of([" ", " ", " ", "\t"]).join(words).encode()


class Scripts:
    """Tries scripts, most of them over a run file that isn't damaged."""

    name = "script"

    def __init__(self, program):
        self.program = program
        self.tally = Tally()

    def try_one(self, number):
        drawn = Drawn(self.name, number)
        file = a_damaged_file(drawn) if drawn.happens(1, 8) else "\n".join(a_file(drawn)).encode()
        commands = [a_command(drawn) for _ in range(drawn.among(0, 24))]
        name = f"{self.name} {number}"
        text = file + b"\n---\n" + b"\n".join(commands)
        got = self.program(["debug"], text)
        self.tally.see(f"{name} is answered or refused", is_documented("debug", got), (text, got))
        if got.status == 1:
            whole = self.program(["run"], file)
            self.tally.see(f"{name} is refused as its run file", whole == got, (text, got, whole))
            return
        kept = file + b"\n---\n" + b"\n".join(commands[: drawn.below(len(commands) + 1)])
        before = self.program(["debug"], kept)
        holds = before.status in (0, got.status) and got.stdout.startswith(before.stdout)
        self.tally.see(f"{name} is answered so without what is behind", holds, (text, got, kept, before))

        if number % 4 == 0:
            self.see_schedule(name, file, commands)

    def see_schedule(self, name, file, commands):
        """What `schedule` tells makes the same machine again: its turns, given to another session, leave it so."""
        asked = self.told_behind(file, commands)
        again = self.told_behind(file, asked[:1])
        self.tally.see(f"{name} is made again by its schedule", asked == again and asked, (file, commands, asked, again))

    def told_behind(self, file, commands):
        """The answers to what is asked behind commands."""
        got = self.program(["debug"], file + b"\n---\n" + b"\n".join([*commands, MARK, *ASKED]))
        lines = got.stdout.splitlines()
        return lines[len(lines) - lines[::-1].index(MARK) :] if MARK in lines else []

    def finish(self):
        return self.tally
