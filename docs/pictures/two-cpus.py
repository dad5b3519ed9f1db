"""Prints the picture of docs/proofs/linearization.md: two CPUs whose steps cross, and where each event takes effect. The
steps that it names are functions of hop_words, and those that take effect stand in that page's table."""

import re
import sys

from drawing import TOP, Picture

# The CPU, what its step does, the functions of hop_words that do it, and the event that takes effect there.
STEPS = [
    (0, "claim an element, fill key and value", ("claim_bit", "fill_key_word", "fill_value_word"), None),
    (1, "load the stamp: version 0, unlocked", ("see_stamp",), None),
    (0, "lock the stamp", ("lock",), None),
    (0, "read the segment: k isn't there", ("read_guarded",), None),
    (1, "read hop word, slots: k isn't there", ("peek",), None),
    (0, "raise the key count from 2: it is 3", ("count_up",), None),
    (0, "raise it: 3 to 4", ("count_up",), "Update k .. Done"),
    (0, "write slot word and hop word", ("write_guarded",), None),
    (1, "load the stamp again: locked, the reading is void", ("see_stamp_again",), None),
    (0, "unlock: version 1", ("unlock_written",), None),
    (1, "wait for an unlocked stamp, lock it", ("look_at_stamp", "lock"), None),
    (1, "read hop word, slot, key: k is there", ("read_guarded",), None),
    (1, "unlock: version 1 still", ("unlock_lookup",), "Lookup k, its value"),
]
# From which step to which a CPU has the segment's lock.
LOCKS = [(0, 2, 9), (1, 10, 12)]

LANES, FIRST, HIGH = (276, 524), 76, 32


def check():
    """Ends with what is wrong where a step's function isn't there, or takes effect and isn't in the page's table."""
    code = "\n".join(file.read_text() for file in (TOP / "crates/hop_words/src").glob("*.rt"))
    page = (TOP / "docs/proofs/linearization.md").read_text()
    table = set(re.findall(r"`(\w+)`", "\n".join(line for line in page.splitlines() if line.startswith("| "))))
    for _, does, functions, event in STEPS:
        gone = [name for name in functions if f"pub fn {name}(" not in code]
        if gone or (event and not set(functions) <= table):
            sys.exit(f"{does}: {', '.join(gone or functions)} isn't a step of hop_words, or not of the page's table")


def main():
    check()
    foot = FIRST + len(STEPS) * HIGH
    shows = "; ".join(f"CPU {cpu}: {does}{f', which is the event {event}' if event else ''}" for cpu, does, _, event in STEPS)
    picture = Picture(860, foot + 54, "Two CPUs whose steps cross", shows)
    for lane, name, anchor, x in ((0, "CPU 0: update k", "end", -14), (1, "CPU 1: lookup k", "start", 14)):
        picture.text(LANES[lane] + x, 28, name, "", anchor, 15)
        picture.line(LANES[lane], 40, LANES[lane], foot + 6)
        picture.path(f"M{LANES[lane] - 4} {foot - 2}l4 8l4 -8", "line")
    for cpu, start, end in LOCKS:
        picture.box(LANES[cpu] - 5, FIRST + start * HIGH, 10, (end - start) * HIGH, "area")
    middle = sum(LANES) / 2
    picture.text(middle, 28, "history", "dim", "middle")
    picture.line(middle, 40, middle, foot + 6, stroke_dasharray="3 4")
    order = 0
    for at, (cpu, does, functions, event) in enumerate(STEPS):
        y = FIRST + at * HIGH
        side, anchor = (-14, "end") if cpu == 0 else (14, "start")
        picture.text(LANES[cpu] + side, y - 1, does, "marked" if event else "", anchor, 12)
        picture.code(LANES[cpu] + side, y + 12, ", ".join(functions), "dim", anchor, 10)
        if event:
            order += 1
            picture.put("circle", "mark", cx=LANES[cpu], cy=y, r=6)
            inner = middle - 62 if cpu == 0 else middle + 62
            picture.line(LANES[cpu] + (6 if cpu == 0 else -6), y, inner, y, "arrow")
            picture.box(middle - 62, y - 13, 124, 26, "area", rx="4")
            picture.text(middle, y + 4, f"{order}. {event}", "marked", "middle", 11)
        else:
            picture.put("circle", "box", cx=LANES[cpu], cy=y, r=3)
    picture.put("circle", "mark", cx=30, cy=foot + 36, r=6)
    picture.text(44, foot + 40, "the step at which the event takes effect", "dim", size=12)
    picture.box(330, foot + 26, 10, 20, "area")
    picture.text(348, foot + 40, "the CPU has the segment's lock", "dim", size=12)
    picture.text(570, foot + 40, "time goes down; one step after another", "dim", size=12)
    picture.print()


main()
