"""What `ebpf explore` finds as a table: a row an outcome, a column for how each job ended and for what is left."""

import re

from ebpf_dap.search import explore
from ebpf_dap.variables import numbers_in, signed_text

JOB = re.compile(r"job (\d+) cpu \d+ (.*)")
VARIABLE = re.compile(r"var (\w+)=(\d+)")
MAP = re.compile(r"map (\w+) ([0-9a-f]+)=([0-9a-f]+)")
ARRAY = re.compile(r"array (\w+) (\d+)(?: cpu (\d+))?=([0-9a-f]+)")


def cell_of(line):
    """Returns a line of an outcome as the name of its column and what is in it."""
    if found := JOB.fullmatch(line):
        number = found[2].removeprefix("r0=")
        return f"job {found[1]}", signed_text(int(number)) or number if number.isdigit() else found[2]
    if found := VARIABLE.fullmatch(line):
        return found[1], found[2]
    if found := MAP.fullmatch(line):
        return f"{found[1]}[{numbers_in(found[2])}]", numbers_in(found[3])
    if found := ARRAY.fullmatch(line):
        return f"{found[1]}[{found[2]}]" + (f" of CPU {found[3]}" if found[3] else ""), numbers_in(found[4])
    return None


def outcome_table(ebpf, file, is_patient):
    """Returns the cells, their head first, and what explore says beside the outcomes.

    A state that hangs has a row that says so, with the schedule that leads there."""
    rows, notes = [], []
    for line in explore(ebpf, file, *(["--patient"] if is_patient else [])):
        by = re.fullmatch(r"(by|hung by) ?(.*)", line)
        if by:
            number = str(1 + sum(it["outcome"] != "hung" for it in rows))
            rows.append({"outcome": number if by[1] == "by" else "hung", "by": by[2]})
        elif cell := cell_of(line):
            rows[-1][cell[0]] = cell[1]
        else:
            notes.append(line)
    names = dict.fromkeys(name for row in rows for name in row if name not in ("outcome", "by"))
    head = ["outcome", *names, "by"]
    return [head, *([row.get(name, "") for name in head] for row in rows)], notes
