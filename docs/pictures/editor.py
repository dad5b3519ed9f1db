"""Prints the picture of docs/guide/editor.md: a session over examples/lost-update.c, stop by stop. The stops are those of
editor.json, which `tests/dap` compares with what the adapter does, and `tests/dap --write` writes."""

import json
from pathlib import Path

from drawing import TOP, Picture

SOURCE = "examples/lost-update.c"
FIRST, LAST = 14, 23
HIGH, TOP_OF_CODE, COLUMN, WIDE = 22, 92, 510, 84


def main():
    stops = json.loads(Path(__file__).with_suffix(".json").read_text())
    code = (TOP / SOURCE).read_text().splitlines()[FIRST - 1 : LAST]
    foot = TOP_OF_CODE + len(code) * HIGH
    shows = "; ".join(
        f"{number}. {it['reason']}: " + ", ".join(f"CPU {cpu} at {line or 'its end'}" for cpu, line in enumerate(it["lines"]))
        for number, it in enumerate(stops, 1)
    )
    picture = Picture(COLUMN + WIDE * len(stops) + 16, foot + 60, "lost-update.c, stepped by line into its race and back", shows)
    picture.text(24, 28, SOURCE, "dim")
    picture.box(12, TOP_OF_CODE - 16, COLUMN - 24, foot - TOP_OF_CODE + 12)
    for at, line in enumerate(code):
        y = TOP_OF_CODE + at * HIGH
        picture.code(46, y, str(FIRST + at), "dim", "end", 11)
        text = line.lstrip()
        # Blanks at a text's begin aren't drawn.
        picture.code(58 + 6.6 * (len(line) - len(text)), y, text, size=11)
    for number, stop in enumerate(stops):
        draw(picture, COLUMN + number * WIDE, foot, number + 1, stop)
    picture.print()


def draw(picture, x, foot, number, stop):
    """A column: why the turns stopped there, the line of each CPU, and the value."""
    middle = x + WIDE / 2 - 6
    is_race = stop["reason"] == "data race"
    reason = "end" if stop["lines"] == [None, None] else stop["reason"]
    picture.text(middle, 28, f"{number}.", "dim", "middle")
    picture.text(middle, 48, reason, "warm" if is_race else "", "middle", 12)
    picture.text(middle, 64, "" if reason == "end" else f"CPU {stop['cpu']}", "dim", "middle", 11)
    picture.box(x, TOP_OF_CODE - 16, WIDE - 12, foot - TOP_OF_CODE + 12)
    for cpu, line in enumerate(stop["lines"]):
        if line is None:
            continue
        y = TOP_OF_CODE + (line - FIRST) * HIGH - 4
        place = middle + (-16 if cpu == 0 else 16)
        picture.put("circle", "warm-box" if is_race else "mark" if cpu == stop["cpu"] else "box", cx=place, cy=y, r=4)
        picture.text(place, y - 8, str(cpu), "dim", "middle", 10)
    picture.text(middle, foot + 20, "counter", "dim", "middle", 11)
    picture.code(middle, foot + 38, stop["counter"], "warm" if reason == "end" else "", "middle", 13)


main()
