"""Prints a picture of docs/proofs/segments.md: an insertion that moves two items, as the test `two_items_move` of
crates/hop_seg/src/tests.rt has it. What comes of it is compared with the test's line."""

import re
import sys

from drawing import TOP, Picture, constant

PLACES = constant("crates/hop_seg/src/places.rt", "PLACES")
NEAR = constant("crates/hop_seg/src/places.rt", "NEIGHBOURHOOD")
SHOWN = (0, 1, 2, None, 31, 32, 33, None, 62, 63)
LEFT, CELL, HIGH, FIRST = 176, 40, 74, 62


def test():
    """The test's elements, which stand at the places of their numbers, the new one, and the words that change."""
    text = (TOP / "crates/hop_seg/src/tests.rt").read_text()
    body = re.search(r"fn two_items_move\(.*?\n}\n", text, re.S)[0]
    found = re.search(r"\"\+(\d+) ([^\"]*)\";\s*follow\(&rt, filled\(&rt, (\d+)\)", body)
    return int(found[3]), int(found[1]), dict(word.split("=") for word in found[2].split())


def hops(slots, homes):
    """The hop words of these places."""
    words = [0] * PLACES
    for place, item in enumerate(slots):
        if item is not None:
            words[homes[item]] |= 1 << (place - homes[item]) % PLACES
    return words


def inserted(slots, homes, new):
    """The places of each step, with what it moved: item, from, to."""
    free = min((at for at in range(PLACES) if slots[at] is None), key=lambda at: (at - homes[new]) % PLACES)
    steps = [(list(slots), None)]
    while (free - homes[new]) % PLACES >= NEAR:
        for back in range(NEAR - 1, 0, -1):
            bucket = (free - back) % PLACES
            near = [(bucket + distance) % PLACES for distance in range(back)]
            items = [at for at in near if slots[at] is not None and homes[slots[at]] == bucket]
            if items:
                break
        place = min(items, key=lambda at: (at - bucket) % PLACES)
        slots[free], slots[place] = slots[place], None
        steps.append((list(slots), (slots[free], place, free)))
        free = place
    slots[free] = new
    steps.append((list(slots), (new, None, free)))
    return steps


def main():
    count, new, wanted = test()
    homes = {item: item for item in range(count)} | {new: 0}
    slots = [*range(count), *[None] * (PLACES - count)]
    before, before_hops = list(slots), hops(slots, homes)
    steps = inserted(slots, homes, new)
    changed = {f"s{at}": str(slots[at]) for at in range(PLACES) if slots[at] != before[at]}
    changed |= {f"h{at}": str(word) for at, word in enumerate(hops(slots, homes)) if word != before_hops[at]}
    if changed != wanted:
        sys.exit(f"the test two_items_move has {wanted}, and not {changed}")
    line = " ".join([f"+{new}", *(f"{word}={it}" for word, it in wanted.items())])
    if f"`{line}`" not in (TOP / "docs/proofs/segments.md").read_text():
        sys.exit(f"docs/proofs/segments.md doesn't have the test's line {line}")

    moves = "; ".join(f"{item} {'comes' if place is None else f'moves from {place}'} to {to}" for _, (item, place, to) in steps[1:])
    picture = Picture(880, FIRST + len(steps) * HIGH - 22, "Two items move", moves)
    x = {place: LEFT + at * CELL for at, place in enumerate(SHOWN)}
    picture.text(20, FIRST - 26, "place", "dim")
    for at, place in enumerate(SHOWN):
        picture.text(LEFT + at * CELL + CELL / 2, FIRST - 26, ".." if place is None else str(place), "dim", "middle", 12)
    for at, (places, move) in enumerate(steps):
        y = FIRST + at * HIGH
        name = "before" if move is None else f"{move[0]} {'comes to' if move[1] is None else 'moves to'} {move[2]}"
        picture.text(20, y + 18, name)
        for place, left in x.items():
            if place is None:
                continue
            item = places[place]
            picture.box(left, y, CELL, 26, "line" if item is None else "area")
            if item is not None:
                last = move is not None and place == move[2]
                picture.text(left + CELL / 2, y + 18, str(item), "marked" if last else "", "middle", 12)
        for middle in (at * CELL for at, place in enumerate(SHOWN) if place is None):
            picture.text(LEFT + middle + CELL / 2, y + 18, "..", "dim", "middle", 12)
        if move and move[1] is not None:
            a, b = x[move[1]] + CELL / 2, x[move[2]] + CELL / 2
            picture.path(f"M{a} {y - 2}C{a} {y - 30} {b} {y - 30} {b} {y - 4}", "arrow")
            picture.tip(b, y - 1, "down")
        if move and move[1] is None:
            b = x[move[2]] + CELL / 2
            picture.path(f"M{b} {y - 26}V{y - 4}", "arrow")
            picture.tip(b, y - 1, "down")
        if at + 1 < len(steps):
            free = steps[at + 1][1][2]
            picture.box(x[free] + 2, y + 2, CELL - 4, 22, "ring", stroke_width="2")
            far = (free - homes[new]) % PLACES
            near = "near" if far < NEAR else "too far"
            picture.text(LEFT + len(SHOWN) * CELL + 16, y + 18, f"free: {far} after bucket 0, {near}", "warm", size=12)
        else:
            picture.text(LEFT + len(SHOWN) * CELL + 16, y + 18, f"each less than {NEAR} after its bucket", "dim", size=12)
    picture.print()


main()
