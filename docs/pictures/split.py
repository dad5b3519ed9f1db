"""Prints a picture of docs/proofs/segments.md: a split, as the test `a_split_parts_odd_from_even` of
crates/hop_seg/src/tests.rt has it. What comes of it is compared with what the test asserts."""

import re
import sys

from drawing import TOP, Picture, constant

NEAR = constant("crates/hop_seg/src/places.rt", "NEIGHBOURHOOD")
LEFT, CELL = 92, 23.5


def test():
    """The test's elements and depth, and what it asserts: hop words and lengths of lists, of parent and child."""
    text = (TOP / "crates/hop_seg/src/tests.rt").read_text()
    body = re.search(r"fn a_split_parts_odd_from_even\(.*?\n}\n", text, re.S)[0]
    count, depth = re.search(r"put_all\(&rt, &mut words, (\d+)\)", body)[1], re.search(r"split\(&mut words, (\d+)\)", body)[1]
    wanted = []
    for part in ("front", "child"):
        wanted.append(int(re.search(rf"words\.{part}\.hop\[0\], (\w+)\)", body)[1].replace("_", ""), 0))
        wanted.append(int(re.search(rf"listed\(&words, words\.{part}\.head\), (\d+)\)", body)[1]))
    return int(count), int(depth), wanted


def hop(places):
    return sum(1 << at for at, item in enumerate(places) if item is not None)


def row(picture, y, name, places, listed, leaves):
    """A segment's first places, and its overflow list by its ends."""
    picture.text(20, y + 17, name)
    for at, item in enumerate(places):
        picture.box(LEFT + at * CELL, y, CELL, 24, "line" if item is None else "area")
        if item is not None:
            picture.text(LEFT + (at + 0.5) * CELL, y + 16, str(item), "marked" if leaves(item) else "", "middle", 11)
    picture.code(LEFT, y + 42, f"hop 0 = 0x{hop(places):08x}", "dim", size=11)
    words = f"overflow list: {listed[0]}, {listed[1]}, .., {listed[-1]}: {len(listed)} items"
    picture.text(LEFT + len(places) * CELL, y + 42, words, "dim", "end", 12)


def main():
    count, depth, wanted = test()

    def leaves(item):
        return item % 2 >> depth & 1 == 1

    before = [item if item < count else None for item in range(NEAR)]
    listed = [*range(count - 1, NEAR - 1, -1)]
    parent = [None if item is None or leaves(item) else item for item in before]
    child = [item if item is not None and leaves(item) else None for item in before]
    stays, goes = [item for item in listed if not leaves(item)], [item for item in listed if leaves(item)][::-1]
    made = [hop(parent), len(stays), hop(child), len(goes)]
    if made != wanted:
        sys.exit(f"the test a_split_parts_odd_from_even has {wanted}, and not {made}")

    shows = f"Of {count} items those whose homes have bit {depth} go over to the child, at the places that they had."
    picture = Picture(880, 262, "A segment splits", shows)
    words = f"all keys have bucket 0, which has the places 0 to {NEAR - 1}, and homes with bit {depth} set where the number is odd"
    picture.text(20, 24, words, "dim")
    row(picture, 44, "before", before, listed, leaves)
    row(picture, 122, "parent", parent, stays, leaves)
    row(picture, 200, "child", child, goes, leaves)
    picture.print()


main()
