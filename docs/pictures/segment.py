"""Prints a picture of docs/proofs/segments.md: the places of a segment, and how hop bits lead to items."""

from drawing import Picture, constant

PLACES = constant("crates/hop_seg/src/places.rt", "PLACES")
NEAR = constant("crates/hop_seg/src/places.rt", "NEIGHBOURHOOD")

# The buckets whose hop words are shown, and how far after each its items lie; other places that have an item.
NEAR_ITEMS, ROUND_ITEMS = (5, (0, 3, 9, 26)), (50, (1, 13, 20))
OTHERS = (7, 11, 12, 19, 22, 30, 33, 38, 44, 45, 57, 60)
LISTED = (90, 33)

LEFT, CELL = 40, 12.5
TOP, SLOTS, FOOT = 78, 134, 190


def place_at(bucket, distance):
    return (bucket + distance) % PLACES


def x_of(place):
    return LEFT + place * CELL


def hop_row(picture, y, bucket, distances, kind, word):
    """A bucket's hop word above or below its neighbourhood, bit by place, with a line from each set bit to its item."""
    for distance in range(NEAR):
        assert NEAR < PLACES and max(distances) < NEAR
        at = place_at(bucket, distance)
        picture.box(x_of(at), y, CELL, 16, "line")
        if distance in distances:
            picture.box(x_of(at) + 2.5, y + 2.5, CELL - 5, 11, kind)
            down = y < SLOTS
            picture.line(x_of(at) + CELL / 2, y + 16 if down else y, x_of(at) + CELL / 2, SLOTS if down else SLOTS + 20, word)


def main():
    words = {bucket: sum(1 << distance for distance in distances) for bucket, distances in (NEAR_ITEMS, ROUND_ITEMS)}
    shows = "; ".join(
        f"hop {bucket} is 0x{words[bucket]:08x}, and leads to the places {', '.join(str(place_at(bucket, it)) for it in distances)}"
        for bucket, distances in (NEAR_ITEMS, ROUND_ITEMS)
    )
    picture = Picture(880, 318, "A segment with its hop bits", shows)
    (first, near), (second, far) = NEAR_ITEMS, ROUND_ITEMS
    taken = {place_at(first, it): "mark" for it in near} | {place_at(second, it): "warm-box" for it in far}
    assert len(taken) == len(near) + len(far) and not set(taken) & set(OTHERS)

    picture.code(LEFT, 40, f"hop {first} = 0x{words[first]:08x}", "marked")
    picture.text(LEFT + 170, 40, f"bit d is set where the place d after bucket {first} has an item whose home it is", "dim")
    picture.text(x_of(first) + CELL / 2, TOP - 6, "bit 0", "dim", "middle", 10)
    picture.text(x_of(first + NEAR - 1) + CELL / 2, TOP - 6, f"bit {NEAR - 1}", "dim", "middle", 10)
    hop_row(picture, TOP, first, near, "mark", "arrow")

    for place in range(PLACES):
        picture.box(x_of(place), SLOTS, CELL, 20, "area" if place in OTHERS or place in taken else "line")
        if place in taken:
            picture.box(x_of(place) + 2.5, SLOTS + 2.5, CELL - 5, 15, "mark" if taken[place] == "mark" else "warm-box")
    picture.text(LEFT - 8, SLOTS + 15, "slots", "", "end", 12)

    hop_row(picture, FOOT, second, far, "warm-box", "ring")
    for at in (0, PLACES - 1):
        picture.text(x_of(at) + CELL / 2, SLOTS - 4, str(at), "dim", "middle", 10)
    for bit in (0, NEAR - 1):
        picture.text(x_of(place_at(second, bit)) + CELL / 2, FOOT + 28, f"bit {bit}", "dim", "middle", 10)
    picture.code(LEFT, FOOT + 54, f"hop {second} = 0x{words[second]:08x}", "warm")
    words = f"a neighbourhood is {NEAR} places and goes round the ring: behind place {PLACES - 1} comes place 0"
    picture.text(LEFT + 170, FOOT + 54, words, "dim")

    y = FOOT + 84
    picture.text(LEFT - 8, y + 17, "head", "", "end", 12)
    for at, element in enumerate(LISTED):
        x = LEFT + at * 130
        picture.box(x, y, 92, 26, "area")
        picture.text(x + 46, y + 17, f"element {element}", anchor="middle", size=12)
        picture.path(f"M{x + 92} {y + 13}h30", "arrow")
        picture.tip(x + 122 + (8 if at + 1 < len(LISTED) else 0), y + 13, "right")
    picture.text(LEFT + 258, y + 17, "none", "dim", size=12)
    picture.text(LEFT + 310, y + 17, "the overflow list: items without a place in their neighbourhood", "dim", size=12)
    picture.print()


main()
