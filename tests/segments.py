#!/usr/bin/env python3
"""Works out what calls on a segment leave, independently of the code: tests/segments.py

A segment has 64 buckets, each with a neighbourhood of 32 places in a ring of 64, and an overflow
list. This program keeps items, not words: which element lies at which place, and the list. It asks
each item for its key's home bucket, and reads the hop information off the places. So it shares no
step with the crate hop_seg beyond the order of places that both follow.

    tests/segments.py            prints crates/hop_seg/src/tests/table.rt, the table of a test
    tests/segments.py --check    compares that file with what would be printed

A line of the table is one call and the words that it changes, as in

    +100 h0=513 h9=2147483648 s9=100 s40=9

`+` inserts the element, `-` removes its key, `~` puts the key's other element in its place. Then
come hop words (h, by bucket), slots (s, by place), the list's head (o) and links (l, by element),
each with its new value: a number, or a dot for none.
"""

import random
import sys
from pathlib import Path

PLACES = 64
NEIGHBOURHOOD = 32
KEYS = 128
TABLE = Path(__file__).parent.parent / "crates/hop_seg/src/tests/table.rt"


class Segment:
    """Items at places, items on the list, and the links that are left behind in elements."""

    def __init__(self, buckets):
        self.buckets = buckets
        self.places = {}
        self.overflow = []
        self.links = {}

    def bucket(self, element):
        return self.buckets[element % KEYS]

    def distance(self, element, place):
        return (place - self.bucket(element)) % PLACES

    def words(self):
        words = {}
        for place, element in self.places.items():
            words["s", place] = element
            bucket = self.bucket(element)
            words["h", bucket] = words.get(("h", bucket), 0) | 1 << self.distance(element, place)
        if self.overflow:
            words["o", 0] = self.overflow[0]
        for element, following in self.links.items():
            words["l", element] = following
        return words

    def relink(self):
        """Only links of elements on the list are written: others keep what they held."""
        for element, following in zip(self.overflow, [*self.overflow[1:], None]):
            self.links[element] = following

    def movable(self, free):
        """The place of the item that moves to the free one."""
        for back in range(NEIGHBOURHOOD - 1, 0, -1):
            bucket = (free - back) % PLACES
            for forward in range(back):
                place = (bucket + forward) % PLACES
                if place in self.places and self.bucket(self.places[place]) == bucket:
                    return place
        return None

    def insert(self, element):
        bucket = self.bucket(element)
        ring = ((bucket + forward) % PLACES for forward in range(PLACES))
        free = next((place for place in ring if place not in self.places), None)
        before = dict(self.places)
        while free is not None and self.distance(element, free) >= NEIGHBOURHOOD:
            place = self.movable(free)
            if place is not None:
                self.places[free] = self.places.pop(place)
            free = place
        if free is None:
            self.places = before
            self.overflow.insert(0, element)
        else:
            self.places[free] = element
        self.relink()

    def place_of(self, element):
        return next((place for place, item in self.places.items() if item == element), None)

    def remove(self, element):
        place = self.place_of(element)
        if place is None:
            self.overflow.remove(element)
        else:
            del self.places[place]
        self.relink()

    def replace(self, element, other):
        place = self.place_of(element)
        if place is None:
            self.overflow[self.overflow.index(element)] = other
        else:
            self.places[place] = other
        self.relink()


def called(segment, sign, element):
    """The call's line."""
    before = segment.words()
    match sign:
        case "+":
            segment.insert(element)
        case "-":
            segment.remove(element)
        case "~":
            segment.replace(element, (element + KEYS) % (2 * KEYS))
    after = segment.words()
    changed = []
    for word in sorted(before.keys() | after.keys()):
        empty = 0 if word[0] == "h" else None
        was, now = before.get(word, empty), after.get(word, empty)
        if was != now:
            index = "" if word[0] == "o" else word[1]
            changed.append(f"{word[0]}{index}={'.' if now is None else now}")
    return " ".join([f"{sign}{element}", *changed])


def calls(random_source, buckets, low, high, count):
    """So many calls, after which the segment has about low elements, then about high, and so on."""
    segment = Segment(buckets)
    linked = set()
    growing = True
    made = 0
    while made < count:
        if len(linked) >= high:
            growing = False
        if len(linked) <= low:
            growing = True
        absent = [key for key in range(KEYS) if key not in {e % KEYS for e in linked}]
        if random_source.random() < (0.75 if growing else 0.2) and absent:
            element = random_source.choice(absent) + random_source.choice([0, KEYS])
            linked.add(element)
            sign = "+"
        elif linked:
            element = random_source.choice(sorted(linked))
            linked.remove(element)
            sign = random_source.choice("------~")
            if sign == "~":
                linked.add((element + KEYS) % (2 * KEYS))
        else:
            continue
        yield called(segment, sign, element)
        made += 1


def spread(key):
    """Items of all buckets."""
    return key * 37 % PLACES


def crowded(key):
    """Items of 24 buckets next to each other, over the ring's end."""
    return (52 + key * 5 % 24) % PLACES


def paired(key):
    """Items of two buckets: most overflow."""
    return key % 2 * 40


def table():
    lines = [
        "//! The table of calls and the words that they change. `tests/segments.py` worked it out, and",
        "//! says how to read it.",
    ]
    random_source = random.Random(64)
    for name, bucket_of, low, high, count in (
        ("SPREAD", spread, 50, 68, 1500),
        ("CROWDED", crowded, 20, 60, 1500),
        ("PAIRED", paired, 0, 100, 1000),
    ):
        lines.append("")
        lines.append(f'pub(super) const {name}: &str = "\\')
        buckets = [bucket_of(key) for key in range(KEYS)]
        lines.extend(calls(random_source, buckets, low, high, count))
        lines.append('";')
    return "\n".join(lines) + "\n"


def main():
    if sys.argv[1:] == ["--check"]:
        sys.exit(0 if TABLE.read_text() == table() else f"{TABLE} is another table")
    print(table(), end="")


main()
