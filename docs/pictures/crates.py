"""Prints the picture of docs/dev/architecture.md: the crates by level, by crates.txt. A crate stands a level above the
highest that it stands on; of its edges those are drawn that no other implies, past the boxes between."""

from functools import cache

from drawing import TOP, Picture

LINES = [line.split(":") for line in (TOP / "crates.txt").read_text().splitlines() if not line.startswith("#")]
NAMES = {name.split()[0]: names.split() for name, names in LINES}
BELOW = {name: [it for it in names if it in NAMES] for name, names in NAMES.items()}

WIDTH, HIGH, WIDE, TALL = 980, 70, 120, 24
FOOT = 44
# How far the middles of two that stand side by side lie apart: boxes, and lines that pass a level.
APART = {2: WIDE + 12, 1: WIDE / 2 + 14, 0: 14}


@cache
def level(name):
    return 1 + max((level(it) for it in BELOW[name]), default=-1)


@cache
def all_below(name):
    return frozenset(BELOW[name]).union(*(all_below(it) for it in BELOW[name]))


def edges(name):
    """Those that a crate stands on, and that none of the others stands on."""
    return [it for it in BELOW[name] if not any(it in all_below(other) for other in BELOW[name])]


def ways():
    """Of each edge its points from the crate down: a name for a box, a pair with the level for a line that passes one."""
    pairs = [(name, under) for name in BELOW for under in edges(name)]
    return [[name, *(((name, under), at) for at in range(level(name) - 1, level(under), -1)), under] for name, under in pairs]


def crossings(rows, pairs):
    """How many lines between neighbouring levels cross."""
    place = {it: at for row in rows for at, it in enumerate(row)}
    total = 0
    for between in pairs:
        ends = sorted((place[top], place[foot]) for top, foot in between)
        total += sum(one[1] > other[1] for at, one in enumerate(ends) for other in ends[at + 1 :])
    return total


def fitted(want, apart):
    """The places nearest to those wanted, in this order and so far apart."""
    offsets = [0]
    for gap in apart:
        offsets.append(offsets[-1] + gap)
    blocks = []
    for wanted, offset in zip(want, offsets):
        blocks.append([wanted - offset, 1])
        while len(blocks) > 1 and blocks[-2][0] > blocks[-1][0]:
            (a, n), (b, m) = blocks[-2:]
            blocks[-2:] = [[(a * n + b * m) / (n + m), n + m]]
    flat = [min(max(at, WIDE / 2 + 4), WIDTH - WIDE / 2 - 4 - offsets[-1]) for at, count in blocks for _ in range(count)]
    return [at + offset for at, offset in zip(flat, offsets)]


def laid_out(lines):
    """The rows, lowest first, each in an order in which few lines cross, and where each point's middle is."""
    top = max(map(level, BELOW))
    rows = [[name for name in BELOW if level(name) == at] for at in range(top + 1)]
    near, pairs = {name: [] for name in BELOW}, [set() for _ in range(top)]
    for line in lines:
        for one, under in zip(line, line[1:]):
            at = level(under) if isinstance(under, str) else under[1]
            if not isinstance(under, str):
                rows[at].append(under)
            near.setdefault(one, []).append(under)
            near.setdefault(under, []).append(one)
            pairs[at].add((one, under))
    best, fewest = [list(row) for row in rows], crossings(rows, pairs)
    for sweep in range(60):
        for row in rows if sweep % 2 else rows[::-1]:
            place = {it: at / len(other) for other in rows for at, it in enumerate(other)}
            own = {it: at for at, it in enumerate(row)}
            mean = {it: sum(place[other] for other in near[it]) / len(near[it]) if near[it] else place[it] for it in row}
            row.sort(key=lambda it: (mean[it], own[it]))
        if (count := crossings(rows, pairs)) < fewest:
            best, fewest = [list(row) for row in rows], count
    x = {it: WIDTH * (at + 1) / (len(row) + 1) for row in best for at, it in enumerate(row)}
    for sweep in range(200):
        for row in best if sweep % 2 else best[::-1]:
            want = [sum(x[other] for other in near[it]) / len(near[it]) if near[it] else x[it] for it in row]
            apart = [APART[isinstance(one, str) + isinstance(other, str)] for one, other in zip(row, row[1:])]
            x.update(zip(row, fitted(want, apart)))
    return best, x


def drawn(points):
    """A line through these points, which leads down through each."""
    path = f"M{points[0][0]:.0f} {points[0][1]:.0f}"
    for (x, y, behind), (to_x, to_y, _) in zip(points, points[1:]):
        start, bend = y + behind, (to_y - y - behind) / 2
        path += f"V{start:.0f}C{x:.0f} {start + bend:.0f} {to_x:.0f} {to_y - bend:.0f} {to_x:.0f} {to_y:.0f}"
    return path


def main():
    lines = ways()
    rows, x = laid_out(lines)
    # A level of many crates is wider than what was aimed at.
    left, right = min(0, min(x.values()) - WIDE / 2 - 4), max(x.values()) + WIDE / 2 + 4
    width = max(WIDTH, round(right - left))
    x = {it: at - left for it, at in x.items()}
    height = FOOT + (len(rows) - 1) * HIGH + TALL + 8
    named = [[it for it in row if isinstance(it, str)] for row in rows]
    shows = "; ".join(f"level {at}: {', '.join(row)}" for at, row in enumerate(named))
    picture = Picture(width, height, "The crates by level", shows)
    y = {it: height - FOOT - at * HIGH - TALL for at, row in enumerate(rows) for it in row}
    for one, *between, under in lines:
        points = [(x[one], y[one] + TALL, 0), *((x[it], y[it], TALL) for it in between), (x[under], y[under], 0)]
        picture.path(drawn(points))
    for name in (it for row in named for it in row):
        kind = "ring" if name.startswith("hop_") else "box"
        picture.box(round(x[name] - WIDE / 2), y[name], WIDE, TALL, "area", rx="4")
        picture.box(round(x[name] - WIDE / 2), y[name], WIDE, TALL, kind, rx="4")
        picture.code(round(x[name]), y[name] + 16, name, anchor="middle")
    words = "A line leads down to what a crate stands on, but where others lead there already."
    picture.text(8, height - 12, f"{words} Another colour: the concurrent store.", "dim", size=12)
    picture.print()


main()
