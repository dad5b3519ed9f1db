"""Prints the picture of docs/reference/machine.md: where a program's memory lies, by the constants of the code."""

from drawing import Picture, constant

PACKET = constant("crates/bpf_mem/src/addresses.rt", "PACKET_BASE")
LONGEST_PACKET = constant("crates/bpf_mem/src/packet.rt", "MAX_PACKET")
CONTEXT = constant("crates/bpf_mem/src/addresses.rt", "CONTEXT_BASE")
STACK = constant("crates/bpf_mem/src/addresses.rt", "STACK_BASE")
STRIDE = constant("crates/bpf_mem/src/addresses.rt", "FRAME_STRIDE")
LONGEST = constant("crates/bpf_mem/src/context.rt", "MAX_CONTEXT")
FRAMES = constant("crates/bpf_mem/src/frames.rt", "MAX_FRAMES")
FRAME = constant("crates/bpf_mem/src/frames.rt", "FRAME_BYTES")
VALUES = constant("crates/bpf_shared/src/shapes.rt", "FIRST_VALUE")
AREA = constant("crates/bpf_shared/src/shapes.rt", "MAP_AREA")
MAPS = constant("crates/bpf_helpers/src/numbers.rt", "MAPS")
MOST_MAPS = 16

COLUMN, WIDE = 20, 96
DETAIL = 200


def address(value):
    """An address by fours of digits, as the code has it."""
    return f"0x{value >> 32:x}_{value >> 16 & 0xFFFF:04x}_{value & 0xFFFF:04x}"


def area(picture, y, height, name, middle, kind="area"):
    """An area of the column, and the lines that lead to its detail."""
    picture.box(COLUMN, y, WIDE, height, kind)
    picture.text(COLUMN + WIDE / 2, y + height / 2 + 4, name, anchor="middle")
    for end, to in ((y, middle - 26), (y + height, middle + 26)):
        picture.line(COLUMN + WIDE, end, DETAIL - 12, to, stroke_dasharray="2 3")


def main():
    shows = (
        f"The packet begins at {address(PACKET)}; map m as a number is {address(MAPS)} + m and no memory; the context begins at "
        f"{address(CONTEXT)}; frame f at {address(STACK)} + 0x{STRIDE:x} f; element i of map m at {address(VALUES)} + 0x{AREA:x} m "
        "+ i times the value's size."
    )
    picture = Picture(860, 522, "Where a program's memory lies", shows)
    picture.text(COLUMN, 20, "addresses", "dim")
    picture.text(COLUMN + WIDE / 2, 48, "0", "dim", "middle")
    picture.box(COLUMN, 30, WIDE, 474, "line", stroke_dasharray="4 4")
    area(picture, 66, 34, "packet", 83)
    area(picture, 136, 34, "numbers", 153, "line")
    area(picture, 206, 34, "context", 223)
    area(picture, 276, 34, "stack", 307)
    area(picture, 356, 100, "values", 406)
    for y in (120, 190, 260, 334, 482):
        picture.text(COLUMN + WIDE / 2, y, "nothing: F1", "dim", "middle", 11)

    picture.code(DETAIL, 62, address(PACKET))
    picture.box(DETAIL, 70, 260, 26, "area")
    picture.text(DETAIL + 130, 88, f"the packet, 0 to {LONGEST_PACKET:,} bytes", anchor="middle")
    picture.text(DETAIL + 274, 88, "data and data_end of the context lead there", "dim")

    picture.code(DETAIL, 146, address(MAPS) + " + m")
    picture.text(DETAIL, 165, "map m, as a number for helpers: no memory, so a load or store there is F1", "dim")

    picture.code(DETAIL, 202, address(CONTEXT))
    picture.box(DETAIL, 210, 260, 26, "area")
    picture.text(DETAIL + 130, 228, f"the context, 0 to {LONGEST:,} bytes", anchor="middle")
    picture.text(DETAIL + 274, 228, "R1 leads to its first byte", "dim")

    wide, gap = 66, 14
    for at in range(4):
        frame = (0, 1, None, FRAMES - 1)[at]
        x = DETAIL + at * (wide + gap) * 1.9
        if frame is None:
            picture.text(x + wide / 2 + 16, 310, "..", anchor="middle")
            continue
        picture.code(x, 284, address(STACK + frame * STRIDE))
        picture.box(x, 292, wide + 32, 26, "area")
        picture.text(x + wide / 2 + 16, 310, f"frame {frame}", anchor="middle")
    picture.path(f"M{DETAIL + wide + 32} 338V322", "arrow")
    picture.tip(DETAIL + wide + 32, 320, "up")
    picture.code(DETAIL + wide + 40, 342, f"{address(STACK + FRAME)}: R10 at the start of a job", "dim")

    picture.code(DETAIL, 370, address(VALUES))
    picture.code(DETAIL + 180, 370, address(VALUES + AREA))
    picture.code(DETAIL + 440, 370, address(VALUES + (MOST_MAPS - 1) * AREA))
    picture.box(DETAIL, 378, 170, 26, "area")
    picture.text(DETAIL + 85, 396, "map 0", anchor="middle")
    picture.box(DETAIL + 180, 378, 170, 26, "area")
    picture.text(DETAIL + 265, 396, "map 1", anchor="middle")
    picture.text(DETAIL + 395, 396, "..", anchor="middle")
    picture.box(DETAIL + 440, 378, 170, 26, "area")
    picture.text(DETAIL + 525, 396, f"map {MOST_MAPS - 1}", anchor="middle")
    picture.path(f"M{DETAIL} 404V426M{DETAIL + 170} 404L{DETAIL + 470} 426", stroke_dasharray="2 3")
    for at, name in enumerate(("element 0", "element 1", "element 2", "element 3")):
        held = at == 1
        picture.box(DETAIL + at * 104, 426, 104, 26, "area")
        if held:
            picture.box(DETAIL + at * 104 + 2, 428, 100, 22, "ring", stroke_width="2")
        picture.text(DETAIL + at * 104 + 52, 444, name, anchor="middle")
    picture.text(DETAIL + 440, 444, "..", anchor="middle")
    picture.path(f"M{DETAIL + 312} 458v7h104v-7")
    picture.text(DETAIL + 424, 469, "a value, rounded up to 8 bytes", "dim")
    picture.path(f"M{DETAIL + 156} 456V490H{DETAIL + 176}", "ring")
    picture.text(DETAIL + 182, 494, "held from a lookup until its job ends: no other may be reached", "dim")
    picture.print()


main()
