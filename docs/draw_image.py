#!/usr/bin/env python3
"""Draws the bits of a plot image (document 01, "The plot image"). The widths are read from the code: the one list of a height and a message in
crates/image/src/widths.rt, the others in crates/image/src/lib.rt.

    python3 docs/draw_image.py > docs/image.svg
"""

import re
from collections import namedtuple
from pathlib import Path

Field = namedtuple("Field", "name bits")

SOURCE = Path(__file__).resolve().parent.parent / "crates" / "image" / "src"
BITS = dict(re.findall(r"^pub const (\w+): \w+ = (\d+);$", (SOURCE / "lib.rt").read_text(), re.M))
LIST = re.search(r"\[((?:\w+, ){7}\w+)\]", (SOURCE / "widths.rt").read_text()).group(1)


def bits(name):
    return int(BITS[name])


HEADER = [Field("version, 1", bits("VERSION_WIDTH")), Field("header length, 32", bits("LENGTH_WIDTH")), Field("n", bits("COUNT_WIDTH"))]
HEADER.append(Field("spare, 0", bits("HEADER_LENGTH") - sum(field.bits for field in HEADER)))
SETS = [Field("clock", bits("CLOCK_WIDTH")), Field("N", bits("SET_WIDTH")), Field("F", bits("SET_WIDTH"))]
NUMBERS = ["search time", "originator", "bit", "depth", "election time", "leader", "station", "stamp"]
MESSAGE = [Field(name, bits("DEPTH_WIDTH") if w == "depth" else int(w)) for name, w in zip(NUMBERS, LIST.split(", "))]
HEIGHT = MESSAGE[:7]
COUNT, STAMP = bits("WAITING_WIDTH"), MESSAGE[7].bits
GREY, GREEN, BLUE, YELLOW, PINK = "#f3f3f3", "#e8f1e4", "#e3eef8", "#fdf2dc", "#f6e6ea"
LEFT, SPAN, WIDTH, HIGH = 30, 768, 828, 34

lines = []


def total(fields):
    return sum(field.bits for field in fields)


def text(x, y, words, size=12, anchor="middle", colour="#222222"):
    lines.append(f'<text x="{x:.1f}" y="{y:.1f}" font-size="{size}" text-anchor="{anchor}" fill="{colour}">{words}</text>')


def box(x, y, width, fill, words="", size=12):
    lines.append(f'<rect x="{x:.1f}" y="{y:.1f}" width="{width:.1f}" height="{HIGH}" fill="{fill}" stroke="#888888"/>')
    text(x + width / 2, y + 21.5, words, size)


def line(x1, y1, x2, y2):
    lines.append(f'<line x1="{x1:.1f}" y1="{y1:.1f}" x2="{x2:.1f}" y2="{y2:.1f}" stroke="#888888"/>')


def strip(y, fields, fill, heading, last=None):
    """Fields to scale, the width inside, the name above (higher where two would meet), the first bit of each below; the last in its own colour."""
    text(LEFT, y - 38, heading, 13, "start")
    scale, x, at, named, edges = SPAN / total(fields), LEFT, 0, 0, [(LEFT, 0)]
    for field in fields:
        width, wide = field.bits * scale, 6.4 * len(field.name)
        middle = x + width / 2
        box(x, y, width, last if last and field is fields[-1] else fill, str(field.bits), 12 if width > 12 else 9)
        start = min(middle - wide / 2, x + width - 2 - wide)
        if start < named:
            line(middle, y, middle, y - 18)
            text(middle, y - 21, field.name, 11)
        else:
            text(start + wide / 2, y - 8, field.name, 11)
            named = start + wide
        x, at = x + width, at + field.bits
        edges.append((x, at))
    for i, (x, at) in enumerate(edges):
        left = i > 0 and x - edges[i - 1][0] < 16
        right = i + 1 < len(edges) and edges[i + 1][0] - x < 16
        text(x + 2 * right - 2 * left, y + HIGH + 14, str(at), 10, "end" if right else "start" if left else "middle", "#777777")


def row(y, heading, parts):
    """Parts that are not to scale: (width, fill, words)."""
    text(LEFT, y - 12, heading, 13, "start")
    x, edges = LEFT, []
    for width, fill, words in parts:
        box(x, y, width, fill, words)
        edges.append((x, x + width))
        x += width
    return edges


def main():
    station = f"{total(SETS)} + {total(HEIGHT)} n"
    message = total(MESSAGE)
    image = row(70, "The image: the highest bit first, no gaps (not to scale)", [
        (90, GREY, "header"), (120, GREEN, "station 1"), (70, GREEN, ".."), (120, GREEN, "station n"),
        (130, BLUE, "channel 1 to 2"), (70, BLUE, ".."), (128, BLUE, "channel n to n − 1"), (40, GREY, "pad"),
    ])
    text(LEFT, 122, f"Station k starts at bit {total(HEADER)} + (k − 1)({station}). Channels by sender, then receiver, none to itself. "
         "Pad: zeros to a whole byte.", 11, "start", "#555555")

    strip(192, HEADER, GREY, f"Header, {total(HEADER)} bits")

    sets = row(280, f"Station, {station} bits: what it holds", [
        (110, GREEN, f"clock {SETS[0].bits}"), (80, GREEN, f"N {SETS[1].bits}"), (80, GREEN, f"F {SETS[2].bits}"),
        (170, YELLOW, f"height for 1, {total(HEIGHT)}"), (158, YELLOW, ".."), (170, YELLOW, f"height for n, {total(HEIGHT)}"),
    ])
    text(LEFT, 332, "Its own height at its own number; a view of each member of N; zeros for the others. "
         "In a set, station k is bit k − 1, the lowest being bit 0.", 11, "start", "#555555")

    channel = row(372, f"Channel, {COUNT} + {message} times count bits", [
        (80, BLUE, f"count {COUNT}"), (190, YELLOW, f"height of the sender, {total(HEIGHT)}"), (90, PINK, f"stamp {STAMP}"), (128, BLUE, ".."),
        (190, YELLOW, f"height of the sender, {total(HEIGHT)}"), (90, PINK, f"stamp {STAMP}"),
    ])
    text(LEFT, 424, f"Count 0 to 8, then that many messages of {message}, the oldest first. A down channel has count 0.", 11, "start", "#555555")

    strip(500, MESSAGE, YELLOW, f"Height, {total(HEIGHT)} bits; with its stamp a message, {message}; to scale, its fields end to end", PINK)
    text(LEFT, 570, "Depth in two's complement; the election time without its sign. In the code: tau, oid, r, delta, nlts, lid, id.", 11, "start", "#555555")

    assert (total(HEADER), total(SETS), total(HEIGHT), message) == (32, 64, 96, 128)
    assert image[-1][1] == sets[-1][1] == channel[-1][1] == LEFT + SPAN
    print(f'<svg xmlns="http://www.w3.org/2000/svg" viewBox="0 0 {WIDTH} 590" width="{WIDTH}" height="590" font-family="sans-serif">')
    print('<rect width="100%" height="100%" fill="white"/>')
    text(WIDTH / 2, 26, "The bits of a plot image, version 1", 14)
    print("\n".join(lines))
    print("</svg>")


if __name__ == "__main__":
    main()
