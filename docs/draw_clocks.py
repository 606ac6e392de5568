#!/usr/bin/env python3
"""Draws the clocks of a short run of the bench: time goes right, a line for each station, a circle with the clock for each event, an arrow for each message.

    python3 docs/draw_clocks.py examples/clocks.txt examples/clocks.out > docs/clocks.svg

Takes a bench input and the bench's listing of it, without malformed lines. Clocks are worked out (draw_plot.py), and at the end held to the listing.
"""

import sys

sys.dont_write_bytecode = True
from draw_plot import Drawing, Run, read

LEFT, TOP, STEP, ROW, RADIUS = 90, 70, 62, 84, 15
LEGEND = [
    "A circle is an event at its station, with the clock that it leaves; at the top its number, kind and rule. An arrow is a message, from sending to receipt:",
    "broken where it is ignored (I), with a cross where it is lost in a down (D), half where it still waits. Along every line and every arrow the clock grows.",
]


def follow(n, events, stations):
    """The run, and the clock after each event that was carried out."""
    run, clocks = Run(n), {}
    for event in events:
        if event.code == 0:
            run.take(event)
            clocks[event.number] = run.clock[event.at]
    run.end(events, stations)
    return run, clocks


def x(number):
    return LEFT + number * STEP


def y(station):
    return TOP + (station - 0.5) * ROW


def arrow_drawn(drawing, arrow):
    x1, y1, x2, y2 = x(arrow.start), y(arrow.sender), x(arrow.end), y(arrow.receiver)
    length = ((x2 - x1) ** 2 + (y2 - y1) ** 2) ** 0.5
    dx, dy = (x2 - x1) / length * RADIUS, (y2 - y1) / length * RADIUS
    if arrow.how in ("heard", "ignored"):
        dash = ' stroke-dasharray="6 4"' if arrow.how == "ignored" else ""
        drawing.line(x1 + dx, y1 + dy, x2 - dx, y2 - dy, "#555555", 1.4, dash + ' marker-end="url(#tip)"')
        return
    x3, y3 = x1 + (x2 - x1) * 0.5, y1 + (y2 - y1) * 0.5
    drawing.line(x1 + dx, y1 + dy, x3, y3, "#999999", 1.4, ' stroke-dasharray="6 4"')
    if arrow.how == "lost":
        drawing.text(x3, y3 + 5, 16, "×", colour="#b03a2e")


def event_drawn(drawing, event, clock):
    drawing.mark(x(event.number), y(event.at), RADIUS, event, str(clock) if event.code == 0 else "–")
    drawing.text(x(event.number), TOP - 24, 11, f"{event.number}: {event.kind} {event.rule if event.code == 0 else event.code}", colour="#777777")
    drawing.line(x(event.number), TOP - 18, x(event.number), y(event.at) - RADIUS, "#eeeeee")


def main():
    n, events, stations = read(*sys.argv[1:3])
    run, clocks = follow(n, events, stations)
    width, height = max(x(len(events) + 1) + 20, 860), TOP + n * ROW + 60
    drawing = Drawing()
    for station in range(1, n + 1):
        drawing.text(LEFT - 10, y(station) + 5, 13, f"station {station}", "end")
        drawing.line(LEFT, y(station), x(len(events) + 0.7), y(station), "#333333", 1.2)
    for event in events:
        event_drawn(drawing, event, clocks.get(event.number))
    for arrow in run.arrows:
        arrow_drawn(drawing, arrow)
    drawing.text(width / 2, 22, 14, f"the clocks of {sys.argv[1]}")
    drawing.write(width, height, LEGEND)


if __name__ == "__main__":
    main()
