#!/usr/bin/env python3
"""Draws a run of the bench: time goes down, a column for each station, a mark for each event, a line for each message.

    python3 docs/draw_plot.py examples/plot.txt examples/plot.out > docs/plot.svg

Takes a bench input and the bench's listing of it, without malformed lines. The listing has the rule of each event and how many messages it sent.
To whom, and which leader and clock a message carries, is worked out here; numbers sent, leaders and clocks are then held to the listing.
"""

import html
import sys
from collections import defaultdict, namedtuple

Event = namedtuple("Event", "number kind at other code rule sent")
Message = namedtuple("Message", "event sender leader clock")
Arrow = namedtuple("Arrow", "sender start receiver end how")

LEADERS = ["#1f5fa8", "#b03a2e", "#2e7d32", "#8e5ea2", "#b9770e", "#117a8b", "#6d4c41", "#c2185b"]
MARKS = {"U": "#eeeeee", "Q": "#ffffff", "I": "#ffffff", "R": "#dde6ee", "A": "#d4e9d0", "S": "#ffd59a", "P": "#ffecc7", "F": "#e3c8f0", "E": "#f6b8b0"}
NOTES = {
    "E": "{at} elects itself",
    "S": "{at} starts a search",
    "P": "{at} passes on the largest search",
    "F": "{at} reflects the search",
    "A": "{at} follows {leader}, told by {other}",
}
LEGEND = [
    "A circle is an event at its station, with the rule's letter (a refused one: its number). A line between stations is a message, from sending to",
    "receipt; broken: lost, ignored or still waiting. A station's own line has the colour of the collector that it follows, and is broad while that is itself.",
]
TIP = '<path d="M0,0 L8,4 L0,8 z" fill="#777777"/>'
TOP, HEIGHT, LEFT, COLUMN, NOTE = 104, 800, 44, 44, 196


def read(input_path, listing_path):
    """The number of stations, the events with what the listing says of each, and its lines of stations."""
    with open(input_path) as file:
        lines = file.read().split("\n")
    n = int(lines[0].split()[1])
    with open(listing_path) as file:
        listed = [line.split() for line in file.read().split("\n")[1:] if line]
    events = []
    for line, (number, code, rule, sent) in zip((line for line in lines[1:] if line), listed):
        kind, u, v = line.split()
        at, other = (int(v), int(u)) if kind == "M" else (int(u), int(v))
        events.append(Event(int(number), kind, at, other, int(code), rule, int(sent)))
    return n, events, [[int(word) for word in line] for line in listed[len(events) + 1 :]]


class Run:
    """The run again, as far as it is drawn: sets, leaders, clocks and what waits on each channel."""

    def __init__(self, n):
        self.linked = defaultdict(set)
        self.forming = defaultdict(set)
        self.leader = {k: k for k in range(1, n + 1)}
        self.clock = {k: 0 for k in range(1, n + 1)}
        self.waiting = defaultdict(list)
        self.arrows = []
        self.led = []  # (event, station, leader): the leader that a station has from this event on

    def lose(self, u, v, event, how):
        for message in self.waiting.pop((u, v), []):
            self.arrows.append(Arrow(u, message.event, v, event, how))

    def take(self, event):
        at, other, rule = event.at, event.other, event.rule
        stamp, heard = 0, None
        if event.kind == "U":
            self.forming[at].add(other)
        elif event.kind == "D":
            self.lose(at, other, event.number, "lost")
            self.linked[at].discard(other)
            self.forming[at].discard(other)
        else:
            heard = self.waiting[other, at].pop(0)
            self.arrows.append(Arrow(other, heard.event, at, event.number, "ignored" if rule == "I" else "heard"))
            stamp = heard.clock
            if rule != "I":
                self.forming[at].discard(other)
                self.linked[at].add(other)
        self.clock[at] = max(self.clock[at], stamp) + 1
        if rule == "E":
            self.lead(event, at)
        if rule == "A":
            self.lead(event, heard.leader)
        to = {"U": {other}, "R": {other}, "Q": set(), "I": set()}.get(rule, self.linked[at] | self.forming[at])
        if len(to) != event.sent:
            sys.exit(f"event {event.number}: the listing says {event.sent} sent, the sets say {len(to)}")
        for receiver in to:
            self.waiting[at, receiver].append(Message(event.number, at, self.leader[at], self.clock[at]))

    def lead(self, event, leader):
        self.leader[event.at] = leader
        self.led.append((event.number, event.at, leader))

    def end(self, events, stations):
        """What still waits at the end; leaders and clocks have to be those of the listing."""
        for u, v in list(self.waiting):
            self.lose(u, v, len(events) + 1, "waiting")
        if [[k, self.leader[k], self.clock[k]] for k in sorted(self.clock)] != stations:
            sys.exit("leaders and clocks are not those of the listing")


class Drawing:
    def __init__(self):
        self.lines = []

    def text(self, x, y, size, words, anchor="middle", colour="#222222"):
        self.lines.append(f'<text x="{x:.1f}" y="{y:.1f}" font-size="{size}" text-anchor="{anchor}" fill="{colour}">{html.escape(words)}</text>')

    def line(self, x1, y1, x2, y2, colour, width=1.0, more=""):
        self.lines.append(f'<line x1="{x1:.1f}" y1="{y1:.1f}" x2="{x2:.1f}" y2="{y2:.1f}" stroke="{colour}" stroke-width="{width}"{more}/>')

    def mark(self, x, y, radius, event, words):
        fill, stroke = (MARKS[event.rule], "#555555") if event.code == 0 else ("#ffffff", "#cccccc")
        self.lines.append(f'<circle cx="{x:.1f}" cy="{y:.1f}" r="{radius:.1f}" fill="{fill}" stroke="{stroke}"/>')
        self.text(x, y + radius * 0.42, round(radius * 1.2, 1), words)

    def write(self, width, height, legend):
        """The whole figure to standard output, with the legend at its foot."""
        for k, words in enumerate(legend):
            self.text(20, height - 30 + 16 * k, 11, words, "start", "#555555")
        print(f'<svg xmlns="http://www.w3.org/2000/svg" viewBox="0 0 {width} {height}" width="{width}" height="{height}" font-family="sans-serif">')
        print(f'<defs><marker id="tip" viewBox="0 0 8 8" refX="8" refY="4" markerWidth="6" markerHeight="6" orient="auto">{TIP}</marker></defs>')
        print('<rect width="100%" height="100%" fill="white"/>')
        print("\n".join(self.lines))
        print("</svg>")


def colour_of(leader):
    return LEADERS[(leader - 1) % len(LEADERS)]


class Panel:
    """The events first to last, in one column of the figure."""

    def __init__(self, run, n, first, last, left):
        self.run, self.n, self.first, self.last, self.left = run, n, first, last, left
        self.row = min(HEIGHT / (last - first + 1), 34)
        self.radius = min(self.row * 0.48, 11)

    def x(self, station):
        return self.left + LEFT + (station - 0.5) * COLUMN

    def y(self, number):
        return TOP + (min(max(number, self.first - 0.6), self.last + 0.6) - self.first + 0.5) * self.row

    def draw(self, drawing, events, heading):
        right = self.left + LEFT + self.n * COLUMN
        drawing.text(self.left + LEFT, TOP - 44, 13, heading, "start")
        for station in range(1, self.n + 1):
            drawing.text(self.x(station), TOP - 14, 13, str(station))
            self.column(drawing, station)
        for arrow in self.run.arrows:
            self.message(drawing, arrow)
        for event in events:
            if self.first <= event.number <= self.last:
                y = self.y(event.number)
                drawing.text(self.left + LEFT - 12, y + 3, min(self.row * 0.75, 11), str(event.number), "end", "#777777")
                drawing.mark(self.x(event.at), y, self.radius, event, event.rule if event.code == 0 else str(event.code))
                if event.code == 0 and event.rule in NOTES:
                    leader = next(led for number, _, led in reversed(self.run.led) if number <= event.number) if event.rule in "AE" else 0
                    words = NOTES[event.rule].format(at=event.at, other=event.other, leader=leader)
                    words = f"{event.at} has lost {event.other}: {words}" if event.kind == "D" else words
                    drawing.text(right + 12, y + 3.5, min(self.row * 0.8, 12), words, "start")
        for station in range(1, self.n + 1):
            leader = self.leader_after(station, self.last)
            drawing.text(self.x(station), TOP + HEIGHT + 32, 12, str(leader), colour=colour_of(leader))
        drawing.text(right + 12, TOP + HEIGHT + 32, 12, "leader of each station here", "start", "#777777")

    def leader_after(self, station, number):
        return next((leader for event, at, leader in reversed(self.run.led) if at == station and event <= number), station)

    def column(self, drawing, station):
        """The station's line, in the colour of the leader that it follows; broad where it leads itself."""
        turns = [event for event, at, _ in self.run.led if at == station and self.first <= event <= self.last]
        ends = [self.first - 0.6, *turns, self.last + 0.6]
        for start, end in zip(ends, ends[1:]):
            leader = self.leader_after(station, start)
            drawing.line(self.x(station), self.y(start), self.x(station), self.y(end), colour_of(leader), 6 if leader == station else 2)

    def message(self, drawing, arrow):
        if arrow.end < self.first or arrow.start > self.last:
            return
        x1, y1, x2, y2 = self.x(arrow.sender), self.y(arrow.start), self.x(arrow.receiver), self.y(arrow.end)
        length = ((x2 - x1) ** 2 + (y2 - y1) ** 2) ** 0.5
        dx, dy = (x2 - x1) / length * self.radius, (y2 - y1) / length * self.radius
        if arrow.how == "heard":
            drawing.line(x1 + dx, y1 + dy, x2 - dx, y2 - dy, "#777777", 1, ' marker-end="url(#tip)"')
        else:
            drawing.line(x1 + dx, y1 + dy, (x1 + x2) / 2, (y1 + y2) / 2, "#bbbbbb", 1, ' stroke-dasharray="3 3"')


def main():
    n, events, stations = read(*sys.argv[1:3])
    run = Run(n)
    for event in events:
        if event.code == 0:
            run.take(event)
    run.end(events, stations)

    downs = [event.number for event in events if event.kind == "D" and event.code == 0 and event.number > 1]
    starts = [1, downs[0]] if downs else [1]
    panel_width = LEFT + n * COLUMN + NOTE
    width, height = max(panel_width * len(starts) + 20, 840), TOP + HEIGHT + 92
    drawing = Drawing()
    for start, end in zip(starts, [start - 1 for start in starts[1:]] + [len(events)]):
        heading = f"events {start} to {end}" + (": from the first lost link on" if downs and start == downs[0] else "")
        Panel(run, n, start, end, starts.index(start) * panel_width).draw(drawing, events, heading)
    drawing.text(width / 2, 24, 14, f"{n} stations, {len(events)} events: the run of {sys.argv[1]}, time downward")
    drawing.write(width, height, LEGEND)


if __name__ == "__main__":
    main()
