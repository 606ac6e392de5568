#!/usr/bin/env python3
"""Drawings and sketches as Graphviz reads them: python3 tests/graphviz.py FOLDER, in the project, behind bin/draw, bin/sketch and bin/image.

What `dot -Tplain` finds in a text, nodes and edges with their direction, is held to what the plot has by another way, and so are the lines of a
drawing in their order, since Graphviz lists edges by its own:
- a sketch: its own lines;
- the drawing of an image: the links that target/bin/image_look shows of it;
- the drawing of a quiet plot whose links are a forest: the collectors that target/bin/bench lists. Each arrow leads one link nearer to them.
Plots of all n from 1 to 16, without links, with some, and with all.
"""
import random
import re
import subprocess
import sys

folder = sys.argv[1]
counts = {"sketches": 0, "images": 0, "elections": 0, "edges": 0}


def call(words, given=b""):
    done = subprocess.run(words, input=given, stdout=subprocess.PIPE, stderr=subprocess.PIPE)
    if done.returncode != 0:
        wrong(f"{' '.join(words)}: status {done.returncode}: {done.stderr.decode(errors='replace')}", given)
    return done.stdout


def wrong(what, text):
    with open(f"{folder}/wrong", "wb") as file:
        file.write(text)
    print(f"tests/graphviz.py: {what}\n{text[:2000].decode(errors='replace')}")
    sys.exit(1)


def graphviz(text):
    """Nodes as they come in the text; edges by their first node, then their second."""
    nodes, edges = [], []
    for line in call(["dot", "-Tplain"], text).decode().split("\n"):
        words = line.split()
        if words and words[0] == "node":
            nodes.append(words[1])
        elif words and words[0] == "edge":
            edges.append((words[1], words[2]))
    counts["edges"] += len(edges)
    return nodes, edges


def held(what, text, n, edges):
    """Graphviz finds the stations 1 to n, and these edges, in whatever order it lists them."""
    nodes = [str(k) for k in range(1, n + 1)]
    found = graphviz(text)
    if found[0] != nodes:
        wrong(f"{what}: nodes {found[0]}, not {nodes}", text)
    if sorted(found[1]) != sorted((str(a), str(b)) for a, b in edges):
        wrong(f"{what}: edges {found[1]}, not {edges}", text)


def held_drawing(what, text, n, arrows):
    held(what, text, n, arrows)
    lines = ["digraph plot {"] + [f"  {k};" for k in range(1, n + 1)] + [f"  {a} -> {b};" for a, b in arrows] + ["}", ""]
    if text.decode().split("\n") != lines:
        wrong(f"{what}: not these lines: {lines}", text)


# ---- the texts


def sketch(n, links):
    lines = [f"  {k};" for k in range(1, n + 1)] + [f"  {a} -- {b};" for a, b in links]
    return "\n".join(["graph plot {"] + lines + ["}", ""]).encode()


def bench(n, events):
    return "".join(f"{line}\n" for line in [f"N {n}"] + events).encode()


def ups(links):
    return [line for a, b in links for line in (f"U {a} {b}", f"U {b} {a}")]


def downs(links):
    return [line for a, b in links for line in (f"D {a} {b}", f"D {b} {a}")]


def deliveries(links, rounds):
    """Receipts on every channel in turn; those for which nothing waits change nothing."""
    return [line for a, b in links for line in (f"M {a} {b}", f"M {b} {a}")] * rounds


# ---- what must be


def of_sketch(n, links):
    """The sketch as Graphviz reads it, and its image: shown, drawn, and drawn of the same plot on the bench."""
    text = sketch(n, links)
    held("a sketch", text, n, links)
    counts["sketches"] += 1
    image = call(["target/bin/plot_draw", "sketch"], text)
    drawn = of_image(image)
    if call(["target/bin/plot_draw", "plot"], bench(n, ups(links))) != drawn:
        wrong("the bench's plot has another drawing", drawn)


def of_image(image):
    shown = call(["target/bin/image_look", "show"], image).decode()
    stations = re.match(r"stations (\d+) ", shown)
    if not stations:
        wrong("no image", shown.encode())
    arrows = sorted((int(a), int(b)) for a, b in re.findall(r"^link (\d+) to (\d+) by ", shown, re.M))
    drawn = call(["target/bin/plot_draw", "plot"], image)
    held_drawing("an image", drawn, int(stations[1]), arrows)
    counts["images"] += 1
    return drawn


def of_elections(n, links, events):
    """A quiet plot whose links are a forest: in each group the arrows lead to its one collector, by the listing."""
    listed = call(["target/bin/bench"], bench(n, events)).decode()
    leaders = dict(line.split()[:2] for line in listed[listed.index("station leader clock\n"):].split("\n")[1:-1])
    far = {k: 0 for k in range(1, n + 1) if leaders[str(k)] == str(k)}
    near = list(far)
    for k in near:
        for a, b in links + [(b, a) for a, b in links]:
            if a == k and b not in far:
                far[b] = far[k] + 1
                near.append(b)
                if leaders[str(a)] != leaders[str(b)]:
                    wrong("two leaders in a group", listed.encode())
    arrows = sorted((a, b) if far[a] > far[b] else (b, a) for a, b in links)
    drawn = call(["target/bin/plot_draw", "plot"], bench(n, events))
    held_drawing("a plot after elections", drawn, n, arrows)
    counts["elections"] += 1


def tree(n, chance):
    names = list(range(1, n + 1))
    chance.shuffle(names)
    links = [(names[k], names[chance.randrange(max(0, k - 3), k)]) for k in range(1, n)]
    return [link if chance.random() < 0.5 else link[::-1] for link in links]


def of_n(n, chance):
    pairs = [(a, b) for a in range(1, n + 1) for b in range(1, n + 1) if a < b]
    of_sketch(n, [])
    of_sketch(n, pairs)
    for _ in range(3):
        some = chance.sample(pairs, chance.randint(0, min(len(pairs), 2 * n)))
        of_sketch(n, [link if chance.random() < 0.5 else link[::-1] for link in some])
    links = tree(n, chance)
    events = ups(links) + deliveries(links, 3 * n + 3)
    of_elections(n, links, events)
    if links:
        lost = chance.choice(links)
        left = [link for link in links if link != lost]
        of_elections(n, left, events + downs([lost]) + deliveries(left, 4 * n + 4))


with open("examples/plan.dot", "rb") as plan:
    text = plan.read()
held("examples/plan.dot", text, 6, [(int(a), int(b)) for a, b in re.findall(rb"(\d+) -- (\d+);", text)])
with open("examples/plot.image", "rb") as image:
    of_image(image.read())
for n in range(1, 17):
    of_n(n, random.Random(n))
print("tests/graphviz.py: " + ", ".join(f"{count} {what}" for what, count in counts.items()))
