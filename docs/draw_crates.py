#!/usr/bin/env python3
"""The crates as a graph for graphviz: python3 docs/draw_crates.py | dot -Tsvg > docs/architecture.svg

Crates and layers are those of crates.txt. A line leads from a crate to one that it stands on; what that one stands on is not drawn again, nor are
the lines to `basics` and `refusal`, which almost every crate uses.
"""
import os

COLOURS = ["#f3f3f3", "#e8f1e4", "#e3eef8", "#fdf2dc", "#f6e6ea", "#ece8f5", "#f5f5ec"]
EVERYWHERE = {"basics", "refusal"}

os.chdir(os.path.join(os.path.dirname(os.path.abspath(__file__)), ".."))
layers, below = [], {}
with open("crates.txt", encoding="utf-8") as lines:
    for line in lines:
        if line.startswith("# ---- "):
            layers.append((line[7:].strip(), []))
        elif ":" in line and not line.startswith("#"):
            names, deps = line.split(":", 1)
            name = names.split()[0]
            layers[-1][1].append(name)
            below[name] = set(deps.split())


def through_another(name, dep):
    """Whether another crate of `name` stands on `dep`."""
    return any(dep in below[other] for other in below[name] if other in below)


print('digraph {\n  rankdir=BT; ranksep=0.3; nodesep=0.15; fontname="sans-serif"; fontsize=12;')
print('  node [shape=box, style="rounded,filled", fillcolor=white, fontname="sans-serif", fontsize=12, height=0.3, margin="0.1,0.02"];')
print('  edge [color="#888888", arrowsize=0.5];')
for i, (title, names) in enumerate(layers):
    print(f'  subgraph cluster_{i} {{ label="{title}"; style="rounded,filled"; color="#cccccc"; fillcolor="{COLOURS[i % len(COLOURS)]}"; {"; ".join(names)} }}')
for name in below:
    for dep in sorted(below[name] & set(below) - EVERYWHERE):
        if not through_another(name, dep):
            print(f"  {name} -> {dep};")
print("}")
