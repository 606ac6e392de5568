#!/usr/bin/env bash
# Drawings and sketches beside what Graphviz finds in them: the nodes, and the edges with their direction, of `dot -Tplain` (tests/graphviz.py).
# `tests/graphviz.sh has` ends with 0 where Graphviz and python3 are, or can be installed, and does no more.
# A line and exit status 1 for the first thing that is wrong.
set -euo pipefail
cd "$(dirname "$0")/.."
work=$(mktemp -d)
trap 'rm -rf "$work"' EXIT

has() {
    python3 --version && { dot -V || install_it; }
} >"$work/log" 2>&1

install_it() {
    [ "$(id -u)" -eq 0 ] && command -v apt-get && timeout 60 apt-get update && DEBIAN_FRONTEND=noninteractive timeout 240 apt-get install -y graphviz && dot -V
}

if [ "${1-}" = has ]; then
    has
    exit
fi
if ! has; then
    echo "tests: NOT RUN, no Graphviz or no python3 here: drawings and sketches as Graphviz reads them"
    exit
fi

# ---- the stored drawings

bin/draw examples/plot.txt | diff examples/plot.dot -
bin/sketch examples/plan.dot >"$work/plan.image"
bin/image check "$work/plan.image" | grep -qx 0
dot -Tsvg examples/plot.dot >"$work/plot.svg"
# another Graphviz draws the same graph with other numbers
titles() { # FILE
    grep -o '<title>[^<]*</title>' "$1"
}
titles docs/drawing.svg >"$work/stored"
titles "$work/plot.svg" | diff "$work/stored" -

# ---- many more; what they are proved of is built by now

python3 tests/graphviz.py "$work"
