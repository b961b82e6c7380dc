#!/usr/bin/env python3
"""Draws docs/architecture.svg from crates.txt: its layers, the crates in them, and which layer uses which.

docs/architecture.py           writes the picture
docs/architecture.py --check   fails where the picture is not that of crates.txt

A line `# layer: NAME: words` of crates.txt puts the crates below it into a layer, the lowest first; `# layer: NAME` goes on with one
that is there already. A crate may use crates of its own layer and of those below it, no others.
"""
import os
import re
import sys
from html import escape
from textwrap import wrap

ROOT = os.path.dirname(os.path.dirname(os.path.abspath(__file__)))
PICTURE = os.path.join(ROOT, "docs", "architecture.svg")
# The crate over std's files, streams, arguments and clock; what they do no contract says.
FOREIGN = {"system"}

# Where bands begin, chips begin and bands end; a letter of a chip, a chip's height, a row's; how far apart the arrows' lanes are.
LEFT, CHIPS, RIGHT = 20, 262, 820
LETTER, CHIP, ROW, LANE = 7.83, 26, 34, 26


def layers_of(text):
    """The layers from the lowest up: name, words, crates; and each crate's dependencies."""
    layers, deps, now = {}, {}, None
    for line in text.splitlines():
        if match := re.fullmatch(r"# layer: ([^:]+?)(?:: (.+))?", line.strip()):
            now, words = match.groups()
            if (now in layers) == bool(words):
                sys.exit(f"crates.txt: layer {now} needs its words where it is first named, and there alone")
            layers.setdefault(now, (words, []))
        elif match := re.match(r"(\w+)(?: staticlib)?:([^#]*)", line):
            if now is None:
                sys.exit(f"crates.txt: {match[1]} stands in no layer")
            deps[match[1]] = match[2].split()
            layers[now][1].append(match[1])
    return layers, deps


def uses_of(layers, deps):
    """Which layers each layer uses, without those that it reaches by another."""
    home = {crate: layer for layer, (_, crates) in layers.items() for crate in crates}
    order = list(layers)
    direct = {layer: set() for layer in order}
    for crate, below in deps.items():
        for dep in below:
            if dep in home and home[dep] != home[crate]:
                if order.index(home[dep]) > order.index(home[crate]):
                    sys.exit(f"crates.txt: {crate} of the layer {home[crate]} uses {dep} of {home[dep]}, which lies above it")
                direct[home[crate]].add(home[dep])
    reached = {}
    for layer in order:
        reached[layer] = set().union(*({below} | reached[below] for below in direct[layer]))
    return {layer: [below for below in order if below in direct[layer]
                    and not any(below in reached[other] for other in direct[layer])] for layer in order}


def placed(crates):
    """Chips in rows: crate, x, row, width; and how many rows."""
    x, row, chips = CHIPS, 0, []
    for crate in crates:
        width = LETTER * len(crate) + 20
        if x + width > RIGHT - 16:
            x, row = CHIPS, row + 1
        chips.append((crate, x, row, width))
        x += width + 10
    return chips, row + 1


def picture(layers, deps):
    uses = uses_of(layers, deps)
    bands, y = {}, 66
    for layer in reversed(list(layers)):
        words, crates = layers[layer]
        chips, rows = placed(crates)
        lines = wrap(words, 29)
        ends = len(uses[layer]) + sum(layer in below for below in uses.values())
        height = max(rows * ROW + 20, 38 + 16 * len(lines), 18 + 18 * ends)
        bands[layer] = (y, height, lines, chips, rows)
        y += height + 14
    drawn, lanes = arrows(uses, bands)
    width = max(RIGHT + LANE * (lanes + 1), 880)
    out = [
        f"<svg xmlns='http://www.w3.org/2000/svg' width='{width}' height='{y + 56}' viewBox='0 0 {width} {y + 56}'>",
        "<style>",
        "text{font:13px Helvetica,Arial,'Liberation Sans',sans-serif;fill:#333}",
        ".h{font-size:20px;font-weight:bold}.l{font-size:15px;font-weight:bold}",
        ".c{font:13px 'DejaVu Sans Mono',Menlo,Consolas,monospace;text-anchor:middle}",
        ".b{fill:#f3f3f3}.k{fill:#fff;stroke:#0072b2}.f{fill:#fff;stroke:#d55e00;stroke-dasharray:4 2}",
        ".u{fill:none;stroke:#666}.a{fill:#666}",
        "</style>",
        f"<rect width='{width}' height='{y + 56}' fill='#fff'/>",
        f"<text class='h' x='{LEFT}' y='38'>The crates of Sindhopul, by layers</text>",
    ]
    for layer, (top, height, lines, chips, rows) in bands.items():
        out.append(f"<rect class='b' x='{LEFT}' y='{top}' width='{RIGHT - LEFT}' height='{height}' rx='6'/>")
        out.append(f"<text class='l' x='{LEFT + 14}' y='{top + 24}'>{escape(layer)}</text>")
        for i, line in enumerate(lines):
            out.append(f"<text x='{LEFT + 14}' y='{top + 43 + 16 * i}'>{escape(line)}</text>")
        first = top + (height - rows * ROW + ROW - CHIP) / 2
        for crate, x, row, wide in chips:
            kind = "f" if FOREIGN & {crate, *deps[crate]} else "k"
            above = first + row * ROW
            title = "uses " + " ".join(deps[crate]) if deps[crate] else "uses no other crate"
            out.append(f"<g><title>{crate} {title}</title><rect class='{kind}' x='{x:.1f}' y='{above:.1f}' width='{wide:.1f}' height='{CHIP}' rx='4'/>"
                       f"<text class='c' x='{x + wide / 2:.1f}' y='{above + 17:.1f}'>{crate}</text></g>")
    out += drawn
    key = [
        (0, 0, "<path class='k' d='M0 -11h26v14h-26z'/>", "a crate"),
        (150, 0, "<path class='f' d='M0 -11h26v14h-26z'/>", "a crate that reads or writes files, arguments or messages"),
        (0, 22, f"<path class='u' d='M0 -4h20'/>{head(26, -4)}", "a layer uses another, and may use whatever that one reaches"),
    ]
    for x, below, sign, words in key:
        out.append(f"<g transform='translate({LEFT + x} {y + 14 + below})'>{sign}<text x='34'>{words}</text></g>")
    return "\n".join(out) + "\n</svg>\n"


def head(x, y, side=1):
    """An arrow's head at a place."""
    return f"<path class='a' d='M{x} {y:.1f}l{-8 * side} -4v8z'/>"


def arrows(uses, bands):
    """From each layer to those that it uses, in lanes on the right, the short ones inside; and how many lanes that takes."""
    place = list(bands)
    edges = sorted(((above, below) for above, belows in uses.items() for below in belows),
                   key=lambda edge: place.index(edge[1]) - place.index(edge[0]))
    # At a band those that come from above end over those that go down.
    ports = {layer: [] for layer in place}
    for edge in edges:
        ports[edge[0]].append(edge)
        ports[edge[1]].append(edge)
    for layer in place:
        ports[layer].sort(key=lambda edge: (edge[0] == layer, -place.index(edge[1]) if edge[0] == layer else -place.index(edge[0])))

    def port(layer, edge):
        top, height = bands[layer][:2]
        return top + height * (ports[layer].index(edge) + 1) / (len(ports[layer]) + 1)

    lanes, out = [], []
    for above, below in edges:
        start, end = port(above, (above, below)), port(below, (above, below))
        lane = next((i for i, taken in enumerate(lanes) if all(e < start - 4 or end + 4 < s for s, e in taken)), len(lanes))
        if lane == len(lanes):
            lanes.append([])
        lanes[lane].append((start, end))
        x = RIGHT + LANE * (lane + 1)
        out.append(f"<path class='u' d='M{RIGHT} {start:.1f}H{x}V{end:.1f}H{RIGHT + 6}'/>{head(RIGHT + 1, end, -1)}")
    return out, len(lanes)


with open(os.path.join(ROOT, "crates.txt"), encoding="utf-8") as file:
    drawn = picture(*layers_of(file.read()))
if sys.argv[1:] == ["--check"]:
    with open(PICTURE, encoding="utf-8") as file:
        if file.read() != drawn:
            sys.exit("docs/architecture.svg is not the picture of crates.txt: run docs/architecture.py")
elif sys.argv[1:]:
    sys.exit(__doc__)
else:
    with open(PICTURE, "w", encoding="utf-8") as file:
        file.write(drawn)
