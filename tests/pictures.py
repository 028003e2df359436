#!/usr/bin/env python3
"""Draws the graph of crates from crates.txt, docs/crates.svg, and writes the table of crates of docs/architecture.md from it
and from the first sentence of each crate. What a crate stands on is what it names and reaches through no other one.

    tests/pictures.py          writes both
    tests/pictures.py check    writes nothing; says what isn't as it would be written; the last line counts
"""
import html
import os
import re
import sys

ROOT = os.path.dirname(os.path.dirname(os.path.abspath(__file__)))
PICTURE = "docs/crates.svg"
PAGE = "docs/architecture.md"
BEGIN, END = "<!-- crates: tests/pictures.py -->", "<!-- end of crates -->"
COLUMN, ROW, WIDTH, HEIGHT, MARGIN = 128, 62, 116, 30, 14


def read(path):
    with open(os.path.join(ROOT, path), encoding="utf-8") as file:
        return file.read()


def crates():
    """Each crate with all that its line names, in the file's order."""
    found = {}
    for line in read("crates.txt").split("\n"):
        line = line.split("#")[0].strip()
        if line:
            name, _, rest = line.partition(":")
            found[name.split()[0]] = rest.split()
    return found


def below(name, graph, known):
    """All crates that a crate reaches."""
    if name not in known:
        known[name] = set()
        for other in graph[name]:
            if other in graph:
                known[name] |= {other} | below(other, graph, known)
    return known[name]


def reduced(graph):
    """What each crate stands on and reaches through no other one; libraries of the kit, which none of these names."""
    known, straight, kit = {}, {}, {}
    for name, deps in graph.items():
        own = [dep for dep in deps if dep in graph]
        straight[name] = [dep for dep in own if not any(dep in below(other, graph, known) for other in own if other != dep)]
        lower = {lib for crate in below(name, graph, known) for lib in graph[crate] if lib not in graph}
        kit[name] = [dep for dep in deps if dep not in graph and dep not in lower]
    return straight, kit


def ranks(straight):
    """The layer of each crate: above all that it stands on, and near those that stand on it where these are as many."""
    known, users = {}, {name: [other for other in straight if name in straight[other]] for name in straight}

    def lowest(name):
        if name not in known:
            known[name] = 1 + max((lowest(dep) for dep in straight[name]), default=-1)
        return known[name]

    for name in straight:
        lowest(name)
    for name in sorted(straight, key=lambda name: -known[name]):
        if users[name] and len(users[name]) >= len(straight[name]):
            known[name] = min(known[user] for user in users[name]) - 1
    return known


def layers(straight):
    """Crates and the places where a line passes a layer, ordered so that few lines cross: layers of (name, None) and
    (from, to), and the pieces of lines between neighbouring layers."""
    known = ranks(straight)
    rows = [[] for _ in range(1 + max(known.values()))]
    pieces = []
    for name in straight:
        rows[known[name]].append((name, None))
    for name, deps in straight.items():
        for dep in deps:
            last = (name, None)
            for level in range(known[name] - 1, known[dep], -1):
                rows[level].append((name, dep))
                pieces.append((level + 1, last, (name, dep)))
                last = (name, dep)
            pieces.append((known[dep] + 1, last, (dep, None)))
    for sweep in range(24):
        upward = sweep % 2 == 0
        order = range(1, len(rows)) if upward else range(len(rows) - 2, -1, -1)
        for level in order:
            fixed = rows[level - 1] if upward else rows[level + 1]
            at = {item: place / max(1, len(fixed) - 1) for place, item in enumerate(fixed)}
            def middle(item):
                near = [low if upward else high for lev, high, low in pieces
                        if (lev == level and high == item if upward else lev == level + 1 and low == item)]
                places = [at[other] for other in near if other in at]
                own = rows[level].index(item) / max(1, len(rows[level]) - 1)
                return sum(places) / len(places) if places else own
            rows[level] = [item for _, item in sorted(((middle(item), item) for item in rows[level]), key=lambda pair: pair[0])]
    return rows, pieces


def spread(wanted, widths):
    """Places from left to right, each near the one that is wanted, none over its neighbour."""
    placed = []
    for want, width in zip(wanted, widths):
        placed.append([want, 1, width])
        while len(placed) > 1:
            (x, count, wide), (y, more, wider) = placed[-2], placed[-1]
            if x + wide / 2 <= y - wider / 2:
                break
            middle = (x * count + (y) * more) / (count + more)
            placed[-2:] = [[middle, count + more, wide + wider]]
    found, k = [], 0
    for x, count, wide in placed:
        left = x - wide / 2
        for width in widths[k : k + count]:
            found.append(left + width / 2)
            left += width
        k += count
    return found


def places(rows, pieces):
    """Where each item of each layer stands from left to right: near what it is tied to."""
    width = lambda item: COLUMN if item[1] is None else 22
    at = {}
    for level, row in enumerate(rows):
        x = -sum(map(width, row)) / 2
        for item in row:
            at[level, item] = x + width(item) / 2
            x += width(item)
    ties = {}
    for level, upper, lower in pieces:
        ties.setdefault((level, upper), []).append((level - 1, lower))
        ties.setdefault((level - 1, lower), []).append((level, upper))
    for sweep in range(60):
        for level in range(len(rows)) if sweep % 2 else reversed(range(len(rows))):
            row = rows[level]
            wanted = []
            for item in row:
                near = [at[other] for other in ties.get((level, item), [])]
                wanted.append(sum(near) / len(near) if near else at[level, item])
            for item, x in zip(row, spread(wanted, [width(item) for item in row])):
                at[level, item] = x
    left = min(x - width(key[1]) / 2 for key, x in at.items()) - MARGIN
    wide = max(x + width(key[1]) / 2 for key, x in at.items()) + MARGIN - left
    return {key: x - left for key, x in at.items()}, wide


def picture(graph):
    straight, kit = reduced(graph)
    rows, pieces = layers(straight)
    across, wide = places(rows, pieces)
    high = ROW * len(rows) + 2 * MARGIN
    at = {key: (x, high - MARGIN - ROW * key[0] - ROW / 2) for key, x in across.items()}
    out = [
        f'<svg xmlns="http://www.w3.org/2000/svg" viewBox="0 0 {wide:.0f} {high:.0f}" font-family="sans-serif" font-size="12">',
        "<title>Which crate stands on which</title>",
        f'<rect width="{wide:.0f}" height="{high:.0f}" fill="#fff"/>',
    ]
    for level, upper, lower in pieces:
        x, y = at[level, upper]
        u, v = at[level - 1, lower]
        y += HEIGHT / 2 if upper[1] is None else 0
        v -= HEIGHT / 2 if lower[1] is None else 0
        out.append(f'<path d="M{x:.0f} {y:.0f}C{x:.0f} {(y + v) / 2:.0f} {u:.0f} {(y + v) / 2:.0f} {u:.0f} {v:.0f}" fill="none" stroke="#999"/>')
    for level, row in enumerate(rows):
        for item in row:
            if item[1] is not None:
                continue
            name = item[0]
            x, y = at[level, item]
            is_program = os.path.exists(os.path.join(ROOT, "crates", name, "src/main.rt"))
            fill = "#dce9f7" if is_program else "#f4f4f0"
            title = f"stands on: {', '.join(straight[name] + kit[name]) or 'nothing'}"
            out.append(
                f'<g><title>{html.escape(title)}</title><rect x="{x - WIDTH / 2:.0f}" y="{y - HEIGHT / 2:.0f}" width="{WIDTH}" '
                f'height="{HEIGHT}" rx="4" fill="{fill}" stroke="#555"/>'
                f'<text x="{x:.0f}" y="{y + (4 if not kit[name] else -1):.0f}" text-anchor="middle">{name}</text>'
            )
            if kit[name]:
                small = min(8.5, 1.9 * WIDTH / len(", ".join(kit[name])))
                out.append(f'<text x="{x:.0f}" y="{y + 11:.0f}" text-anchor="middle" font-size="{small:.1f}" fill="#666">{", ".join(kit[name])}</text>')
            out.append("</g>")
    out.append("</svg>")
    return "\n".join(out) + "\n"


def sentence(name):
    """The first sentence of a crate's first page."""
    folder = f"crates/{name}/src"
    path = f"{folder}/main.rt" if os.path.exists(os.path.join(ROOT, folder, "main.rt")) else f"{folder}/lib.rt"
    lines = []
    for line in read(path).split("\n"):
        if not line.startswith("//!"):
            if lines:
                break
            continue
        if line.strip() == "//!":
            break
        lines.append(line[3:].strip())
    text = " ".join(lines)
    return re.split(r"(?<=[.])(?: |$)", text)[0].rstrip(".").replace("|", "\\|")


def table(graph):
    straight, _ = reduced(graph)
    lines = ["| Crate | Stands on | Is |", "|---|---|---|"]
    for name in graph:
        lines.append(f"| `{name}` | {', '.join(dep.removeprefix('org_') for dep in straight[name])} | {sentence(name)} |")
    return "\n".join(lines)


def main():
    graph = crates()
    drawn = picture(graph)
    old = read(PAGE)
    front, _, rest = old.partition(BEGIN)
    if not rest:
        print(f"pictures: {PAGE} has no line {BEGIN}")
        sys.exit(2)
    page = f"{front}{BEGIN}\n{table(graph)}\n{END}{rest.partition(END)[2]}"
    wanted = {PICTURE: drawn, PAGE: page}
    failed = 0
    for path, text in wanted.items():
        is_so = os.path.exists(os.path.join(ROOT, path)) and read(path) == text
        if sys.argv[1:] == ["check"]:
            if not is_so:
                print(f"pictures: {path} isn't that of crates.txt and the crates' first pages; tests/pictures.py writes it")
                failed += 1
        elif not is_so:
            with open(os.path.join(ROOT, path), "w", encoding="utf-8") as file:
                file.write(text)
    if sys.argv[1:] == ["check"]:
        print(f"pictures: {len(wanted) - failed} passed, {failed} failed")
        sys.exit(failed > 0)


if __name__ == "__main__":
    main()
