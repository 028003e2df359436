#!/usr/bin/env python3
"""Writes into docs/costs.md what a gate measured of each crate that it proved from nothing; other rows stay as they are.

    tests/costs.py [FILE]    writes it from FILE, or from contrib/out/spent, where `make test` leaves what it measured; without
                             either a new crate gets an empty row
    tests/costs.py check     writes nothing; says whether each crate of crates.txt has one row, and the ten dearest are those of
                             the rows; the last line counts

FILE has the lines of tests/spent.py, a check each; the gate's last lines, which say what was proved from nothing; and a line
`at COMMIT DAY`.
"""
import os
import re
import subprocess
import sys

ROOT = os.path.dirname(os.path.dirname(os.path.abspath(__file__)))
PAGE = "docs/costs.md"
MEASURED = "contrib/out/spent"
BEGIN, END = "<!-- costs: tests/costs.py -->", "<!-- end of costs -->"
KINDS = ["proofs", "edits", "tests", "builds"]
HEAD = ["| Crate | Proof | Edits | Tests | Builds | Most memory, GB | At | On |", "|---|---|---|---|---|---|---|---|"]
CHECK = re.compile(rf"(\w+) ({'|'.join(KINDS)}) ([0-9.]+) ([0-9]+)")
WHOLE = "kept: everything was proved from nothing"


def read(path):
    with open(os.path.join(ROOT, path), encoding="utf-8") as file:
        return file.read()


def crates():
    return re.findall(r"(?m)^([a-z_0-9]+)(?: [^:#]*)?:", read("crates.txt"))


def rows(page):
    """The rows of the page: of each crate its cells behind the name, as often as it stands there."""
    part = page.partition(BEGIN)[2].partition(END)[0]
    found = re.findall(r"(?m)^\| `([a-z_0-9]+)` \|(.*)\|$", part.partition(HEAD[0])[2])
    return [(name, [cell.strip() for cell in cells.split("|")]) for name, cells in found]


def proved(text, names):
    """The crates that a gate says it proved from nothing itself."""
    if re.search(rf"(?m)^{WHOLE}$", text):
        return set(names)
    told = re.search(r"(?m)^kept: .* made from nothing by this run: (.*)$", text)
    return {*told[1].split(", ")} & {*names} if told else set()


def measured(text, names):
    """Of each crate that the gate proved from nothing its new cells. A proof over kept work, if any, stands before that one."""
    stamp = re.search(r"(?m)^at ([0-9a-f]{8}) (\d{4}-\d\d-\d\d)$", text)
    if not stamp:
        sys.exit("costs: what was measured doesn't say at which commit and on which day")
    found = {}
    for name in proved(text, names):
        checks = [(kind, float(seconds), int(memory)) for it, kind, seconds, memory in CHECK.findall(text) if it == name]
        spent = {kind: [seconds for it, seconds, _ in checks if it == kind] for kind in KINDS}
        if spent["proofs"]:
            sums = [max(spent["proofs"]), *(sum(spent[kind]) for kind in KINDS[1:])]
            most = max(memory for *_, memory in checks) / 1000
            found[name] = [f"{it:.0f}" if it >= 0.5 else "" for it in sums] + [f"{most:.1f}", *stamp.groups()]
    return found


def seconds(cells):
    return sum(int(cell) for cell in cells[:4] if cell)


def section(cells_of, names):
    """The ten dearest crates, and the rows of all."""
    dearest = sorted((name for name in names if seconds(cells_of[name])), key=lambda name: -seconds(cells_of[name]))[:10]
    lines = ["## The ten dearest", "", "| Crate | All that a gate does with it |", "|---|---|"]
    lines += [f"| `{name}` | {seconds(cells_of[name])} |" for name in dearest]
    lines += ["", "## By crate", "", *HEAD]
    lines += [f"| `{name}` | {' | '.join(cells_of[name])} |" for name in names]
    return "\n".join(lines)


def made(page, fresh):
    """The page with these cells in the rows of their crates."""
    names = crates()
    cells_of = {name: [""] * 7 for name in names} | {name: cells for name, cells in rows(page) if name in names} | fresh
    before, _, rest = page.partition(BEGIN)
    return f"{before}{BEGIN}\n{section(cells_of, names)}\n{END}{rest.partition(END)[2]}"


def main():
    page, names = read(PAGE), crates()
    if sys.argv[1:] == ["check"]:
        named = [name for name, _ in rows(page)]
        said = [f"{name} of crates.txt hasn't one row" for name in names if named.count(name) != 1]
        said += [f"there is no crate {name}" for name in named if name not in names]
        if not said and made(page, {}) != page:
            said = ["it isn't as tests/costs.py writes it: order, cells or the ten dearest"]
        print("".join(f"{PAGE}: {it}\n" for it in said), end="")
        print(f"costs: {len(names) - len(said)} passed, {len(said)} failed")
        sys.exit(len(said) > 0)
    path, fresh = sys.argv[1] if sys.argv[1:] else os.path.join(ROOT, MEASURED), {}
    if os.path.exists(path):
        with open(path, encoding="utf-8") as file:
            fresh = measured(file.read(), names)
    elif sys.argv[1:]:
        sys.exit(f"costs: there is no file {path}")
    with open(os.path.join(ROOT, PAGE), "w", encoding="utf-8") as file:
        file.write(made(page, fresh))
    print(f"costs: {len(fresh)} rows are new")


if __name__ == "__main__":
    main()
