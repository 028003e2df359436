#!/usr/bin/env python3
"""Writes the table of kinds of *What will not show* in docs/org.md from the table of findings in crates/org_check: which kinds
there are and in what order, how severe each is, whether it is looked for always, and whether all there is of its look is found.
Examples stand in the page alone, and stay.

    tests/findings.py          writes it
    tests/findings.py check    writes nothing; says where the page isn't as it would be written; the last line counts kinds
"""
import os
import re
import sys

ROOT = os.path.dirname(os.path.dirname(os.path.abspath(__file__)))
PAGE = "docs/org.md"
KINDS = "crates/org_check/src/kind.rt"
ENTRIES = [KINDS, "crates/org_check/src/unread_kinds.rt", "crates/org_check/src/beside_kinds.rt"]
BEGIN, END = "<!-- kinds: tests/findings.py -->", "<!-- end of kinds -->"
HEAD = ["| Kind | Severity | Looked for | Found | Example |", "|---|---|---|---|---|"]


def read(path):
    with open(os.path.join(ROOT, path), encoding="utf-8") as file:
        return file.read()


def entries():
    """What is said of each name: its severity, and whether it is looked for only if asked for."""
    found = {}
    for path in ENTRIES:
        for part in re.split(r"\bEntry::(?=(?:error|warning|note)\()", read(path))[1:]:
            severity, name = re.match(r'(\w+)\(\s*"([a-z-]+)"', part).groups()
            if name in found:
                sys.exit(f"findings: {path} has {name} for the second time")
            found[name] = severity, ".rare()" in part
    return found


def kinds():
    """Each kind in the order of the table: its name, and whether it explains a mark, of which all are found."""
    text = read(KINDS)
    marks = {kind: look == "Some" for kind, look in re.findall(r"Kind::(\w+)(?:\(_\))? => (Some|None)\b", text)}
    table = re.search(r"ALL_KINDS: \[Kind; \d+\] = \[(.*?)\];", text, re.S)[1]
    found = re.findall(r"Kind::(\w+)(?:\(\w+::(\w+)\))?,", table)
    return [(re.sub(r"(?<!^)(?=[A-Z])", "-", inner or outer).lower(), marks[outer]) for outer, inner in found]


def rows(page):
    """The rows of the page by the names of their kinds."""
    part = page.partition(BEGIN)[2].partition(END)[0]
    return {row[1]: row[0] for row in re.finditer(r"(?m)^\| `([a-z-]+)` \|.*$", part)}


def example(row):
    """What stands in the last cell of a row."""
    return row.split(" | ", 4)[4].removesuffix(" |") if row else ""


def main():
    page, said, there = read(PAGE), entries(), kinds()
    lacking = sorted({name for name, _ in there} ^ said.keys())
    if lacking or not there:
        sys.exit(f"findings: ALL_KINDS and what is said of kinds differ by {', '.join(lacking)}")
    old, made = rows(page), {}
    for name, is_whole in there:
        severity, is_rare = said[name]
        looked_for = "if asked for" if is_rare else "always"
        made[name] = f"| `{name}` | {severity} | {looked_for} | {'all' if is_whole else '-'} | {example(old.get(name))} |"
    before, _, rest = page.partition(BEGIN)
    after = rest.partition(END)[2]
    whole = "\n".join([before + BEGIN, *HEAD, *made.values(), END + after])
    if sys.argv[1:] != ["check"]:
        with open(os.path.join(ROOT, PAGE), "w", encoding="utf-8") as file:
            file.write(whole)
    failed = {name: "has no example" for name, row in made.items() if not example(row)}
    if sys.argv[1:] == ["check"]:
        failed |= {name: "isn't written as the table of findings has it" for name in made if old.get(name) != made[name]}
        failed |= {name: "is no kind" for name in old.keys() - made.keys()}
        if not failed and whole != page:
            failed["the table"] = "has another order or other lines"
    for name, why in failed.items():
        print(f"{PAGE}: {name} {why}")
    print(f"findings: {len(made.keys() - failed.keys())} passed, {len(failed)} failed")
    sys.exit(len(failed) > 0)


if __name__ == "__main__":
    main()
