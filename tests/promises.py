#!/usr/bin/env python3
"""Writes the laws of the crates into docs/promises.md: for each law what stands above it in the source. So the page says of them
what the sources say.

    tests/promises.py          writes it
    tests/promises.py check    writes nothing; says whether the page isn't as it would be written; the last line counts
"""
import difflib
import glob
import os
import re
import sys

ROOT = os.path.dirname(os.path.dirname(os.path.abspath(__file__)))
PAGE = "docs/promises.md"
BEGIN, END = "<!-- laws: tests/promises.py -->", "<!-- end of laws -->"
LAW = re.compile(r"((?:^///.*\n)+)(?:^#\[.*\n)*^pub fn (\w+)\(\)", re.M)


def read(path):
    with open(os.path.join(ROOT, path), encoding="utf-8") as file:
        return file.read()


def plain(text):
    """Lines of a comment as one, for a cell of a table."""
    words = " ".join(line.strip().lstrip("/!").strip() for line in text.strip().split("\n"))
    return re.sub(r"\[(`[^`]+`)\]", r"\1", words).replace("|", r"\|").strip()


def laws_of(name):
    """The laws of a crate but the one that its worked examples hold, each with what stands above it."""
    found = [it for path in sorted(glob.glob(f"crates/{name}/src/**/laws*.rt", recursive=True)) for it in LAW.findall(read(path))]
    return [(law, plain(said)) for said, law in found if law != "examples_hold"]


def section():
    lines, without = [], []
    for name in re.findall(r"(?m)^([a-z0-9_]+)(?: [^:]*)?:", read("crates.txt")):
        if not os.path.exists(f"crates/{name}/src/lib.rt"):
            continue
        laws = laws_of(name)
        link = f"[`{name}`](../crates/{name}/src/lib.rt)"
        if not laws:
            without.append(link)
            continue
        lines += [f"### {link}", "", "| Law | Says |", "|---|---|"]
        lines += [f"| `{law}` | {said} |" for law, said in laws] + [""]
    return "\n".join([*lines, f"Without laws of their own: {', '.join(without)}."])


def main():
    os.chdir(ROOT)
    page = read(PAGE)
    before, _, rest = page.partition(BEGIN)
    _, _, behind = rest.partition(END)
    made = f"{before}{BEGIN}\n{section()}\n{END}{behind}"
    if sys.argv[1:] != ["check"]:
        with open(PAGE, "w", encoding="utf-8") as file:
            file.write(made)
        return
    if made != page:
        changes = list(difflib.unified_diff(page.split("\n"), made.split("\n"), lineterm="", n=0))[2:]
        print("\n".join([f"{PAGE} isn't as tests/promises.py writes it:", *changes[:10]]))
    print(f"promises: {int(made == page)} passed, {int(made != page)} failed")
    sys.exit(made != page)


if __name__ == "__main__":
    main()
