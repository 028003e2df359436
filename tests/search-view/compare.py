#!/usr/bin/env python3
"""Compares which headings Org's own search view and `orgq search` find. What differs has to be of the kind that its query names,
which has its row in docs/using.md; a query without a kind has to find the same, and something in all of them together.

    compare.py EMACS.FOUND ORGQ QUERIES MANUAL FILE..
"""
import re
import subprocess
import sys

# Each kind, and words of its row of the manual.
KINDS = {
    "phrase": "Words without a sign are one phrase",
    "line": "A phrase goes on over the end of a line",
    "case": "Letter case doesn't count in patterns either",
    "fold": "Letter case is folded letter by letter",
}


def emacs_found(path):
    found = {}
    with open(path, encoding="utf-8") as file:
        for line in file:
            number, place = line.rstrip("\n").split("\t")
            found.setdefault(int(number), set()).add(place)
    return found


def orgq_found(orgq, words, files):
    """The headings by FILE:LINE. The first line that matches is set in further, by an entry's column."""
    called = [orgq, "--no-config", "-n"]
    for file in files:
        called += ["-f", file]
    said = subprocess.run(called + ["search"] + words, capture_output=True, text=True, check=False)
    if said.returncode not in (0, 1):
        return None, said.stderr
    rows = re.findall(r"^([^:\n]+:\d+):  \S", said.stdout, re.M)
    return set(rows), said.stderr


def words_of(text):
    """The words of a shell: a blank with a backslash in front is one of its word."""
    return [word.replace("\\ ", " ") for word in re.split(r"(?<!\\) ", text)]


def main():
    emacs, orgq, queries, manual, files = sys.argv[1], sys.argv[2], sys.argv[3], sys.argv[4], sys.argv[5:]
    with open(manual, encoding="utf-8") as file:
        pages = file.read()
    there = emacs_found(emacs)
    passed, failed, headings, seen = 0, 0, 0, set()

    def judge(holds, why):
        nonlocal passed, failed
        if holds:
            passed += 1
        else:
            failed += 1
            print(f"search-view: {why}")

    with open(queries, encoding="utf-8") as file:
        lines = file.read().splitlines()
    for number, line in enumerate(lines, 1):
        asked, words, kind = line.split("\t")
        here, said = orgq_found(orgq, words_of(words), files)
        if here is None:
            judge(False, f"{words}: {said}")
            continue
        theirs = there.get(number, set())
        headings += len(here)
        if kind == "":
            judge(here == theirs, f"{asked}: Emacs alone {sorted(theirs - here)}, orgq alone {sorted(here - theirs)}")
        else:
            seen.add(kind)
            judge(kind in KINDS and here != theirs, f"{asked}: a difference of the kind {kind} isn't seen")
    for kind, words in KINDS.items():
        judge(kind in seen, f"the kind {kind} isn't asked")
        judge(words in pages, f"docs/using.md has no row for the kind {kind}: {words}")
    judge(headings > 50, "hardly a heading is found")
    print(f"search-view: {len(lines)} searches, {headings} headings")
    print(f"search-view: {passed} passed, {failed} failed")
    sys.exit(1 if failed else 0)


main()
