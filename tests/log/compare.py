#!/usr/bin/env python3
"""Compares the rows of Org's log mode with those of `orgq --csv log` over the same files and days, row by row in their order, and
field by field but for the priority's number and the order of tags. The last line counts.

    compare.py EMACS.csv ORGQ.csv
"""
import re
import sys

FIELDS = ["category", "title", "kind", "keyword", "tags", "date", "time", "label", "priority", "number", "day"]


def times_of(text):
    """Times as `orgq` writes them: two digits of hours, and no dots behind."""
    return "-".join(re.sub(r"^(\d):", r"0\1:", time) for time in text.rstrip(".").split("-"))


def rows(path):
    """The rows of a file of fields."""
    found = []
    with open(path, encoding="utf-8") as file:
        for line in file.read().splitlines():
            if line:
                row = dict(zip(FIELDS, line.split(",")))
                row["time"] = times_of(row["time"])
                row["tags"] = sorted(row["tags"].split(":"))
                row.pop("number")
                found.append(row)
    return found


def main(emacs, orgq):
    theirs, ours = rows(emacs), rows(orgq)
    failed = abs(len(theirs) - len(ours))
    if failed:
        print(f"log: Emacs has {len(theirs)} rows, orgq {len(ours)}")
    for their, our in zip(theirs, ours):
        if their != our:
            failed += 1
            if failed < 20:
                print(f"log: Emacs {their}\n     orgq  {our}")
    for kind in ("closed", "clock", "state"):
        if not any(row["kind"] == kind for row in theirs):
            print(f"log: Emacs has no row of kind {kind}")
            failed += 1
    passed = sum(their == our for their, our in zip(theirs, ours))
    print(f"log: {passed} passed, {failed} failed")
    return 1 if failed or not theirs else 0


sys.exit(main(*sys.argv[1:]))
