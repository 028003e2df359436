#!/usr/bin/env python3
"""Writes outlines of tasks by chance, the same each time: make.py FOLDER. Levels skip, headings are hidden, properties are `nil`."""
import os
import random
import sys

WORDS = ["", "", "TODO", "TODO", "TODO", "NEXT", "WAIT", "DONE", "DONE", "CANCELLED", "CANCELLED"]
TITLES = ["Write the offer", "Call Ann", "Plan", "NEXT year", "Budget", "Report", "Paint", "TODO list"]


def heading(chance, level):
    word = chance.choice(WORDS)
    hidden = chance.random()
    title = ("COMMENT " if hidden < 0.03 else "") + chance.choice(TITLES)
    tags = ":ARCHIVE:" if hidden > 0.97 else chance.choice(["", "", "", ":work:", ":project:", ":work:client:"])
    lines = [" ".join(part for part in ["*" * level, word, title, tags] if part)]
    if chance.random() < 0.2:
        lines.append(f"SCHEDULED: <2024-{chance.randint(1, 12):02}-{chance.randint(1, 28):02}>")
    drawer = []
    if chance.random() < 0.3:
        drawer.append(f":ORDERED: {chance.choice(['t', 't', 't', 'nil', 'yes'])}")
    if chance.random() < 0.05:
        drawer.append(f":NOBLOCKING: {chance.choice(['t', 'nil'])}")
    if drawer:
        lines += [":PROPERTIES:", *drawer, ":END:"]
    if chance.random() < 0.1:
        lines += ["#+begin_example", "- TODO no heading", "#+end_example"]
    return lines


def outline(chance, count):
    lines, level = ["#+TODO: TODO NEXT WAIT | DONE CANCELLED", "Some words in front."], 0
    for _heading in range(count):
        level = max(1, min(6, level + chance.choice([-2, -1, -1, 0, 0, 0, 1, 1, 2])))
        lines += heading(chance, level)
    return "\n".join(lines) + "\n"


def main():
    for number, count in enumerate([20, 120, 200], 1):
        chance = random.Random(number)
        with open(os.path.join(sys.argv[1], f"made{number}.org"), "w", encoding="utf-8") as file:
            file.write(outline(chance, count))


main()
