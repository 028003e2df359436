#!/usr/bin/env python3
"""Makes files with heading lines, drawers and logs of all shapes, and what is done to parts of their headings: the same for the same seed.

    parts.py SEED COUNT FOLDER    FOLDER/files/pNNN.org, and behind FOLDER/acts: CASE, FILE, LINE, ACT and WORD, with tabs between
"""
import random
import sys

from logs import DRAWERS, LOGGING, SEQUENCES, STARTUP, log, planning
from make import TITLES

MORE_TITLES = ["", "", "x\ty", "COMMENT later", "COMMENT", "a [#B] in it", "ends with :word:", "漢字とかな", "e\u0301 combined", "a " * 40 + "long one", "link [[https://example.org][there]]"]
COOKIES = ["", "", "", "[#A] ", "[#C] ", "[#12] "]
TAGS = ["", "", "", " :a:b:", "\t:work:", "  :a:", "   :home:漢:", " :a:a:"]
WORDS = ["a", "b", "home", "work", "漢", "x_1", "@office"]
PRIORITIES = ["A", "B", "Z", "none", "none"]
NAMES = ["Effort", "effort", "ID", "Note", "A", "B", "CUSTOM_ID"]
VALUES = ["1:30", "abc", "two words", "with : colon", "x" * 90, ""]
NOTES = ["Because.", "It is so\\nand so", "See <2024-03-03 Sun>"]
BODY = ["Some text.", "- a list item", "  indented", "", "See <2024-03-03 Sun>.", "# a comment", ":NOTES:\ninside\n:END:"]


def aligned(line, tags):
    return line + " " * max(1, 77 - len(line) - len(tags.strip())) + tags.strip()


def heading(chance, level, words):
    line = "*" * level + " " + chance.choice(["", "", *(word + " " for word in words)]) + chance.choice(COOKIES) + chance.choice(TITLES + MORE_TITLES)
    tags = chance.choice(TAGS)
    if tags and chance.random() < 0.3:
        return aligned(line.rstrip(), tags)
    return (line.rstrip() if chance.random() < 0.5 and line.strip("* ") else line) + tags


def drawer(chance):
    indent = chance.choice(["", "", "  "])
    names = chance.sample(NAMES, chance.choice([0, 1, 1, 2, 3]))
    lines = [f"{indent}:{name}: {chance.choice(VALUES[:5])}" for name in names]
    if names and chance.random() < 0.12:
        lines.append(f"{indent}:{names[0]}+: more")
    if chance.random() < 0.12:
        lines.append(f"{indent}:LOG_INTO_DRAWER: {chance.choice(DRAWERS)}")
    if chance.random() < 0.06:
        lines.append(f"{indent}:LOGGING: {chance.choice(LOGGING)}")
    return [f"{indent}:PROPERTIES:", *lines, f"{indent}:END:"]


def section(chance, level, open_words, done_words):
    lines = [heading(chance, level, open_words + done_words)]
    if chance.random() < 0.5:
        lines.append(planning(chance))
    if chance.random() < 0.45:
        lines += drawer(chance)
    if chance.random() < 0.35:
        lines += log(chance, False, open_words, done_words)
    for _ in range(chance.choice([0, 0, 1, 2])):
        lines += chance.choice(BODY).split("\n")
    return lines


def file(chance):
    sequence, open_words, done_words = chance.choice(SEQUENCES)
    lines = list(sequence)
    for _ in range(chance.choice([0, 0, 1, 2])):
        lines.append("#+STARTUP: " + " ".join(chance.choice(STARTUP) for _ in range(chance.choice([1, 1, 2]))))
    count = chance.choice([1, 2, 3])
    wanted = chance.randrange(count)
    line, level = 0, 1
    for k in range(count):
        if k == wanted:
            line = len(lines) + 1
        lines += section(chance, level, open_words, done_words)
        level = chance.choice([1, level, level + 1])
    end = "\r\n" if chance.random() < 0.05 else "\n"
    return end.join(lines) + (end if chance.random() < 0.94 else ""), line


def tags(chance):
    words = chance.sample(WORDS, chance.choice([1, 1, 2, 3]))
    return " ".join(chance.choice("+-") + word for word in words)


def main():
    seed, count, folder = int(sys.argv[1]), int(sys.argv[2]), sys.argv[3]
    chance = random.Random(seed)
    with open(f"{folder}/acts", "a", encoding="utf-8") as acts:
        for number in range(count):
            text, line = file(chance)
            name = f"p{number:03}.org"
            with open(f"{folder}/files/{name}", "w", encoding="utf-8", newline="") as made:
                made.write(text)
            wanted = [("tag", tags(chance)), ("tag", tags(chance)), ("priority", chance.choice(PRIORITIES)), ("log-none", "none"), ("log-note", chance.choice(NOTES))]
            wanted += [("property", f"{chance.choice(NAMES)}={chance.choice(VALUES)}") for _ in range(2)]
            for k, (act, word) in enumerate(wanted):
                acts.write(f"p{number:03}-{k}\t{name}\t{line}\t{act}\t{word}\n")


if __name__ == "__main__":
    main()
