#!/usr/bin/env python3
"""Makes files with headings of all shapes, and the acts that are done to them: the same for the same seed.

    make.py SEED COUNT FOLDER    FOLDER/files/NNN.org, and FOLDER/acts: CASE, FILE, LINE, ACT and DATE, with tabs between
"""
import os
import random
import sys

DAYS = ["2024-02-20 Tue", "2024-01-31 Wed", "2024-02-28 Wed", "2024-03-01 Fri", "2024-12-31 Tue", "2023-02-28 Tue"]
TIMES = ["", "", " 08:00", " 17:30", " 09:00-10:15"]
REPEATERS = ["", "", "", " +1w", " +1m", " ++2d", " .+1m", " +1y", " .+2d/4d"]
DELAYS = ["", "", "", " -3d", " --2d"]
TITLES = ["Pay rent", "Call Ann", "Ünïcode ☃ and 漢字", "A: colon", "DEADLINE is a word", "x", "Trailing space "]
WORDS = ["Some text.", "- a list item", "  indented", "| a | table |", "", "See <2024-03-03 Sun>.", "[2024-01-01 Mon] inactive",
         "# a comment", "A line with SCHEDULED: inside", ":NOTES:\ninside\n:END:", "#+begin_example\nCLOCK: [2024-02-28 Wed 09:00]\n#+end_example"]
DATES = ["2024-03-05", "2024-03-05 9:30", "2024-03-05 09:30-10:15", "none"]


def stamp(chance, brackets="<>"):
    inner = chance.choice(DAYS) + chance.choice(TIMES) + chance.choice(REPEATERS) + chance.choice(DELAYS)
    return brackets[0] + inner + brackets[1]


def planning(chance):
    """A planning line: some of the three keywords, in some order, perhaps with a range or with text behind."""
    words = [word for word, often in (("SCHEDULED", 0.6), ("DEADLINE", 0.6), ("CLOSED", 0.2)) if chance.random() < often] or ["DEADLINE"]
    chance.shuffle(words)
    pairs = []
    for word in words:
        if word == "CLOSED":
            pairs.append("CLOSED: [2024-02-27 Tue 18:00]")
        elif chance.random() < 0.08:
            pairs.append(f"{word}: <2024-02-20 Tue>--<2024-02-22 Thu>")
        else:
            pairs.append(f"{word}: {stamp(chance)}")
    if chance.random() < 0.04:
        pairs.append(f"{words[0]}: {stamp(chance)}" if words[0] != "CLOSED" else "DEADLINE: " + stamp(chance))
    line = chance.choice(["", "", "  ", "   ", "\t"]) + " ".join(pairs)
    if chance.random() < 0.08:
        line += chance.choice([" behind it", " behind it", " * starred"])
    return line


def clock(chance, indent, running):
    if running:
        return f"{indent}CLOCK: [2024-02-28 Wed 09:05]" + chance.choice(["", "", "", "", "", " with Ann"])
    return f"{indent}CLOCK: [2024-02-27 Tue 09:10]--[2024-02-27 Tue 10:40] =>  1:30"


def clocks(chance, has_drawer, running):
    """Clock lines, in a drawer or loose; the first runs where one does."""
    indent = chance.choice(["", "", "  ", "   "])
    lines = [clock(chance, indent, running and k == 0) for k in range(chance.choice([1, 1, 2, 3]))]
    if not has_drawer:
        return lines
    name = chance.choice(["LOGBOOK", "LOGBOOK", "logbook"])
    return [f"{indent}:{name}:", *lines, f"{indent}:END:"]


def section(chance, level, running):
    """The lines of a heading, and what stands under it."""
    keyword = chance.choice(["", "TODO ", "TODO ", "DONE "])
    cookie = chance.choice(["", "", "[#A] "])
    tags = chance.choice(["", "", " :a:b:", "\t\t:work:"])
    lines = ["*" * level + " " + keyword + cookie + chance.choice(TITLES) + tags]
    if chance.random() < 0.6:
        lines.append(planning(chance))
        if chance.random() < 0.06:
            lines.append(planning(chance))
    if chance.random() < 0.3:
        indent = chance.choice(["", "  "])
        lines += [f"{indent}:PROPERTIES:", f"{indent}:Effort: 1:00", f"{indent}:END:"]
    if running or chance.random() < 0.35:
        lines += clocks(chance, chance.random() < 0.75, running)
    for _ in range(chance.choice([0, 0, 1, 2])):
        lines += chance.choice(WORDS).split("\n")
    return lines


def file(chance):
    """A file's text, the line of the heading that is acted on, and whether a clock of it runs."""
    running = chance.random() < 0.4
    lines = ["#+TODO: TODO | DONE", ""] if chance.random() < 0.3 else []
    count = chance.choice([1, 2, 3])
    wanted = chance.randrange(count)
    line = 0
    for k in range(count):
        if k == wanted:
            line = len(lines) + 1
        lines += section(chance, chance.choice([1, 1, 2, 3]), running and k == wanted)
    end = "\r\n" if chance.random() < 0.08 else "\n"
    text = end.join(lines) + (end if chance.random() < 0.93 else "")
    return text, line, running


def main():
    seed, count, folder = int(sys.argv[1]), int(sys.argv[2]), sys.argv[3]
    chance = random.Random(seed)
    os.makedirs(f"{folder}/files")
    with open(f"{folder}/acts", "w", encoding="utf-8") as acts:
        case = 0
        for number in range(count):
            text, line, running = file(chance)
            name = f"{number:03}.org"
            with open(f"{folder}/files/{name}", "w", encoding="utf-8", newline="") as made:
                made.write(text)
            wanted = [(act, date) for act in ("schedule", "deadline") for date in DATES]
            wanted += [("out", ""), ("cancel", "")] if running else [("in", "")]
            wanted.append(("done", ""))
            for act, date in wanted:
                acts.write(f"{case:05}\t{name}\t{line}\t{act}\t{date}\n")
                case += 1


if __name__ == "__main__":
    main()
