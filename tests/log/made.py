#!/usr/bin/env python3
"""Makes files with logs of each kind, the same each time: headings with and without keywords, priorities and tags, hidden ones,
planning lines, drawers of several names, plain lists, clocks that run, that end on another day, that end before they begin, keywords
that the file lacks, blocks of source, comment lines, notes.

    made.py FOLDER COUNT
"""
import datetime
import random
import sys

FIRST = datetime.date(2024, 2, 19)
SETS = [["TODO", "NEXT", "WAIT", "DONE", "CANCELLED"], ["TODO", "DONE"], ["OPEN", "SHUT"]]
HEADS = ["#+TODO: TODO NEXT(n!) WAIT(w@/!) | DONE(d!) CANCELLED\n#+FILETAGS: :all:\n", "", "#+SEQ_TODO: OPEN | SHUT\n"]


def stamp(chance, timed=True):
    """An inactive timestamp of these weeks, mostly with a time."""
    day = FIRST + datetime.timedelta(days=chance.randrange(21))
    time = f" {chance.randrange(24):02}:{chance.choice([0, 5, 15, 30, 59]):02}" if timed else ""
    return f"{day.isoformat()} {day.strftime('%a')}{time}"


def clock(chance):
    """A clock line."""
    begin = datetime.datetime.combine(FIRST, datetime.time()) + datetime.timedelta(minutes=5 * chance.randrange(21 * 288))
    if chance.random() < 0.1:
        return f"CLOCK: [{begin.strftime('%Y-%m-%d %a %H:%M')}]\n"
    minutes = chance.choice([0, 1, 25, 60, 90, 300, 1500])
    end = begin + datetime.timedelta(minutes=minutes)
    sums = f"{minutes // 60:2}:{minutes % 60:02}"
    return f"CLOCK: [{begin.strftime('%Y-%m-%d %a %H:%M')}]--[{end.strftime('%Y-%m-%d %a %H:%M')}] => {sums}\n"


def state(chance, words):
    """A line that says that a keyword changed."""
    to = chance.choice(words + ["GONE"])
    before = chance.choice(words + ["GONE", None])
    front = f'- State "{to}"'.ljust(24)
    when = stamp(chance, chance.random() < 0.9)
    if before is None:
        return f"{front}[{when}]\n" if chance.random() < 0.5 else f"{front}from              [{when}]\n"
    quoted = f'"{before}"'
    note = " \\\\\n  because\n" if chance.random() < 0.2 else "\n"
    return f"{front}from {quoted.ljust(12)} [{when}]{note}"


def lines(chance, words):
    """What stands under the planning line of a heading."""
    items = [chance.choice([clock(chance), state(chance, words), state(chance, words), "- Note taken on [2024-02-21 Wed 10:00] \\\\\n  so\n"])
             for _ in range(chance.randrange(4))]
    if not items:
        return ""
    indent = chance.choice(["", "  "])
    items = "".join(indent + line + "\n" for item in items for line in item.splitlines())
    kind = chance.randrange(5)
    if kind == 0:
        return items
    if kind == 1:
        return f"#+begin_src org\n{items}#+end_src\n"
    if kind == 2:
        return "".join(f"# {line}\n" for line in items.splitlines())
    name = chance.choice(["LOGBOOK", "CLOCKING"])
    return f"{indent}:{name}:\n{items}{indent}:END:\n"


def heading(chance, number, words):
    """A heading with its section."""
    keyword = chance.choice(words + [None])
    parts = ["*" * chance.randrange(1, 4), keyword, chance.choice([None, None, "[#A]", "[#B]"])]
    parts += ["COMMENT" if chance.random() < 0.05 else None, f"Heading {number}"]
    parts += [chance.choice([None, None, ":work:", ":home:deep:", ":ARCHIVE:" if chance.random() < 0.2 else None])]
    text = " ".join(part for part in parts if part) + "\n"
    if chance.random() < 0.4:
        pairs = [f"CLOSED: [{stamp(chance, chance.random() < 0.9)}]"]
        if chance.random() < 0.3:
            pairs.append(f"SCHEDULED: <{stamp(chance)}>")
        chance.shuffle(pairs)
        text += " ".join(pairs) + "\n"
    if chance.random() < 0.2:
        text += ":PROPERTIES:\n:Effort: 1:00\n:END:\n"
    return text + "".join(lines(chance, words) for _ in range(chance.randrange(3)))


def main(folder, count):
    chance = random.Random(86)
    for number, (head, words) in enumerate(zip(HEADS, SETS)):
        with open(f"{folder}/made{number}.org", "w", encoding="utf-8") as file:
            file.write(head + "Before the first heading\n" + clock(chance))
            file.write("".join(heading(chance, place, words) for place in range(count)))


main(sys.argv[1], int(sys.argv[2]))
