#!/usr/bin/env python3
# SPDX-License-Identifier: Apache-2.0 OR MIT
"""The definition of a short id, a second time and by regular expressions alone, beside what `orgq --ids` says of made files.

    tests/ids.py ORGQ [SEED [COUNT]]    compares the ids of each heading of made files, two files at a time
    tests/ids.py ids FILE [KEYWORD..]   prints line, whole id and what is summed of each heading of a file

The last line counts. What is summed of a heading: its file's name and, each behind a line feed and a star, the words of the titles on
the way to it; or behind a line feed and a colon its own property ID alone. Of that no more than 512 bytes, behind which, where there
are as many, come a line feed, a plus and the section's text; and a line feed, an equals sign and that text where another heading of the
file has the same.
"""
import hashlib
import json
import os
import random
import re
import subprocess
import sys
import tempfile

LETTERS = "abcdefghijkmnpqrstuvwxyz23456789"
STAMP = re.compile(r"<\d{4}-\d\d-\d\d[^>\n]*>(--<\d{4}-\d\d-\d\d[^>\n]*>)?")
COOKIE = re.compile(r"\[[0-9]*(%|/[0-9]*)\]")
MOST = 512


def letters_of(summed):
    bits = int.from_bytes(hashlib.sha256(summed).digest()[:8], "big") >> 4
    return "".join(LETTERS[bits >> 5 * (11 - i) & 31] for i in range(12))


def title_of(line, keywords):
    it = line.lstrip("*").strip(" \t\r")
    words = it.split(" ", 1)
    if words[0] in keywords:
        it = words[1].strip(" \t\r") if len(words) > 1 else ""
    it = re.sub(r"^\[#[A-Z]\][ \t]*", "", it)
    return re.sub(r"(^|[ \t]+):[\w@#%:]+:$", "", it).strip(" \t\r")


def words_of(title):
    return " ".join(COOKIE.sub(" ", STAMP.sub(" ", title)).replace("\t", " ").split(" ")).split(" ")


def headings(name, text, keywords=("TODO", "DONE")):
    """Line, summed bytes and the twelve letters of each heading of a text."""
    lines = text.split("\n")
    lines = [line + "\n" for line in lines[:-1]] + ([lines[-1]] if lines[-1] else [])
    begins = [i for i, line in enumerate(lines) if re.match(r"\*+ ", line)]
    found, way = [], []
    for n, i in enumerate(begins):
        end = begins[n + 1] if n + 1 < len(begins) else len(lines)
        level = len(lines[i]) - len(lines[i].lstrip("*"))
        while way and way[-1][0] >= level:
            way.pop()
        way.append((level, " ".join(it for it in words_of(title_of(lines[i].rstrip("\n"), keywords)) if it)))
        section = "".join(lines[i:end])
        own = re.search(r"^[ \t]*:ID:[ \t]+(\S.*?)[ \t]*$", section, re.M)
        whole = f"\n:{own[1]}" if own else name + "".join(f"\n*{title}" for _, title in way)
        found.append([i + 1, whole.encode("utf-8", "surrogateescape")[:MOST], section])
    names = [it[1] for it in found]
    out = []
    for line, own, section in found:
        text = section.encode("utf-8", "surrogateescape")
        if len(own) >= MOST:
            own += b"\n+" + text
        elif names.count(own) > 1:
            own += b"\n=" + text
        out.append((line, own, letters_of(own)))
    return out


def length(count):
    letters = 4
    while letters < 12 and 32**letters < count * 1_000_000:
        letters += 1
    return letters


TITLES = ["Call", "Buy milk", "Write", "Call", "Pay rent", "Plan [0/2]", "Water <2024-03-05 Tue +1w>", "Übung", "[33%]", "a\tb  c", "x" * 600, "[1/2", "Call"]


def made_file(chance):
    text, level = chance.choice(["", "", "a line\n"]), 1
    for _ in range(chance.randint(1, 14)):
        level = chance.randint(1, min(level + 2, 5))
        text += "*" * level + " " + chance.choice(["TODO ", "", "DONE "]) + chance.choice(["", "", "[#A] "]) + chance.choice(TITLES)
        text += chance.choice(["", "", " :work:", " :a:b:"]) + "\n"
        if chance.random() < 0.3:
            text += chance.choice(["SCHEDULED: <2024-03-01 Fri>\n", "DEADLINE: <2024-03-09 Sat ++1m>\n"])
        if chance.random() < 0.15:
            text += ":PROPERTIES:\n:ID:       %s\n:END:\n" % chance.choice(["4f2a", "7 b", "4f2a"])
        if chance.random() < 0.4:
            text += chance.choice(["some text\n", "more text\n", "- [ ] item\n"])
    return text if chance.random() < 0.7 else text.rstrip("\n")


def compare(orgq, seed, count):
    """Gives how many lists are as wanted, and prints those that aren't."""
    chance, passed, failed = random.Random(seed), 0, 0
    for number in range(count):
        with tempfile.TemporaryDirectory() as folder:
            wanted, files = {}, []
            for name in ["a.org", "b c.org"][: chance.randint(1, 2)]:
                text = made_file(chance)
                with open(os.path.join(folder, name), "w", encoding="utf-8", newline="") as file:
                    file.write(text)
                files += ["-f", name]
                wanted.update({(name, line): it for line, _, it in headings(name, text)})
            options = chance.choice([[], ["--keywords", "TODO | DONE"]])
            ran = subprocess.run([orgq, "--at", "2024-02-28 10:30", *options, *files, "--json", "-i", "match", "--", "LEVEL>0"], cwd=folder, capture_output=True, text=True, check=False)
            rows = [json.loads(line) for line in ran.stdout.splitlines()]
            found = {(row["file"], row["line"]): row.get("id") for row in rows}
            letters = length(len(wanted))
            if found == {place: it[:letters] for place, it in wanted.items()}:
                passed += 1
            else:
                failed += 1
                print(f"ids: list {number} of seed {seed}: {found} is not {wanted} ({ran.stderr})")
    return passed, failed


def main():
    if sys.argv[1] == "ids":
        with open(sys.argv[2], encoding="utf-8", errors="surrogateescape", newline="") as file:
            for line, summed, letters in headings(os.path.basename(os.path.realpath(sys.argv[2])), file.read(), sys.argv[3:] or ("TODO", "DONE")):
                print(line, letters, summed)
        return 0
    passed, failed = compare(os.path.abspath(sys.argv[1]), int(sys.argv[2]) if len(sys.argv) > 2 else 1, int(sys.argv[3]) if len(sys.argv) > 3 else 100)
    print(f"ids: {passed} passed, {failed} failed")
    return 1 if failed or not passed else 0


if __name__ == "__main__":
    sys.exit(main())
