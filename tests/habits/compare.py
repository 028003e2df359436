#!/usr/bin/env python3
"""Compares the graphs of habits that Org and `orgq habits` draw, day by day: compare.py EMACS.GRAPHS ORGQ DAY FILE."""
import json
import subprocess
import sys

BEFORE = 27


def drawn(letters):
    """A graph of Org by the signs of orgq."""
    signs = []
    for place, letter in enumerate(letters):
        if place == BEFORE:
            signs.append("|")
        if letter.isupper():
            signs.append("*")
        elif place < BEFORE:
            signs.append("." if letter == "o" else "-")
        elif letter == "o":
            signs.append("x" if place == BEFORE else " ")
        else:
            signs.append({"c": " ", "r": "o", "a": "o"}[letter])
    return "".join(signs).rstrip(" ")


def main():
    emacs, orgq, day, path = sys.argv[1:5]
    with open(emacs, encoding="utf-8") as file:
        there = {int(line.split("\t")[0]): drawn(line.rstrip("\n").split("\t")[1]) for line in file}
    called = [orgq, "--no-config", "--at", f"{day} 12:00", "--json", "-f", path, "habits", "--ascii"]
    said = subprocess.run(called, capture_output=True, text=True, check=False)
    here = {row["line"]: row["graph"] for row in map(json.loads, said.stdout.splitlines())}
    passed, failed = 0, 0
    for line in sorted(set(there) | set(here)):
        if there.get(line) == here.get(line):
            passed += 1
        else:
            failed += 1
            print(f"habits: line {line}: Emacs {there.get(line)}\n{'':>16}orgq  {here.get(line)}")
    if len(here) < 50:
        failed += 1
        print(f"habits: hardly a habit is found. {said.stderr}")
    for sign in "*-.|ox":
        if not any(sign in graph for graph in here.values()):
            failed += 1
            print(f"habits: no graph has {sign}")
    print(f"habits: {passed} passed, {failed} failed")
    sys.exit(1 if failed else 0)


main()
