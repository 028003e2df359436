#!/usr/bin/env python3
"""Compares the order of Org's own list of open entries with that of `orgq todo --sort`.

    compare.py EMACS ORGQ    EMACS as todo.el writes it, ORGQ lines `== KEY STRATEGY` and behind each the rows as JSON

Rows that have the key have to stand as in Emacs, but for what docs/using.md says in a row: rows that are equal there may stand
otherwise, of a day's stamps Emacs sees the day alone, it sees a title with its cookie, so titles with one are left out, and it
counts a priority from the lowest one of its file, so those of work.org are left out. Says where it is otherwise; the last line counts.
"""
import json
import sys

# What Emacs sees of a row for a key; None where the row lacks it, or isn't compared.
KEYS = {
    "deadline": lambda row: row.get("deadline", "")[:10] or None,
    "scheduled": lambda row: row.get("scheduled", "")[:10] or None,
    "priority": lambda row: None if row["file"] == "work.org" else row.get("priority"),
    "effort": lambda row: row.get("effort"),
    "keyword": lambda row: row.get("keyword"),
    "title": lambda row: None if row.get("priority") else row["title"].casefold(),
    "category": lambda row: row["category"],
}


def sections(path):
    """The lines of each section of a file, by its name."""
    found, name = {}, None
    with open(path, encoding="utf-8") as file:
        for line in file.read().splitlines():
            if line.startswith("== "):
                name = line[3:]
                found[name] = []
            elif line:
                found[name].append(line)
    return found


def plain(title):
    """A title as Emacs' fields have it."""
    return title.replace(",", ";").strip()


def runs(titles, values):
    """Titles in the order that they have, those with equal values beside one another by themselves in that of their letters."""
    found = []
    for title in titles:
        if found and values[found[-1][0]] == values[title]:
            found[-1].append(title)
        else:
            found.append([title])
    return [title for run in found for title in sorted(run)]


def main():
    emacs = {name: [line.split(",")[1].strip() for line in lines] for name, lines in sections(sys.argv[1]).items()}
    orgq = {name: [json.loads(line) for line in lines] for name, lines in sections(sys.argv[2]).items()}
    passed = failed = 0
    for name, rows in orgq.items():
        key, strategy = name.split()
        values = {plain(row["title"]): KEYS[key.lstrip("-")](row) for row in rows}
        having = {title for title, value in values.items() if value is not None}
        shown = runs([title for title in map(plain, (row["title"] for row in rows)) if title in having], values)
        wanted = runs([title for title in emacs[strategy] if title in having], values)
        if shown == wanted and len(values) == len(rows) and len(having) > 2:
            passed += 1
            continue
        failed += 1
        print(f"sort: {name}: Emacs and orgq differ, of {len(having)} rows")
        for ours, theirs in zip(shown, wanted):
            if ours != theirs:
                print(f"    {ours}    in Emacs {theirs}")
    print(f"sort: {passed} passed, {failed} failed")
    return 1 if failed else 0


sys.exit(main())
