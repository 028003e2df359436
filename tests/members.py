#!/usr/bin/env python3
"""Checks that each member of a row as JSON has all its places. `MEMBERS` of org_client/src/template.rt is the table: each name
of it is written by the code and named in the schema, in the manual's table and in the sentence that refuses a template, and
none of these has another. Besides `properties`, which no template takes. Says which place lacks what; the last line counts.
"""
import glob
import json
import os
import re
import sys

ROOT = os.path.dirname(os.path.dirname(os.path.abspath(__file__)))
TABLE = "crates/org_client/src/template.rt"
SENTENCES = "crates/orgq_messages/src/problem.rt"
SCHEMA = "docs/orgq-rows.schema.json"
MANUAL = "docs/using.md"
# What a template doesn't take.
OBJECTS = ["properties", "matches", "view", "block"]


def read(path):
    with open(os.path.join(ROOT, path), encoding="utf-8") as file:
        return file.read()


def found(pattern, path):
    """What a pattern takes of a file; it has to be there once."""
    match = re.search(pattern, read(path), re.S)
    if not match:
        sys.exit(f"members: {path} has no longer what is looked for: {pattern}")
    return match[1]


def table():
    return re.findall(r'"([a-z_]+)"', found(r"const MEMBERS: \[&str; \d+\] = \[(.*?)\];", TABLE))


def written():
    """The names that the code writes: each call of `Members`, or of a function that hands a name to one."""
    names = set()
    for path in [*glob.glob(os.path.join(ROOT, "crates/org_client/src/*.rt")), *glob.glob(os.path.join(ROOT, "crates/org_review/src/*.rt")), os.path.join(ROOT, "crates/orgq_answers/src/head.rt")]:
        code = re.sub(r"//[^\n]*", "", read(os.path.relpath(path, ROOT)))
        names.update(re.findall(r'\b(?:to|self|line|value)\.(?:date|time|number|text|texts|flag|object)\(\s*"([a-z_]+)"', code))
        names.update(re.findall(r'\bput_\w+\([^()]*?"([a-z_]+)"', code))
        names.update(re.findall(r'\bpush_quoted\(b"([a-z_]+)"', code))
    return names


def in_manual():
    rows = re.findall(r"^\| (`[^|]*) \|", found(r"### Rows as JSON\n(.*?)\n### ", MANUAL), re.M)
    return [name for row in rows for name in re.findall(r"`([a-z_]+)`", row)]


def in_sentence():
    return re.split(r", ", found(r'const NO_FORMAT: &str =\s*"[^"]*; there are ([^"]*)"', SENTENCES))


def main():
    members = table()
    places = [
        ("what rows are written with", written(), OBJECTS),
        (SCHEMA, json.loads(read(SCHEMA))["properties"].keys(), OBJECTS),
        (MANUAL, in_manual(), OBJECTS),
        (SENTENCES, in_sentence(), []),
    ]
    failed = 0
    if len(set(members)) != len(members):
        print(f"{TABLE}: a name stands twice")
        failed += 1
    for place, names, besides in places:
        wanted = set(members) | set(besides)
        for name in sorted(wanted - set(names)):
            print(f"{place}: lacks {name}")
            failed += 1
        for name in sorted(set(names) - wanted):
            print(f"{place}: has {name}, which is not in MEMBERS")
            failed += 1
    print(f"members: {len(members) * len(places)} passed, {failed} failed")
    return 1 if failed else 0


sys.exit(main())
