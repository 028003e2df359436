#!/usr/bin/env python3
"""Compares the rows of Org's own batch agenda with those of `orgq --csv agenda` over the same files and days, field by field.
A row has a partner of the same day, heading and kind. What differs has to be of kinds that have a name here, each of which has
its row in docs/org.md; any other difference fails. A row without a partner is explained by its heading's own lines.

    compare.py EMACS.csv ORGQ.csv TODAY MANUAL FILE..
"""
import datetime
import os
import re
import sys

FIELDS = ["category", "title", "kind", "keyword", "tags", "date", "time", "label", "priority", "number", "day"]
STAMP = r"<\d{4}-\d\d-\d\d[^>\n]*>"
REPEATER = r"[.+]*\+\d+[hdwmy]"

# Each kind, and words of its row of the manual.
KINDS = {
    # fields of rows that are in both
    "title": "a title has no stamp that gives its row",
    "date": "the date of a warning is the day that is shown",
    "written": "the date of a repeated row `Scheduled:` or `Deadline:` is the written one",
    "clock": "a time is written `8:15......`",
    "label": "`Sched. 2x:` and `In   2 d.:`",
    "past": "`past-scheduled` is also the kind of a row `Scheduled:`",
    "number": "the priority's number grows with lateness",
    "single": "a range of one day has no `(1/1):`",
    "category": "`#+PROPERTY: CATEGORY` is no category",
    "title time": "times in titles, as `* 10:00 call`",
    # rows that only one of them has
    "done": "a done task with a repeater shows on its written date alone",
    "late": "a late repeated task shows as late alone",
    "delay": "the delay of a repeated `SCHEDULED`",
    "delayed": "Without a repeater such a task shows here on its delayed day",
    "planned range": "a range behind `SCHEDULED:` or `DEADLINE:` also gives rows of its days",
    "verbatim": "stamps in fixed-width lines",
    "link": "a stamp in a link",
    "setting": "a stamp in a setting or another line `#+KEY:`",
    "small": "`deadline: <2024-02-09 Fri>` in small letters",
    "quote": "stamps in a quote, center, verse or special block",
    "drawer": "active stamps in a property drawer",
    "midnight": "the time `24:00` is read",
}


def title_of(text):
    """A title without stamps, and without what Org leaves of a range where it takes one of its stamps out."""
    text = re.sub(STAMP, "", text)
    text = re.sub(r"--(:[^ ]*:)?$", "", text.strip())
    return re.sub(r"\s+", " ", text).strip()


def rows(path):
    with open(path, encoding="utf-8") as file:
        return [dict(zip(FIELDS, line.split(","))) for line in file.read().splitlines()]


def time_of(text):
    return re.sub(r"^(\d):", r"0\1:", text.rstrip("."))


def number_of(label):
    found = re.search(r"\d+", label)
    return int(found[0]) if found else 0


def kind_of(row):
    """The kind of a row, by what stands before its heading."""
    label = row["label"]
    for begin, kind in (("Sched.", "late"), ("In", "warning"), ("Scheduled:", "scheduled"), ("Deadline:", "deadline")):
        if label.startswith(begin):
            return kind
    if "ago:" in label:
        return "missed"
    return "range" if row["kind"] == "block" else "stamp"


def key(row):
    return (row["day"], title_of(row["title"]).replace("11:00 ", ""), row["keyword"], kind_of(row), number_of(row["label"]) if kind_of(row) != "range" else 0)


def differing_fields(org, own):
    """The kinds by which two rows differ; None for a difference without a name."""
    kinds = []
    if org["category"] != own["category"]:
        kinds.append("category")
    if org["title"] != own["title"]:
        kinds.append("title time" if re.search(r"\d\d:\d\d", re.sub(STAMP, "", own["title"])) else "title")
    if org["kind"] != own["kind"]:
        if (org["kind"], own["kind"], org["label"]) != ("past-scheduled", "scheduled", "Scheduled:"):
            return None
        kinds.append("past")
    if org["date"] != own["date"]:
        if kind_of(own) == "warning" and org["date"] == org["day"]:
            kinds.append("date")
        elif kind_of(own) in ("scheduled", "deadline") and own["date"] == own["day"]:
            kinds.append("written")
        else:
            return None
    if org["time"] != own["time"]:
        if time_of(org["time"]) == own["time"]:
            kinds.append("clock")
        elif not own["time"] and time_of(org["time"]) in own["title"]:
            kinds.append("title time")
        else:
            return None
    if org["label"] != own["label"]:
        if (org["label"], own["label"]) == ("", "(1/1):"):
            kinds.append("single")
        elif re.sub(r"\s+", "", org["label"]).replace("x:", "d.:") == re.sub(r"\s+", "", own["label"]):
            kinds.append("label")
        else:
            return None
    if org["number"] != own["number"]:
        kinds.append("number")
    if (org["keyword"], org["tags"], org["priority"]) != (own["keyword"], own["tags"], own["priority"]):
        return None
    return kinds


def sections(paths):
    """Of each title the lines of its section, the heading line first."""
    found = {}
    for path in paths:
        with open(path, encoding="utf-8") as file:
            parts = re.split(r"(?m)^(?=\*+ )", file.read())
        for part in parts[1:]:
            lines = part.splitlines()
            head = re.sub(r"^\*+ (?:(?:TODO|NEXT|WAIT|DONE|CANCELLED) )?(?:\[#.\] )?", "", lines[0])
            found[title_of(re.sub(r"\s+:[\w:]+:\s*$", "", head)).replace("11:00 ", "").replace(",", ";")] = lines
    return found


def dates(text):
    return [datetime.date(*map(int, date.split("-"))) for date in re.findall(r"<(\d{4}-\d\d-\d\d)", text)]


def day_of(text):
    return datetime.date(*map(int, text.split("-")))


def only_org(row, lines):
    """The kind of a row that Org alone has, by the lines of its heading."""
    text = "\n".join(lines)
    if re.search(r"(SCHEDULED|DEADLINE): " + STAMP + "--", text) and kind_of(row) == "range":
        return "planned range"
    if re.search(r"SCHEDULED: <[^>]*" + REPEATER + r" --?\d", text) and kind_of(row) == "scheduled":
        return "delay"
    if "#+begin_quote" in text:
        return "quote"
    if ":PROPERTIES:" in text and kind_of(row) == "stamp":
        return "drawer"
    if "24:00" in text:
        return "midnight"
    return None


def only_own(row, lines, today):
    """The kind of a row that orgq alone has, by the lines of its heading."""
    text = "\n".join(lines)
    planned = re.search(r"(SCHEDULED|DEADLINE): (" + STAMP + ")", text)
    repeated = planned and re.search(REPEATER, planned[2])
    kind = kind_of(row)
    if kind in ("scheduled", "deadline") and planned:
        if repeated and re.match(r"\*+ (DONE|CANCELLED) ", lines[0]):
            return "done"
        if planned[1] == "SCHEDULED" and repeated and re.search(r" --?\d+[hdwmy]", planned[2]):
            return "delay"
        if repeated and dates(planned[2])[0] < day_of(row["day"]) <= today:
            return "late"
        if planned[1] == "SCHEDULED" and re.search(r" --?\d+[hdwmy]", planned[2]):
            return "delayed"
    for kind, look in (("verbatim", r"(?m)^\s*: <|[=~]<"), ("link", r"\[\[[^]]*\]\[<"), ("setting", r"(?m)^\s*#\+DATE:"), ("small", r"(?m)^\s*deadline: ")):
        if re.search(look, text):
            return kind
    return None


def main():
    emacs, orgq, today, manual, *paths = sys.argv[1:]
    with open(manual, encoding="utf-8") as file:
        said = file.read()
    with_kind, found, failed, same = sections(paths), {}, 0, 0
    own_rows = {}
    for row in rows(orgq):
        own_rows.setdefault(key(row), []).append(row)

    def count(kinds, row, who):
        nonlocal failed
        if kinds is None or None in kinds:
            failed += 1
            print(f"agenda-csv: {who}: {','.join(row[name] for name in FIELDS)}")
            return
        for kind in kinds:
            found[kind] = found.get(kind, 0) + 1

    partners = 0
    for row in rows(emacs):
        others = own_rows.get(key(row), [])
        if others:
            other = others.pop(0)
            partners += 1
            kinds = differing_fields(row, other)
            same += kinds == []
            count(kinds, row, "otherwise in orgq")
        else:
            count([only_org(row, with_kind.get(key(row)[1], [""]))], row, "only in Emacs")
    for row in (row for others in own_rows.values() for row in others):
        count([only_own(row, with_kind.get(key(row)[1], [""]), day_of(today))], row, "only in orgq")
    print(f"agenda-csv: {partners} rows are in both, {same} of them the same to the byte")
    for kind, times in sorted(found.items()):
        print(f"agenda-csv: {times} times: {KINDS[kind]}")
        if KINDS[kind] not in said:
            failed += 1
            print(f"agenda-csv: {os.path.basename(manual)} has no row with the words: {KINDS[kind]}")
    for kind in KINDS.keys() - found.keys():
        print(f"agenda-csv: these files show nothing of: {KINDS[kind]}")
        failed += 1
    passed = partners + sum(found.values())
    print(f"agenda-csv: {passed} passed, {failed} failed")
    sys.exit(failed > 0 or partners == 0)


if __name__ == "__main__":
    main()
