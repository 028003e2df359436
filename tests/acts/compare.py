#!/usr/bin/env python3
"""Compares what Org and orgq leave of the same files after the same acts, byte for byte. Where they differ, the difference has
to be of kinds that have a name here, each of which has its row in docs/org.md; any other one fails.

    compare.py FOLDER MANUAL    FOLDER/acts, FOLDER/files, FOLDER/emacs and FOLDER/orgq, with FOLDER/orgq/CASE.status
"""
import datetime
import os
import re
import sys

# Each kind, and words of its row of the manual.
KINDS = {
    "order": "a keyword that is changed moves to the front of its line",
    "closed": "`CLOSED:` is taken away when a date is set",
    "behind": "text behind the stamps of a planning line is taken away when a date is set",
    "space": "the space beside a keyword that goes is taken away too",
    "range": "of a range that goes its second stamp is left",
    "several": "of several stamps behind one keyword the first is changed",
    "refused": "a date is written whatever is then read of the line behind it",
    "delay": "a delay behind `.+2d/4d`, or one of two minus signs behind a repeater, is lost",
    "below": "the keyword goes from the text under the heading as well",
    "second": "a second planning line becomes the first where the first one goes",
    "loose": "loose clock lines are moved into the drawer that is made",
    "end": "a file without a line feed at its end gets or loses one",
    "rest": "what stands behind a running clock is taken away when it ends",
    "again": "a heading that is done isn't done again",
    "none": "a heading without a keyword has none where its task comes again",
    "reopened": "what stands behind `CLOSED:` is taken away with it",
    "once": "`SCHEDULED:` without a repeater is taken away where a deadline repeats",
    "month": "a day that its month lacks becomes one of the next month",
    "first": "a delay of two minus signs goes where the stamp shifts",
    "plain": "repeated stamps of the text shift as well",
    "each": "each of several stamps behind one keyword shifts",
    "comes": "a task comes again where any stamp of its entry repeats",
    "sequence": "a task that comes again gets the first keyword of the sequence of its old one",
    "quoted": "a task without a keyword that comes again with a note has `from \"\"`",
    "top": "all headings inherit properties of a heading in a file's first line",
    "block": "a drawer is made inside a block that shows one",
    "shown": "a clock line in a block counts for nothing",
    "empty": "empty `LOGBOOK` drawers of the heading and of those below it go where its clock ends",
    "bottom": "under a last line without a line feed the log line comes before the planning line",
    "aligned": "tags are aligned where none of them changes",
    "cookie": "a cookie anywhere in the line is the priority",
    "plus": "further lines of a property stay where it gets a value",
    "comment": "white space behind `COMMENT` becomes one space where the keyword goes",
    "tab": "a word with a tab behind it is no keyword",
    "filled": "a tab that reaches up to tags in their column stays",
    "stars": "white space behind the stars becomes one space where there is no keyword to go",
}
KINDS_OF_ACTS = {"schedule", "deadline", "in", "out", "done", "log-set", "log-schedule", "log-deadline", "tag", "priority", "property", "log-none", "log-note"}
STAMP = r"[<\[]\d{4}-\d\d-\d\d[^>\]\n]*[>\]]"
PAIR = re.compile(r"(SCHEDULED|DEADLINE|CLOSED):[ \t]*(" + STAMP + "(?:--" + STAMP + ")?)")
CLOCK = re.compile(r"[ \t]*CLOCK: \[")


def read(path):
    with open(path, encoding="utf-8", newline="") as file:
        return file.read()


class Entry:
    """A text, cut at the section that is acted on."""

    def __init__(self, text, line):
        self.ended = text.endswith("\n")
        lines = text.removesuffix("\n").split("\n")
        first = line - 1
        last = next((k for k in range(first + 1, len(lines)) if re.match(r"\*+ ", lines[k])), len(lines))
        self.front, self.lines, self.back = lines[:first], lines[first:last], lines[last:]

    def key(self):
        return (self.front, self.lines, self.back, self.ended)


def is_planning(line):
    return bool(re.match(r"[ \t]*(SCHEDULED|DEADLINE|CLOSED):[ \t]*" + STAMP, line))


class Planning:
    """A planning line: indentation, pairs, and what else stands in it."""

    def __init__(self, line):
        self.end = "\r" if line.endswith("\r") else ""
        body = line.removesuffix("\r")
        self.indent = re.match(r"[ \t]*", body)[0]
        self.pairs = [(m[1], m[2]) for m in PAIR.finditer(body)]
        self.rest = PAIR.sub("", body).strip()


def differing_dates(keyword, date, org, own):
    """The kinds by which two planning lines differ where a date was set, or None."""
    kinds = []
    of_keyword = lambda pairs: [stamp for word, stamp in pairs if word == keyword]
    if len(of_keyword(own.pairs)) > 1:
        if not of_keyword(own.pairs)[-1].startswith(f"<{date.split()[0]}") or not of_keyword(org.pairs)[0].startswith(f"<{date.split()[0]}"):
            return None
        kinds.append("several")
        org.pairs, own.pairs = ([pair for pair in pairs if pair[0] != keyword] for pairs in (org.pairs, own.pairs))
    if [pair for pair in own.pairs if pair[0] != "CLOSED"] == own.pairs and org.pairs != own.pairs and len(org.pairs) > len(own.pairs):
        return None
    if len(org.pairs) < len(own.pairs) and not any(word == "CLOSED" for word, _ in org.pairs):
        kinds.append("closed")
        own.pairs = [pair for pair in own.pairs if pair[0] != "CLOSED"]
    if own.rest and not org.rest:
        kinds.append("behind")
        own.rest = ""
    if org.pairs != own.pairs:
        shorter = lambda pairs: [(word, re.sub(r" --?\d+[hdwmy]", "", stamp) if word == keyword else stamp) for word, stamp in pairs]
        if sorted(org.pairs) != sorted(own.pairs):
            kinds.append("delay")
            longer = {word: stamp for word, stamp in own.pairs}
            if len(longer.get(keyword, "")) <= len(dict(org.pairs).get(keyword, "")):
                return None
            org.pairs, own.pairs = shorter(org.pairs), shorter(own.pairs)
        if org.pairs != own.pairs:
            kinds.append("order")
            if sorted(org.pairs) != sorted(own.pairs) or (org.pairs[0][0] != keyword and "several" not in kinds):
                return None
    if (org.indent, org.rest, org.end) != (own.indent, own.rest, own.end):
        return None
    return kinds or ["space"]


def kinds_of_date(keyword, date, org, own):
    if len(org.lines) != len(own.lines) or len(org.lines) < 2:
        return None
    lines = list(zip(org.lines, own.lines))
    if any(a != b for k, (a, b) in enumerate(lines) if k != 1) or not (is_planning(lines[1][0]) and is_planning(lines[1][1])):
        return None
    kinds = differing_dates(keyword, date, Planning(lines[1][0]), Planning(lines[1][1]))
    own.lines = org.lines
    return kinds


def without(keyword, line):
    return re.sub(r"[ \t]*\b" + keyword + r":[ \t]*<[^>\n]*>", "", line)


def kinds_of_none(keyword, before, org, own):
    """The kinds by which two sections differ where a date was taken away, or None."""
    kinds = []
    had = before.lines[1] if len(before.lines) > 1 else ""
    rest = r"[ \t]*--<[^>]*>"
    ranges = lambda lines: len(re.findall(rest, "\n".join(lines)))
    planned = len(re.findall(keyword + r":[ \t]*<[^>]*>--<", had))
    if planned and ranges(org.lines) == ranges(before.lines) == ranges(own.lines) + planned:
        kinds.append("range")
        org.lines[1:] = [re.sub(rest, "", line) for line in org.lines[1:]]
        own.lines[1:] = [re.sub(rest, "", line) for line in own.lines[1:]]
    cut = [without(keyword, line) for line in own.lines[1:]]
    if cut != own.lines[1:] and [without(keyword, line) for line in org.lines[1:]] == org.lines[1:]:
        kinds.append("below")
        # A line of nothing else goes in Org.
        own.lines[1:] = [line for line, was in zip(cut, own.lines[1:]) if line.strip() or line == was]
    if "range" in kinds and len(org.lines) == len(own.lines) + 1 and not org.lines[1].strip():
        del org.lines[1]
    if len(org.lines) == len(own.lines) - 1 and not own.lines[1].strip() and had.strip():
        kinds.append("second")
        del own.lines[1]
    if org.lines != own.lines:
        plain = lambda lines: [re.sub(r"[ \t]+", "", line) for line in lines]
        if plain(org.lines) == plain(own.lines):
            kinds.append("space")
            own.lines = org.lines
    return kinds


def kinds_of_clock_in(org, own):
    loose = lambda entry: sorted(line.strip() for line in entry.lines if CLOCK.match(line))
    others = lambda entry: [line.strip() for line in entry.lines if not CLOCK.match(line)]
    if org.lines != own.lines and loose(org) == loose(own) and others(org) == others(own):
        own.lines = org.lines
        return ["loose"]
    return []


def kinds_of_clock_out(org, own):
    cut = lambda line: re.sub(r"(CLOCK: \[[^]]*\]--\[[^]]*\] => +\d+:\d\d)[^\r]*", r"\1", line)
    bare = [cut(line) for line in own.lines]
    if org.lines != own.lines and bare != own.lines and set(bare) - set(own.lines) <= set(org.lines):
        own.lines = bare
        return ["rest"]
    return []


def is_overflow(org, own):
    """Whether the one date is in the month behind the other's, which is the last of its month, by the days that it lacks."""
    first, second = (datetime.date(*map(int, re.match(r"<(\d+)-(\d+)-(\d+)", stamp).groups())) for stamp in (org, own))
    return (second + datetime.timedelta(days=1)).day == 1 and 0 < (first - second).days < 4


def differing_completions(org, own):
    """The kinds by which the planning lines of a completed heading differ, or None."""
    kinds = []
    words = lambda line: {word for word, _ in line.pairs}
    if own.rest and not org.rest:
        kinds.append("reopened")
        own.rest = ""
    gone = [stamp for word, stamp in own.pairs if word == "SCHEDULED" and "SCHEDULED" not in words(org)]
    if gone and not re.search(r"[.+]\+?\d+[hdwmy]", gone[0]):
        kinds.append("once")
        own.pairs = [pair for pair in own.pairs if pair[0] != "SCHEDULED"]
        second = gone[0].partition(">")[2]
        if second:
            kinds.append("range")
            org.rest = org.rest.replace(second, "").strip()
            org.pairs = [(word, stamp.removesuffix(second)) for word, stamp in org.pairs]
    if len(org.pairs) != len(own.pairs):
        return None
    for k, ((org_word, first), (own_word, second)) in enumerate(zip(org.pairs, own.pairs)):
        is_last = own_word not in {word for word, _ in own.pairs[k + 1 :]}
        if not is_last and first != second and org_word == own_word and re.search(r"[.+]\+?\d+[hdwmy]", second):
            kinds.append("each")
            continue
        if re.search(r" --\d+[hdwmy]", second) and not re.search(r" --\d+[hdwmy]", first):
            kinds.append("first")
            second = re.sub(r" --\d+[hdwmy]", "", second)
        if first != second and re.sub(r"^<\S+ \w+", "", first) == re.sub(r"^<\S+ \w+", "", second) and is_overflow(first, second):
            kinds.append("month")
        elif first != second:
            return None
        if org_word != own_word:
            return None
    return kinds if (org.indent, org.rest, org.end) == (own.indent, own.rest, own.end) or not own.pairs else None


def without_last_repeat(lines):
    """The lines without the property `LAST_REPEAT`, and without a drawer that was made for it."""
    kept = [line for line in lines if ":LAST_REPEAT:" not in line]
    for k in range(len(kept) - 1):
        if (kept[k].strip(), kept[k + 1].strip()) == (":PROPERTIES:", ":END:"):
            del kept[k : k + 2]
            break
    return kept


def kinds_of_done(before, org, own):
    if org.lines[0] == before.lines[0] and re.match(r"\*+ DONE ", before.lines[0]):
        own.lines = org.lines
        return ["again"]
    kinds = kinds_of_clock_out(org, own)
    if any(line.startswith("#+begin") for line in own.lines) and any("LAST_REPEAT" in line for line in own.lines) and not any("LAST_REPEAT" in line for line in org.lines):
        kinds.append("shown")
        own.lines = without_last_repeat(own.lines)
    is_done_once = own.lines[0] != before.lines[0] and re.match(r"\*+ +DONE ", own.lines[0]) and own.lines[1:] == before.lines[1:]
    if org.lines[0] == before.lines[0] and is_done_once and re.search(r"<[^>\n]* [.+]?\+\d+[hdwmy]", "\n".join(before.lines[1:])):
        own.lines = org.lines
        return ["comes"]
    if org.lines[0] == before.lines[0] and not re.match(r"\*+ +(TODO|DONE) ", org.lines[0]) and own.lines[0] == re.sub(r"^(\*+ +)", r"\1TODO ", org.lines[0]):
        kinds.append("none")
        own.lines[0] = org.lines[0]
    if len(own.lines) > 1 and is_planning(own.lines[1]) and org.lines[1:2] != own.lines[1:2]:
        was_planning = len(org.lines) > 1 and PAIR.search(org.lines[1]) and len(org.lines) == len(own.lines)
        more = differing_completions(Planning(org.lines[1] if was_planning else ""), Planning(own.lines[1]))
        if more is None:
            return None
        kinds += more
        own.lines[1:2] = org.lines[1:2] if was_planning else []
    dated = lambda line: re.sub(r"<\d{4}-\d\d-\d\d \w+| --\d+[hdwmy]", "<", line).replace("<", "")
    if org.lines[2:] != own.lines[2:] and [dated(a) for a in org.lines] == [dated(b) for b in own.lines]:
        kinds.append("plain")
        own.lines = org.lines
    return kinds


def is_done(line):
    return bool(re.match(r"\*+ +(DONE|CANCELED|Ö|VERYLONGDONEWORD) ", line))


def kinds_of_set(word, before, org, own):
    """The kinds by which two sections differ whose heading got a keyword, with what is logged of it, or None."""
    if is_done(before.lines[0]) and is_done(f"* {word} ") and len(before.lines) > 1 and re.search(r"<[^>\n]* [.+]?\+\d+[hdwmy]", before.lines[1]):
        own.lines = org.lines
        return ["again"]
    kinds = []
    stripped = lambda lines: sorted(line.strip() for line in lines)
    if len(before.lines) < 3 and not before.back and not before.ended and stripped(org.lines) == stripped(own.lines) and org.lines != own.lines:
        own.lines = org.lines
        return ["bottom"]
    unquoted = [line.replace('from ""', "from   ") for line in org.lines]
    if unquoted != org.lines and unquoted[1:] != own.lines[1:] and [line.replace('from ""', "from   ") for line in own.lines] == own.lines:
        kinds.append("quoted")
        org.lines = unquoted
    elif unquoted != org.lines and own.lines[1:] == unquoted[1:]:
        kinds.append("quoted")
        org.lines = unquoted
    if org.lines[0] != own.lines[0] and re.match(r"\*+ (A|TODO) ", org.lines[0]) and re.sub(r" (A|TODO) ", " ", org.lines[0], 1) == re.sub(r" (A|TODO) ", " ", own.lines[0], 1):
        kinds.append("sequence")
        own.lines[0] = org.lines[0]
    if org.lines[0] != own.lines[0] and own.lines[0] == re.sub(r"^(\*+ +)", r"\1" + own.lines[0].split()[1] + " ", org.lines[0]):
        kinds.append("none")
        own.lines[0] = org.lines[0]
    if org.lines[1:2] != own.lines[1:2] and all(len(entry.lines) > 1 and is_planning(entry.lines[1]) for entry in (org, own)):
        more = differing_completions(Planning(org.lines[1]), Planning(own.lines[1]))
        if more is None:
            return None
        kinds += more
        own.lines[1] = org.lines[1]
    return kinds if org.lines == own.lines else kinds + kinds_of_place(before, org, own)


def kinds_of_place(before, org, own):
    """The kinds by which two sections differ that have the same log lines, and the same other ones, in other places."""
    is_drawer = lambda line: re.match(r":[A-Z]+:$", line)
    plain = lambda lines: sorted(line.strip() for line in lines[1:] if line.strip() and not is_drawer(line.strip()))
    if org.lines[0] != own.lines[0] or plain(org.lines) != plain(own.lines):
        return []
    first = (before.front + before.lines)[0]
    if any("#+begin" in line for line in before.lines):
        kinds = ["block"]
    elif first.startswith("* ") and "LOG" in "".join(before.front[1:9]):
        kinds = ["top"]
    else:
        return []
    own.lines = org.lines
    return kinds


def kinds_of_line(act, before, org, own):
    """The kinds by which two sections differ whose heading line alone was to change."""
    if org.lines[1:] != own.lines[1:]:
        return []
    first, second, was = (entry.lines[0] for entry in (org, own, before))
    spaced = lambda line: re.sub(r"[ \t]+(:\S+:)[ \t]*$", r" \1", line.rstrip("\r"))
    bare = lambda line: re.sub(r"\s+", " ", re.sub(r"\[#[A-Z0-9]+\] ?", "", line))
    tests = {
        "aligned": act in ("tag", "priority") and second == was and spaced(first) == spaced(second),
        "cookie": act == "priority" and re.search(r"\w \[#[A-Z0-9]+\] \w", was) and bare(first) == bare(second),
        "filled": act == "priority" and "\t:" in first and spaced(first) == spaced(second),
        "tab": re.match(r"\*+ [A-ZÖ]+\t", was) and bare(first.replace("TODO", "")) == bare(second.replace("TODO", "")),
        "comment": act == "none" and re.sub(r"(COMMENT)\s+", r"\1 ", first) == re.sub(r"(COMMENT)\s+", r"\1 ", second),
        "stars": act == "none" and second == was and re.sub(r"^(\*+)\s+", r"\1 ", first) == re.sub(r"^(\*+)\s+", r"\1 ", second),
    }
    own.lines[0] = first
    return [kind for kind, holds in tests.items() if holds][:1] or None


def kinds_of_property(word, org, own):
    """The kinds by which two sections differ whose heading got a property, or lost it."""
    name = word.partition("=")[0]
    own_line = re.compile(rf"[ \t]*:{re.escape(name)}\+?:", re.IGNORECASE)
    found = [k for k, line in enumerate(org.lines) if own_line.match(line)]
    plain = lambda lines: [re.sub(r":\s+", ": ", line).lower() for line in lines]
    kept = [line for k, line in enumerate(org.lines) if k not in found[1:]]
    if kept != org.lines and plain(kept) == plain(own.lines):
        own.lines = org.lines
        return ["plus"]
    return []


def kinds_of_note(before, org, own):
    """The kinds by which two sections differ that got a note."""
    stripped = lambda lines: sorted(line.strip() for line in lines)
    if not before.back and not before.ended and stripped(org.lines) == stripped(own.lines) and org.lines != own.lines:
        own.lines = org.lines
        return ["bottom"]
    return kinds_of_place(before, org, own)


def without_empty_drawers(lines):
    kept = []
    for line in lines:
        if line.strip() == ":END:" and kept and kept[-1].strip().lower() == ":logbook:":
            kept.pop()
        else:
            kept.append(line)
    return kept


def kinds_of_log(act, date, before, org, own):
    """The same where what Org logs is logged."""
    kinds = []
    if any(re.match(r"[ \t]*CLOCK: \[[^]]*\]\r?$", line) for line in before.lines):
        bare = without_empty_drawers(own.back)
        if bare != own.back and without_empty_drawers(org.back) == bare:
            kinds.append("empty")
            own.back = org.back
    if act != "set" and any("#+begin" in line for line in before.lines) and org.lines[2:] != own.lines[2:]:
        plain = lambda lines: sorted(line.strip() for line in lines[2:] if line.strip() and not re.match(r":[A-Z]+:$", line.strip()))
        if plain(org.lines) == plain(own.lines):
            kinds.append("block")
            own.lines[2:] = org.lines[2:]
    more = kinds_of(act, date, before, org, own)
    return None if more is None else kinds + more


def kinds_of(act, date, before, org, own):
    """The kinds by which two texts differ, or None where they differ otherwise."""
    if act.startswith("log-"):
        return kinds_of_log(act.removeprefix("log-"), date, before, org, own)
    keyword = {"schedule": "SCHEDULED", "deadline": "DEADLINE"}.get(act)
    kinds = []
    if org.ended != own.ended:
        kinds.append("end")
        own.ended = org.ended
        for lines, others in ((own.back, org.back), (own.lines, org.lines)):
            # A carriage return is of the line feed that one of them lacks.
            if lines and others:
                lines[-1] = lines[-1].rstrip("\r") + ("\r" if others[-1].endswith("\r") else "")
                break
    if org.key() == own.key():
        return kinds
    if keyword and date == "none":
        more = kinds_of_none(keyword, before, org, own)
    elif keyword:
        more = kinds_of_date(keyword, date, org, own)
    elif act == "done":
        more = kinds_of_done(before, org, own)
    elif act == "set":
        more = kinds_of_set(date, before, org, own)
    elif act in ("tag", "priority", "none"):
        more = kinds_of_line(act, before, org, own)
    elif act == "property":
        more = kinds_of_property(date, org, own)
    elif act == "note":
        more = kinds_of_note(before, org, own)
    else:
        more = {"in": kinds_of_clock_in, "out": kinds_of_clock_out}.get(act, lambda org, own: [])(org, own)
    return kinds + more if more is not None and org.key() == own.key() else None


def said(folder, case, org, own):
    with open(f"{folder}/org.txt", "w", encoding="utf-8", newline="") as file:
        file.write(org)
    with open(f"{folder}/own.txt", "w", encoding="utf-8", newline="") as file:
        file.write(own)
    return os.popen(f"diff {folder}/org.txt {folder}/own.txt").read()


def main():
    folder, manual = sys.argv[1:3]
    rows = read(manual)
    counts, found, errors, failed, passed = {}, {}, [], 0, 0
    for row in read(f"{folder}/acts").splitlines():
        case, name, line, act, date = row.split("\t")[:5]
        if not os.path.exists(f"{folder}/orgq/{case}.status"):
            continue
        before, org, own = (read(path) for path in (f"{folder}/files/{name}", f"{folder}/emacs/{case}.org", f"{folder}/orgq/{case}.org"))
        status = read(f"{folder}/orgq/{case}.status").strip()
        if org.startswith("error: "):
            errors.append(f"{name}:{line} {act} {date}, {org.strip()}")
            continue
        same, all_of = counts.get(act, (0, 0))
        counts[act] = (same + (org == own), all_of + 1)
        is_refused = status == "2" and own == before and "would be read as something else" in read(f"{folder}/orgq/{case}.said")
        kinds = [] if org == own else kinds_of(act, date, *(Entry(text, int(line)) for text in (before, org, own)))
        if is_refused and act.removeprefix("log-") in ("schedule", "deadline"):
            kinds, status = ["refused"], "0"
        for kind in kinds or []:
            found[kind] = found.get(kind, 0) + 1
        if kinds is None or status != "0":
            failed += 1
            if failed <= 20:
                print(f"acts: {name}:{line} {act} {date}, status {status}: otherwise than in Org\n{said(folder, case, org, own)}")
        else:
            passed += 1
    for act, (same, all_of) in counts.items():
        print(f"acts: {act}: {same} of {all_of} the same to the byte")
    print("\n".join(f"acts: ends in Org with an error, and isn't compared: {said}" for said in errors))
    failed += len(errors) * 100 > passed
    for kind, count in sorted(found.items()):
        print(f"acts: {count} times {KINDS[kind]}")
        if KINDS[kind] not in rows:
            failed += 1
            print(f"acts: {manual} has no row with the words: {KINDS[kind]}")
    for kind in KINDS.keys() - found.keys() if KINDS_OF_ACTS <= counts.keys() else []:
        failed += 1
        print(f"acts: these files show nothing of: {KINDS[kind]}")
    print(f"acts: {passed} passed, {failed} failed")
    sys.exit(failed > 0 or passed == 0)


if __name__ == "__main__":
    main()
