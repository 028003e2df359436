"""advice.py ORGQ: does what each sentence of `orgq check` says, and looks whether it helps.

Over the files of tests/check, and over the worked texts below, each finding's advice is applied to the text, that of one
finding at a time. Then the finding has to be gone, and no other may have come: of each kind there are no more than before,
and of the finding's own fewer. Each kind that there is has to be found somewhere. The last line counts."""
import json
import os
import re
import subprocess
import sys
import tempfile
from collections import Counter

HERE = os.path.dirname(os.path.abspath(__file__))
STAMP = "<2024-02-09 Fri>"

# What the files lack: kinds that are found only beside certain others.
MORE = {
    "front.org": "CLOSED: [2024-02-09 Fri]\n* TODO a\n",
    "words.org": "* TODO a\n<2024-02-09 10:00 Fri>\n=<2024-02-30>=\n: <2024-02-30>\n[2024-02-30]\n",
    "blank.org": "* TODO a\n:PROPERTIES:\n:A: b\n\n:C: d\n:END:\n* TODO b\n\nDEADLINE: <2024/03/01>\n",
    "end.org": "* a\n#+end_src\n",
    "clocks.org": "* a\nCLOCK: [2024-02-09 Fri 09:00]\n* b\nCLOCK: [2024-01-01 Mon 09:00]--[2024-01-01 Mon 09:00]\n",
}


def check(orgq, folder):
    """The findings of the files of a folder, as objects."""
    command = [orgq, "--no-config", "--at", "2024-02-09 12:00", "--json", "check", "--all", *sorted(os.listdir(folder))]
    done = subprocess.run(command, cwd=folder, capture_output=True)
    if done.returncode not in (0, 1) or done.stderr:
        sys.exit(f"advice: status {done.returncode}: {done.stderr.decode()}")
    return [json.loads(line) for line in done.stdout.decode("utf-8").splitlines()]


class Text:
    """The lines of a text, from 1, and the finding that is mended in it."""

    def __init__(self, data, finding):
        self.lines = [""] + data.decode("utf-8").split("\n")
        self.finding = finding
        self.at = finding["line"]
        self.other = finding.get("other_line")
        line = self.lines[self.at].encode()
        start = finding["column"] - 1
        self.before = line[:start].decode()
        self.found = line[start : start + finding["length"]].decode()
        self.after = line[start + finding["length"] :].decode()

    def bytes(self):
        return "\n".join(self.lines[1:]).encode()

    def put(self, text):
        """Writes a text in the place of what is found."""
        self.lines[self.at] = self.before + text + self.after

    def sub(self, pattern, by):
        mended, count = re.subn(pattern, by, self.found, count=1)
        if count == 0:
            sys.exit(f"advice: {self.finding}: {pattern!r} isn't in {self.found!r}")
        self.put(mended)

    def cut(self, line):
        return self.lines.pop(line)

    def add(self, line, text):
        self.lines.insert(line, text)

    def heading(self):
        """The line of the heading above, or 0."""
        line = self.at
        while line > 0 and not re.match(r"\*+ ", self.lines[line]):
            line -= 1
        return line

    def plan(self, text):
        """Writes planning where it belongs: at the end of the planning line, or directly under the heading."""
        heading = self.heading()
        if re.match(r"\s*(SCHEDULED|DEADLINE|CLOSED): [<\[]\d", self.lines[heading + 1]) and heading + 1 != self.at:
            self.lines[heading + 1] += " " + text
        else:
            self.add(heading + 1, text)

    def heading_after(self, line):
        """The first heading from a line on."""
        return self.end_of(line, r"\*+ ")

    def put_first(self):
        """Leaves the first stamp of a range."""
        self.lines[self.at] = re.sub(r"--<[^>]*>", "", self.lines[self.at])

    def put_no_word(self):
        """Takes planning away, with the word before it."""
        self.before = re.sub(r"\s*\w+:\s*$", "", self.before)
        self.put("")

    def end_of(self, line, pattern):
        while not re.match(pattern, self.lines[line], re.I):
            line += 1
        return line

    def keyword(self, word):
        """Adds a keyword to the first line that names some, or writes such a line."""
        for place in range(1, self.heading_after(1)):
            if self.lines[place].startswith("#+TODO: "):
                self.lines[place] = self.lines[place].replace("#+TODO: ", f"#+TODO: {word} ")
                return
        self.add(2, f"#+TODO: TODO {word} | DONE")


def stamp(text):
    """A timestamp in the place of one that is none, in brackets of its own kind."""
    text.put("[2024-02-09 Fri]" if text.found.startswith("[") else STAMP)


def moved(text, change=lambda line: line):
    """The line, directly under its heading or at the end of the planning line."""
    line = change(text.lines[text.at].strip())
    text.lines[text.at] = "\0"
    if text.heading() == 0:
        text.add(len(text.lines), "* moved")
        text.add(len(text.lines), line)
    else:
        text.plan(line)
    text.lines.remove("\0")


def without_stamp(text):
    moved(text, lambda line: re.match(r"\w+:", line)[0] + " " + STAMP) if text.other else text.put(text.found.split(":")[0] + ": " + STAMP)


def case(text):
    capitals = lambda line: re.sub(r"^\w+:", lambda word: word[0].upper(), line)
    moved(text, capitals) if text.other else text.put(capitals(text.found))


def unclosed(text):
    line = re.sub(r"^<(\d{4}-\d\d-\d\d)( \w{3}\b)?\]?", lambda it: f"<{it[1]}{it[2] or ''}>", text.found)
    text.put(line)


def near_planning(text):
    word = "SCHEDULED: " if text.found.startswith("SCHED") else "DEADLINE: "
    line = word + re.search(r"<.*>", text.found)[0]
    text.put("")
    text.plan(line)


def in_heading(text):
    text.plan(text.found)
    text.put("")


def drawer_stamp(text):
    text.put("")
    text.add(text.end_of(text.at, ":END:") + 1, text.found)


def block_stamp(text):
    line = text.cut(text.at)
    while not re.match(r"#\+begin", text.lines[text.at - 1], re.I):
        text.at -= 1
    text.add(text.at - 1, line)


def stray_drawer(text):
    end = text.end_of(text.at, ":END:")
    drawer = [text.cut(text.at) for _ in range(end - text.at + 1)]
    text.at -= 1
    place = text.heading()
    text.lines[place + 1 : place + 1] = drawer


def block(text):
    place = text.at + 1
    while not re.match(r"\*+ ", text.lines[place]):
        place += 1
    text.lines[place] = "," + text.lines[place]


def second_category(text):
    text.cut(text.at)
    text.add(text.heading_after(text.at) + 1, ":PROPERTIES:\n:CATEGORY: garden\n:END:")


def hidden(text):
    text.lines[text.other] = text.lines[text.other].replace("COMMENT ", "").replace(":ARCHIVE:", "")


def under_heading(text):
    line = text.cut(text.at)
    text.add(text.heading_after(1) + 1, "\n" + line)


def later(text):
    """A clock that begins when all others have ended."""
    text.put("CLOCK: [2024-02-08 Thu 09:00]--[2024-02-08 Thu 10:00]")


def swap(text):
    text.sub(r"(\S+ \w+ \S+)(--|-)(\S.*)", r"\3\2\1") if "--" in text.found else text.sub(r"(\d+:\d\d)-(\d+:\d\d)", r"\2-\1")


def swap_days(text):
    first, second = re.match(r"(<[^>]*>)--(<[^>]*>)", text.found).groups()
    text.put(second + "--" + first)


def drop(text):
    text.cut(text.at)


ADVICE = {
    "no-such-date": stamp,
    "no-such-time": lambda text: text.sub(r" \S+>$", " 9:30>"),
    "bad-repeater": lambda text: text.sub(r" \+.*>$", " +1w -3d>"),
    "short-date": lambda text: text.sub(r"\d+-\d+-\d+", "2024-02-09"),
    "unclosed-stamp": unclosed,
    "space-in-stamp": lambda text: text.put(re.sub(r"[^\x00-\x7f]", " ", text.found)),
    "unread-stamp": lambda text: text.put("<2024-02-09 Fri 10:00>"),
    "unread-inactive-stamp": stamp,
    "quoted-stamp": lambda text: text.put("a day"),
    "wrong-day-name": lambda text: text.put(STAMP),
    "reversed-range": swap_days,
    "reversed-times": swap,
    "range-with-repeater": lambda text: text.sub(r" \+\w+>", ">"),
    "zero-repeater": lambda text: text.sub(r" \+\w+>", ">"),
    "near-range": lambda text: text.sub(r">[^<]+<", ">--<"),
    "diary-sexp": lambda text: text.put(STAMP),
    "stamp-in-drawer": drawer_stamp,
    "stamp-in-block": block_stamp,
    "stamp-in-comment": lambda text: text.put("a day"),
    "stamp-in-example": lambda text: text.put("a day"),
    "stray-planning": moved,
    "planning-without-stamp": without_stamp,
    "planning-unread": lambda text: text.sub(r"<.*>", STAMP),
    "near-planning": near_planning,
    "hidden-planning": hidden,
    "planning-case": case,
    "inactive-planning": lambda text: text.put(text.found.replace("[", "<").replace("]", ">")),
    "planning-rest": lambda text: text.put(re.search(r"(SCHEDULED|DEADLINE).*", text.found)[0]),
    "repeated-planning": lambda text: text.put_no_word(),
    "planning-in-heading": in_heading,
    "planning-range": lambda text: text.put_first(),
    "repeater-on-done": lambda text: text.sub(r" \+\w+>", ">"),
    "stray-drawer": stray_drawer,
    "drawer-line": drop,
    "unclosed-drawer": lambda text: text.add(text.at + 2, ":END:"),
    "unread-effort": lambda text: text.put(":Effort: 2:00"),
    "repeated-property": lambda text: text.sub(r"^:(\w+):", r":\1+:"),
    "special-property": lambda text: text.sub(r"^:(\w+):", r":\1_OF_MINE:"),
    "unclosed-block": block,
    "stray-block-end": drop,
    "setting-in-block": lambda text: text.put("a setting"),
    "byte-order-mark": lambda text: text.put(""),
    "setting-without-colon": lambda text: text.sub(r"^(\S+)", r"\1:"),
    "second-category": second_category,
    "comma-in-keywords": lambda text: text.put(text.found.replace(",", " ")),
    "missing-bar": lambda text: text.put(text.found + " | DONE"),
    "unread-setting": lambda text: text.put("#+TODO: TODO | DONE"),
    "keyword-of-other-file": lambda text: text.keyword(text.found),
    "missing-keyword": lambda text: text.keyword(text.found),
    "near-keyword": lambda text: text.put(text.found.rstrip(":").upper()),
    "word-in-capitals": lambda text: text.keyword(text.found),
    "odd-space": lambda text: text.put(" "),
    "heading-without-space": lambda text: text.sub(r"^(\*+)", r"\1 "),
    "indented-heading": lambda text: setattr(text, "before", "") or text.put(text.found),
    "keyword-after-cookie": lambda text: setattr(text, "before", text.before.replace("* ", f"* {text.found} ", 1)) or text.put(""),
    "unread-priority": lambda text: text.put("[#A]"),
    "unread-tags": lambda text: text.put(text.found.replace("-", "_")),
    "unread-clock": later,
    "clock-case": lambda text: text.sub(r"^clock:", "CLOCK:"),
    "clock-in-list": lambda text: text.sub(r"^. CLOCK: \S.*", "CLOCK: [2024-02-08 Thu 07:00]--[2024-02-08 Thu 08:00]"),
    "running-clock": later,
    "open-clock": later,
    "reversed-clock": lambda text: text.sub(r"(\[.*\])--(\[.*\])", r"\2--\1"),
    "empty-clock": later,
    "overlapping-clocks": later,
    "clock-before-headings": under_heading,
}


def mend(orgq, files, name, finding):
    """What is wrong with the advice of a finding, or nothing."""
    advice = ADVICE.get(finding["kind"])
    if advice is None:
        return "nothing is known of its advice"
    text = Text(files[name], finding)
    advice(text)
    with tempfile.TemporaryDirectory() as folder:
        for other, data in files.items():
            with open(os.path.join(folder, other), "wb") as out:
                out.write(text.bytes() if other == name else data)
        after = Counter(it["kind"] for it in check(orgq, folder))
    before = Counter(it["kind"] for it in ALL)
    if after[finding["kind"]] >= before[finding["kind"]]:
        return "it is found still"
    for kind, count in after.items():
        if count > before[kind]:
            return f"it brings {kind}"
    return None


def all_kinds(orgq):
    """All kinds that there are, as the refusal of another one lists them."""
    done = subprocess.run([orgq, "--no-config", "check", "--only", "x"], capture_output=True, text=True)
    return set(done.stderr.split("there are ")[1].strip().split(", "))


def sets():
    """The sets of files that are checked together."""
    folder = os.path.join(HERE, "check")
    read = lambda name: open(os.path.join(folder, name), "rb").read()
    yield {name: read(name) for name in ("kinds.org", "other.org")}
    for name in ("near.org", "planning.org"):
        yield {name: read(name)}
    for name, text in MORE.items():
        yield {name: text.encode()}


def main():
    global ALL
    orgq = os.path.abspath(sys.argv[1])
    passed = failed = 0
    kinds = set()
    for files in sets():
        with tempfile.TemporaryDirectory() as folder:
            for name, data in files.items():
                with open(os.path.join(folder, name), "wb") as out:
                    out.write(data)
            ALL = check(orgq, folder)
        for finding in ALL:
            kinds.add(finding["kind"])
            wrong = mend(orgq, files, finding["file"], finding)
            if wrong is None:
                passed += 1
            else:
                failed += 1
                print(f"advice: {finding['file']}:{finding['line']}: {finding['kind']}: {wrong}: {finding['text']}")
    for kind in sorted(all_kinds(orgq) - kinds):
        failed += 1
        print(f"advice: {kind} isn't found in any text")
    print(f"advice: {passed} passed, {failed} failed")
    sys.exit(1 if failed else 0)


main()
