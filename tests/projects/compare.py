#!/usr/bin/env python3
"""Compares which projects are stuck and which tasks are blocked, to Emacs and to `orgq projects`. A project that Emacs alone doesn't
call stuck has a hidden heading below, as docs/using.md says in a row; a blocked task that Emacs alone has is hidden itself. All
else has to be the same.

    compare.py EMACS.FOUND ORGQ SETTINGS MANUAL FILE..
"""
import re
import subprocess
import sys

ROW = "keep a project from being stuck"


def headings(path):
    """Of each heading by FILE:LINE whether it is hidden, and whether one below it is, itself with them."""
    found, above = {}, []
    with open(path, encoding="utf-8") as file:
        for number, line in enumerate(file, 1):
            head = re.match(r"(\*+) (?:(?:TODO|NEXT|WAIT|DONE|CANCELLED) )?(.*)", line)
            if not head:
                continue
            level = len(head[1])
            above = [other for other in above if other["level"] < level]
            hides = head[2].startswith("COMMENT ") or line.rstrip().endswith(":ARCHIVE:")
            own = {"level": level, "hidden": hides or any(other["hidden"] for other in above), "hides": False}
            above.append(own)
            if hides:
                for other in above:
                    other["hides"] = True
            found[f"{path}:{number}"] = own
    return found


def asked(orgq, files, options, command):
    called = [orgq, "--no-config", "-n", *options]
    for file in files:
        called += ["-f", file]
    said = subprocess.run(called + command, capture_output=True, text=True, check=False)
    if said.returncode not in (0, 1):
        sys.exit(f"projects: {said.stderr}")
    return set(re.findall(r"^([^:\n]+:\d+):  ", said.stdout, re.M))


def main():
    emacs, orgq, settings, manual, files = sys.argv[1], sys.argv[2], sys.argv[3], sys.argv[4], sys.argv[5:]
    there, about = {}, {}
    for file in files:
        about.update(headings(file))
    with open(emacs, encoding="utf-8") as file:
        for line in file:
            number, place = line.rstrip("\n").split("\t")
            there.setdefault(int(number), set()).add(place)
    passed, failed, rows, differences = 0, 0, 0, 0

    def judge(holds, why):
        nonlocal passed, failed
        if holds:
            passed += 1
        else:
            failed += 1
            print(f"projects: {why}")

    with open(settings, encoding="utf-8") as file:
        lines = file.read().splitlines()
    for number, line in enumerate(lines, 1):
        setting, project, action = line.split("\t")
        options = [f"--project={project}", f"--next-action={action}"]
        here, theirs = asked(orgq, files, options, ["projects", "--stuck"]), there.get(number, set())
        rows += len(theirs)
        differences += len(here - theirs)
        judge(not theirs - here, f"{setting}: stuck to Emacs alone: {sorted(theirs - here)}")
        other = [place for place in sorted(here - theirs) if not about[place]["hides"]]
        judge(not other, f"{setting}: stuck to orgq alone: {other}")
    here, theirs = asked(orgq, files, [], ["projects", "--blocked"]), there.get(0, set())
    shown = {place for place in theirs if not about[place]["hidden"]}
    rows += len(shown)
    judge(here == shown, f"blocked: Emacs alone {sorted(shown - here)}, orgq alone {sorted(here - shown)}")
    judge(theirs != shown, "no hidden task is blocked")
    judge(differences > 0, "no hidden heading keeps a project going")
    with open(manual, encoding="utf-8") as file:
        judge(ROW in file.read(), f"docs/using.md has no row with: {ROW}")
    judge(rows > 100, "hardly a heading is found")
    print(f"projects: {len(lines)} settings, {rows} headings")
    print(f"projects: {passed} passed, {failed} failed")
    sys.exit(1 if failed else 0)


main()
