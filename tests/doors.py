#!/usr/bin/env python3
"""Checks in a second that each crate can be entered by its first page: that it says what the crate does, shows it in lines
that are compiled, and names where its tests are. The lines stand between two fences, and as they are in the file that the
page names after "Lines of"; `// ..` stands for what is left out. The names after "Tests:" are files below crates/ or tests/. Crates of tests and programs need no lines. Says what is missing; the last line counts crates.

    tests/doors.py          checks all of it
    tests/doors.py renew    writes lines as they are now in their file, where names in them have changed
"""
import difflib
import glob
import os
import re
import sys

ROOT = os.path.dirname(os.path.dirname(os.path.abspath(__file__)))


def read(path):
    with open(os.path.join(ROOT, path), encoding="utf-8") as file:
        return file.read()


def first_page(folder):
    """The lines of a crate's first page without their marks, and whether the crate is a program."""
    is_program = os.path.exists(os.path.join(ROOT, folder, "src/main.rt"))
    lines = []
    for line in read(f"{folder}/src/{'main' if is_program else 'lib'}.rt").split("\n"):
        if line.startswith("//!"):
            lines.append(line[3:].removeprefix(" "))
        elif lines:
            break
    return lines, is_program


def shown(page):
    """The lines between fences, and all others joined."""
    code, prose, inside = [], [], False
    for line in page:
        if line.strip() == "```":
            inside = not inside
        elif inside:
            code.append(line.strip())
        else:
            prose.append(line)
    return [line for line in code if line], " ".join(prose)


def stretches(code):
    """The lines between one `// ..` and the next."""
    parts = [[]]
    for line in code:
        if line == "// ..":
            parts.append([])
        else:
            parts[-1].append(line)
    return [part for part in parts if part]


def stands(part, lines):
    return any(lines[k : k + len(part)] == part for k in range(len(lines)))


def first_missing(code, source):
    """The first line of a stretch that doesn't stand in the source as it is shown."""
    lines = [line.strip() for line in source.split("\n")]
    return next((part[0] for part in stretches(code) if not stands(part, lines)), None)


def renew(name):
    """Writes each stretch that isn't in its file as what is there most like it."""
    page, _ = first_page(f"crates/{name}")
    code, prose = shown(page)
    source = re.search(r"Lines of `([^`]+)`", prose)
    path = os.path.join(ROOT, f"crates/{name}/src/lib.rt")
    if not source or not is_there(source[1]) or not os.path.exists(path):
        return
    text = read(f"crates/{name}/src/lib.rt")
    lines = [line.strip() for line in read(f"crates/{source[1]}").split("\n")]
    for part in stretches(code):
        if stands(part, lines):
            continue
        likeness = lambda k: difflib.SequenceMatcher(None, "\n".join(part), "\n".join(lines[k : k + len(part)])).ratio()
        best = max(range(len(lines) - len(part) + 1), key=likeness)
        if likeness(best) < 0.6:
            continue
        for old, new in zip(part, lines[best : best + len(part)]):
            text = re.sub(rf"^(//! *){re.escape(old)}$", lambda found: found[1] + new, text, count=1, flags=re.M)
    with open(path, "w", encoding="utf-8") as file:
        file.write(text)


def is_there(name):
    return bool(glob.glob(os.path.join(ROOT, name)) or glob.glob(os.path.join(ROOT, "crates", name)))


def complaints(name):
    page, is_program = first_page(f"crates/{name}")
    code, prose = shown(page)
    said = []
    if len(re.findall(r"[.:](?: |$)", prose)) < 2:
        said.append("says what it does in less than two sentences")
    if is_program or name.endswith("tests"):
        return said
    source = re.search(r"Lines of `([^`]+)`", prose)
    if not code or not source:
        said.append("shows no lines of a file that is compiled")
    elif not is_there(source[1]):
        said.append(f"names {source[1]}, which isn't there")
    else:
        line = first_missing(code, read(f"crates/{source[1]}"))
        if line is not None:
            said.append(f"shows a line that isn't in {source[1]}: {line}")
    tests = re.search(r"Tests: (.*)$", prose)
    if not tests:
        said.append("doesn't say where its tests are")
    else:
        said += [f"names {path}, which isn't there" for path in re.findall(r"`([^`]+)`", tests[1]) if not is_there(path)]
    return said


def main():
    passed = failed = 0
    for line in read("crates.txt").split("\n"):
        name = line.split("#")[0].partition(":")[0].split()
        if not name:
            continue
        if sys.argv[1:] == ["renew"]:
            renew(name[0])
        said = complaints(name[0])
        for complaint in said:
            print(f"crates/{name[0]}: its first page {complaint}")
        failed += bool(said)
        passed += not said
    print(f"doors: {passed} passed, {failed} failed")
    sys.exit(failed > 0 or passed == 0)


if __name__ == "__main__":
    main()
