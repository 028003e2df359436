#!/usr/bin/env python3
"""Checks in a second that pages and contracts can be read: no sentence of README.md and docs/ has more than 45 words
outside tables and code, each file and each heading that these pages lead to is there, as is each section of a page's own that
"see" names, and no clause of a contract has more than 100 characters from its keyword to its brace. tests/prose.txt says how
many longer clauses a file has for now, a line each: CRATE/src/FILE.rt COUNT; no file may have more. Says what it finds; the last
line counts files.

    tests/prose.py            everything
    tests/prose.py FILE.md    the sentences and links of these pages alone
    tests/prose.py clauses    each clause that is too long
    tests/prose.py list       writes tests/prose.txt as the clauses are now
"""
import glob
import os
import re
import sys

MOST_WORDS = 45
MOST_CHARACTERS = 100
LIST = "tests/prose.txt"
ROOT = os.path.dirname(os.path.dirname(os.path.abspath(__file__)))
# Words that end in a point and end no sentence.
SHORT = re.compile(r"\b(e\.g|i\.e|etc|cf|vs|Mr|No|\d+ d|Sched|In \d+ d)\.$")


def paragraphs(text):
    """The paragraphs and list items of a page outside code, tables and headings, each with the line on which it begins."""
    found, lines, begun, fenced, indented = [], [], 0, False, False

    def close():
        if lines:
            found.append((begun, " ".join(lines)))
            lines.clear()

    for number, line in enumerate(text.split("\n"), 1):
        if line.lstrip().startswith("```"):
            close()
            fenced = not fenced
            continue
        if fenced:
            continue
        bare = line.strip()
        if line.startswith("    ") and not lines:
            indented = True
        if not line.startswith("    "):
            indented = False
        if not bare or indented or bare.startswith(("|", "#", "<")):
            close()
            continue
        if re.match(r"([-*]|\d+\.) ", bare):
            close()
            bare = re.sub(r"^([-*]|\d+\.) ", "", bare)
        if not lines:
            begun = number
        lines.append(bare)
    close()
    return found


def sentences(paragraph):
    """The sentences of a paragraph: code counts as one word, and a point inside it ends nothing."""
    plain = re.sub(r"`[^`]*`", "code", paragraph)
    plain = re.sub(r"\]\([^)]*\)", "]", plain)
    parts, last = [], 0
    for end in re.finditer(r"[.?!][\"')*\]]*(?= |$)", plain):
        if not SHORT.search(plain[last : end.end()]):
            parts.append(plain[last : end.end()].strip())
            last = end.end()
    parts.append(plain[last:].strip())
    return [part for part in parts if part]


def words_of(sentence):
    return [word for word in sentence.split() if re.search(r"[A-Za-z0-9]", word)]


def long_sentences(path, text):
    said = []
    for line, paragraph in paragraphs(text):
        for sentence in sentences(paragraph):
            count = len(words_of(sentence))
            if count > MOST_WORDS:
                said.append(f"{path}:{line}: {count} words: {' '.join(words_of(sentence)[:9])} ..")
    return said


def anchor(heading):
    """A heading as a link names it."""
    return re.sub(r"[^\w -]", "", heading.lower()).replace(" ", "-")


def headings(text):
    """The headings of a page and its marks `<a id=..>`, as a link names them."""
    found = re.findall(r"^#+ (.*)$", text, re.M)
    anchors = set(re.findall(r'<a id="([\w-]+)"></a>', text))
    return anchors | {anchor(heading) for heading in found}


def missing_links(path, text):
    """What a page names and isn't there: links, sections of its own, and in backticks the files of this repository."""
    said = []
    here = os.path.dirname(path)
    for target, heading in re.findall(r"\]\(([^)#]*)#?([^)]*)\)", text):
        whole = os.path.join(ROOT, here, target) if target else os.path.join(ROOT, path)
        if "://" in target:
            continue
        if not os.path.exists(whole):
            said.append(f"{path}: no file {target}")
        elif heading and heading not in headings(read(whole)):
            said.append(f"{path}: no heading {heading} in {target or path}")
    for section in re.findall(r"\b(?:see|under) \*([A-Z][^*\n|]*)\*", text):
        if anchor(section) not in headings(text):
            said.append(f"{path}: no section {section} of its own")
    for target in re.findall(r"`((?:docs|tests|crates|contrib|clients|bench)/[A-Za-z0-9_./-]+)`", text):
        made = "/out/" in target or target.endswith("/out")
        if not made and not os.path.exists(os.path.join(ROOT, target)):
            said.append(f"{path}: no file {target}")
    return said


def clauses(text):
    """Each clause of a file of code, with its line and its label, from the keyword to its brace."""
    for start in re.finditer(r"^[ \t]*(requires|ensures)\b([^{\n]*)\{", text, re.M):
        depth, at = 0, start.end() - 1
        while at < len(text):
            depth += {"{": 1, "}": -1}.get(text[at], 0)
            at += 1
            if depth == 0:
                break
        keyword = start.start(1)
        yield text.count("\n", 0, keyword) + 1, start.group(2).strip(), re.sub(r"\s+", " ", text[keyword:at])


def long_clauses(path):
    return [f"{path}:{line}: clause {label or '-'} has {len(clause)} characters" for line, label, clause in clauses(read(path))
            if len(clause) > MOST_CHARACTERS]


def sources():
    return sorted(glob.glob("crates/*/src/**/*.rt", recursive=True))


def allowed():
    """How many clauses of a file may be too long for now."""
    rows = [line.split() for line in read(LIST).split("\n") if line and not line.startswith("#")]
    return {f"crates/{path}": int(count) for path, count in rows}


def write_list():
    lines = ["# How many clauses of a file have more than 100 characters. None may come in; who mends one takes its number down."]
    for path in sources():
        count = len(long_clauses(path))
        if count:
            lines.append(f"{path.removeprefix('crates/')} {count}")
    with open(LIST, "w", encoding="utf-8") as file:
        file.write("\n".join(lines) + "\n")


def read(path):
    with open(os.path.join(ROOT, path), encoding="utf-8") as file:
        return file.read()


def main():
    os.chdir(ROOT)
    if sys.argv[1:] == ["list"]:
        return write_list()
    if sys.argv[1:] == ["clauses"]:
        return print("\n".join(said for path in sources() for said in long_clauses(path)))
    pages = sys.argv[1:] or ["README.md", *sorted(glob.glob("docs/*.md"))]
    found = [long_sentences(path, read(path)) + missing_links(path, read(path)) for path in pages]
    if not sys.argv[1:]:
        most = allowed()
        for path in sources():
            said = long_clauses(path)
            found.append(said if len(said) > most.get(path, 0) else [])
    for said in filter(None, found):
        print("\n".join(said))
    failed = sum(1 for said in found if said)
    print(f"prose: {len(found) - failed} passed, {failed} failed")
    sys.exit(failed > 0 or not found)


if __name__ == "__main__":
    main()
