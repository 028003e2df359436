#!/usr/bin/env python3
# SPDX-License-Identifier: Apache-2.0 OR MIT
"""Draws what worked cases of `orgq` write to a terminal as pictures, docs/NAME.svg: each sign in its cell, in the colours of a dark
terminal or, where who looks prefers it, of a light one. The pictures are of SCREENS, each of one case of tests/orgq.

    tests/screens.py          writes them
    tests/screens.py check    writes nothing; says which isn't as it would be written; the last line counts
"""
import html
import os
import re
import sys
import unicodedata

ROOT = os.path.dirname(os.path.dirname(os.path.abspath(__file__)))
# The pictures: the case of tests/orgq that each shows, and what stands above it as the command that was typed.
SCREENS = {
    "screen-day": ("screen-day", "orgq -f ~/org"),
    "screen-month": ("screen-month", "orgq calendar 2024-03"),
}
# (a line is as high as the signs of frames, so that these meet)
CELL, LINE, SIZE, MARGIN = 8.43, 16.3, 14, 14
# The colours of a terminal: what is behind, plain words, and those of the numbers that `orgq` writes.
DARK = {"back": "#171421", "plain": "#d0cfcc", "31": "#f66151", "32": "#33da7a", "33": "#e9ad0c", "34": "#6ea8fe", "35": "#dc8add", "36": "#33c7de"}
LIGHT = {"back": "#ffffff", "plain": "#241f31", "31": "#c01c28", "32": "#1a7f4b", "33": "#9a6700", "34": "#1a5fb4", "35": "#813d9c", "36": "#0b7285"}
SEQUENCE = re.compile(r"\x1b\[([0-9;]*)m")
# Signs of a run that stand together: there is at most one space between two of them.
PART = re.compile(r"\S+(?: \S+)*")


def width(sign):
    """Returns how many cells a sign takes."""
    if unicodedata.combining(sign) or unicodedata.category(sign) == "Cf":
        return 0
    return 2 if unicodedata.east_asian_width(sign) in "WF" else 1


def runs(line):
    """Gives the runs of a line that look alike: the cell in which each begins, its words and the classes of its look."""
    at, look, last = 0, [], 0
    for found in [*SEQUENCE.finditer(line), None]:
        words = line[last : found.start() if found else len(line)]
        if words:
            yield at, words, look
            at += sum(map(width, words))
        if found:
            last = found.end()
            look = changed(look, found[1])


def changed(look, codes):
    """Returns a look after a sequence: the numbers that count, the bright colours as the plain ones."""
    for code in codes.split(";"):
        if code in ("", "0"):
            look = []
        elif code in ("1", "2", "7"):
            look = [*look, {"1": "bold", "2": "dim", "7": "turned"}[code]]
        else:
            plain = f"3{code[1:]}" if re.fullmatch("9[1-6]", code) else code
            if plain not in DARK:
                sys.exit(f"screens: no picture has the colour {code}")
            look = [*(it for it in look if not it.startswith("c")), f"c{plain}"]
    return look


def colours(of, then=""):
    """Returns the rules of style for the colours of a terminal."""
    rules = [f".back{{fill:{of['back']}}}", f"text{{fill:{of['plain']}}}", f".turned{{fill:{of['back']}}}", f".block{{fill:{of['plain']}}}"]
    rules += [f".c{code}{{fill:{colour}}}" for code, colour in of.items() if code.isdigit()]
    return "".join(rules) if not then else f"{then}{{{''.join(rules)}}}"


def picture(command, text):
    """Returns the picture of what a command wrote."""
    lines = [f"\x1b[2m$\x1b[0m \x1b[1m{command}\x1b[0m", *text.rstrip("\n").split("\n")]
    cells = max(sum(map(width, SEQUENCE.sub("", it))) for it in lines)
    wide, high = round(cells * CELL + 2 * MARGIN), len(lines) * LINE + 2 * MARGIN
    said = [
        f'<svg xmlns="http://www.w3.org/2000/svg" viewBox="0 0 {wide} {high}" width="{wide}" height="{high}" role="img">',
        f"<title>{html.escape(command)}, on a terminal</title>",
        f"<style>text{{font:{SIZE}px ui-monospace,'DejaVu Sans Mono',Menlo,Consolas,monospace}}.bold{{font-weight:bold}}.dim{{opacity:.6}}"
        f"{colours(DARK)}{colours(LIGHT, '@media (prefers-color-scheme:light)')}</style>",
        f'<rect class="back" width="{wide}" height="{high}" rx="8"/>',
    ]
    for number, line in enumerate(lines):
        base = MARGIN + number * LINE + SIZE
        for at, words, look in runs(line):
            if not words.strip() and "turned" not in look:
                continue
            if "turned" in look:
                size = sum(map(width, words)) * CELL
                said.append(f'<rect class="block" x="{MARGIN + at * CELL:.1f}" y="{base - SIZE + 1.5:.1f}" width="{size:.1f}" height="{LINE}"/>')
            kind = f' class="{" ".join(look)}"' if look else ""
            for found in PART.finditer(words):
                x = MARGIN + (at + sum(map(width, words[: found.start()]))) * CELL
                size = sum(map(width, found[0])) * CELL
                said.append(f'<text{kind} x="{x:.1f}" y="{base:.1f}" textLength="{size:.1f}">{html.escape(found[0])}</text>')
    return "\n".join([*said, "</svg>\n"])


def main():
    """Writes the pictures, or holds them against what would be written."""
    is_check = sys.argv[1:] == ["check"]
    failed = 0
    for name, (case, command) in SCREENS.items():
        with open(f"{ROOT}/tests/orgq/{case}.stdout", encoding="utf-8") as it:
            wanted = picture(command, it.read())
        path = f"{ROOT}/docs/{name}.svg"
        if not is_check:
            with open(path, "w", encoding="utf-8") as it:
                it.write(wanted)
        elif not os.path.exists(path) or open(path, encoding="utf-8").read() != wanted:
            failed += 1
            print(f"screens: docs/{name}.svg isn't what tests/screens.py makes of the case {case}")
    if is_check:
        print(f"screens: {len(SCREENS) - failed} passed, {failed} failed")
    return int(failed > 0)


if __name__ == "__main__":
    sys.exit(main())
