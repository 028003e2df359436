#!/usr/bin/env python3
"""What a reader of the headline has to believe: the definitions that the contract of `run` of org_wire names, those that these
name, and so on, in crates/*/specs/*.antt.

    tests/reading.py                 writes them into docs/out/reading.html: by chapter, each behind all that it names, with its
                                     comment and a link to its laws, which are in docs/out/laws.html; says the numbers
    tests/reading.py fold            writes the crate org_reading, which proves what the page shows folded (tests/folded.py)
    tests/reading.py count [FUNCTION FILE.rt]   the numbers alone; of the contract of another function, as `day_rows
                                     crates/org_agenda/src/days.rt`
    tests/reading.py list  [FUNCTION FILE.rt]   each definition with its lines and its file, in the order in which it is reached
    tests/reading.py ties            each law with the kind of its tie
    tests/reading.py check           writes the page and tries it: that it holds every definition that tests/reached.sh names, each
                                     behind what it names, no word for two things, in no more lines than are allowed; that what is
                                     folded is what is proved; that the laws of tests/shown/laws.md are there, and that
                                     docs/definitions.md calls no other `both`

A definition counts with the comment above it and its clauses, without blank lines and imports. A name is another definition
where its file defines or imports it, also through a `pub use`, and it is no variable of the definition that names it. Types and
constants that the code declares are counted by themselves; what std defines isn't counted.

A law ties both ways if it says exactly when the definition gives what: tests/shown/laws.md names these laws, and the definitions
that each settles whole. All other laws tie one way. A definition that a law settles may be skipped: whoever reads the law's side
instead loses nothing, since that the two are the same is proved.
"""
import glob
import html
import os
import re
import subprocess
import sys
from collections import Counter
from itertools import groupby

import folded

ROOT = os.path.dirname(os.path.dirname(os.path.abspath(__file__)))
PAGE = "docs/out/reading.html"
LAWS = "docs/out/laws.html"
HEADLINE = "run"
MOST_LINES, MOST_BARE = 3000, 1600

WORD = re.compile(r"(?<![.\w])[A-Za-z_]\w*(?:\.[A-Za-z_]\w*)*")
HEAD = re.compile(r"(?:(?:abbrev|unfoldable|opaque|pub|data|record) )+")
ITEM = re.compile(r"\s*(?:pub(?:\([a-z]+\))? )?(?:unsafe )?(struct|enum|const|trait) ([A-Z]\w*)")


def read(path):
    with open(os.path.join(ROOT, path), encoding="utf-8") as file:
        return file.read()


def without_strings(line):
    return re.sub(r'"(?:\\.|[^"\\])*"', '""', line)


class Definition:
    """A definition, or a type or constant that the code declares: its comment, its lines, and what it names."""

    def __init__(self, key, path, line, comment, module=""):
        self.key, self.path, self.line = key, path, line
        self.comment, self.body, self.words, self.bound = comment, [], [], set()
        self.module = module

    name = property(lambda self: self.key[-1])
    crate = property(lambda self: self.key[0])
    size = property(lambda self: len(self.comment) + len(self.body))

    def say(self, line):
        """Notes the words of a line, but for the fields that a record's value names."""
        line = re.sub(r"(^ +|[{;] *)[a-z]\w* = ", r"\1", without_strings(line))
        self.words += WORD.findall(line)

    def bind(self, text):
        self.bound |= {word for word in re.split(r"\W+", text) if re.match(r"[a-z_]", word)}

    def binders(self, line, is_clause):
        """Names before a colon in parentheses or braces, those after a λ, and the variables of a clause."""
        for found in re.finditer(r"[({]([a-z]\w*(?: \w+)*) : ", line):
            self.bind(found[1])
        for found in re.finditer(r"λ ([^.]*)\.", line):
            self.bind(found[1])
        if is_clause:
            found = re.match(r"\w+ ([^=]*)=", line)
            if found:
                self.bind(found[1])


class Specs:
    """All definitions, what each file imports, and all that the code declares."""

    def __init__(self):
        self.definitions, self.made_by, self.names, self.aliases, self.passed_on = {}, {}, {}, {}, {}
        self.code, self.kit = {}, {}
        for path in sorted(glob.glob(os.path.join(ROOT, "crates/*/specs/*.antt"))):
            self.read_specs(os.path.relpath(path, ROOT))
        for path in sorted(glob.glob(os.path.join(ROOT, "crates/*/src/**/*.rt"), recursive=True)):
            self.read_code(os.path.relpath(path, ROOT))

    def imports(self, line, into):
        """Notes what an import names: definitions as (crate, FILE, name), and of the code as (crate, module, NAME)."""
        found = re.search(r"Rattle\.(org\w*|orgq|orgviews)\.specs\.([\w.]+?)(?:\.\{([^}]*)\}| as (\w+))?;?\s*$", line)
        if not found:
            found = re.search(r"Rattle\.(\w+)\.specs\.([\w.]+)\.\{([^}]*)\}", line)
            for name in re.split(r", *", found[3]) if found else []:
                name, _, other = name.partition(" as ")
                if re.match(r"\w", name) and "Prelude" not in found[2]:
                    self.kit[into, other or name] = (found[1], found[2], name)
            return
        crate, path, names, alias = found[1], found[2].rstrip(".").split("."), found[3], found[4]
        if path[0] == "declared":
            parts = [part for part in path[1:] if part not in ("TheVariants", "TheConstants")]
            target = (crate, "/".join(parts[:-1]), parts[-1]) if "TheConstants" not in path else None
            if alias and target:
                self.names[into, alias] = target
            for name in re.split(r", *", names or ""):
                name, _, other = name.partition(" as ")
                self.names[into, other or name] = target or (crate, "/".join(parts), name)
            return
        if alias:
            self.aliases[into, alias] = (crate, path[0])
        for name in re.split(r", *", names or ""):
            name, _, other = name.partition(" as ")
            self.names[into, other or name] = (crate, path[0], name)
            if line.startswith("pub use"):
                self.passed_on[into + (other or name,)] = (crate, path[0], name)

    def read_specs(self, path):
        place = path.split("/")
        into = (place[1], place[3].removesuffix(".antt"))
        comment, current, module, kind = [], None, "", ""
        for number, line in enumerate(read(path).split("\n"), 1):
            if line.startswith("module "):
                module, comment = line, comment + [line]
                continue
            if module and re.match(r"\S", line):
                module = ""
            if module:
                line = line.removeprefix("  ")
            if re.match(r"(pub )?use ", line):
                self.imports(line, into)
            elif line.startswith("--"):
                comment, current = comment + [line], None
            elif not line.strip():
                comment, current = [], None
            elif line.startswith("pub mod "):
                continue
            elif HEAD.match(line):
                rest = line[HEAD.match(line).end() :]
                name = re.match(r"\w+", rest)[0]
                kind = "data" if "data " in line[: -len(rest)] else "record" if "record " in line[: -len(rest)] else ""
                current = Definition(into + (name,), path, number - len(comment), comment, module)
                self.definitions[current.key] = current
                comment = []
                current.body.append(line)
                current.binders(rest, False)
                if module:
                    current.binders(module, False)
                    current.say(module)
                current.say(rest[len(name) :])
            elif current:
                current.body.append(line)
                made = re.match(r" +([A-Z]\w*) *:", line) if kind == "data" else None
                if made:
                    self.made_by[into + (made[1],)] = current.key
                    line = line[made.end() - 1 :]
                if kind == "record":
                    line = re.sub(r"^ +pub \w+ :", " :", line)
                current.binders(line, bool(re.match(r"[A-Za-z_]", line)))
                current.say(line)

    def read_code(self, path):
        place = path.split("/")
        into = (place[1], "/".join(place[3:]).removesuffix(".rt"))
        comment, current = [], None
        for number, line in enumerate(read(path).split("\n"), 1):
            if current:
                current.body.append(line)
                current.say(re.sub(r"//.*", "", line))
                if line.startswith("}") or (len(current.body) == 1 or not current.body[0].rstrip().endswith("{")) and line.endswith(";"):
                    current = None
                continue
            found = ITEM.match(line)
            if found and not line.startswith("    "):
                current = Definition(into + (found[2],), path, number - len(comment), comment)
                self.code[current.key] = current
                current.body.append(line)
                current.say(line[found.end() :])
                if line.endswith((";", "}")):
                    current = None
                comment = []
            elif re.match(r"\s*(///|#\[)", line):
                comment = comment + [line]
            else:
                comment = []
            if re.match(r"use ", line):
                for name in re.findall(r"[A-Z]\w*", line.partition("use ")[2]):
                    crate = re.match(r"use (crate|org\w+)", line)
                    if crate:
                        self.names.setdefault((into, name), (into[0] if crate[1] == "crate" else crate[1], None, name))

    def resolve(self, into, word, bound):
        """The key of the definition, or of what the code declares, for which a word stands in a file; None if for neither."""
        head, _, rest = word.partition(".")
        if head in bound:
            return None
        if (into, head) in self.aliases and rest:
            target = self.aliases[into, head] + (rest.split(".")[0],)
        elif (into, head) in self.names:
            target = self.names[into, head]
        else:
            target = into + (head,)
        while target in self.passed_on:
            target = self.passed_on[target]
        target = self.made_by.get(target, target)
        if target[1] is None:
            same = [key for key in self.code if key[0] == target[0] and key[2] == target[2]]
            return same[0] if same else None
        return target if target in self.definitions or target in self.code else None

    def get(self, key):
        return self.definitions.get(key) or self.code[key]

    def named(self, key):
        """What a definition names, in its order, each once."""
        item = self.get(key)
        found = (self.resolve(key[:2], word, item.bound) for word in item.words)
        return [target for target in dict.fromkeys(found) if target and target != key]

    def of_kit(self, keys):
        """What some definitions name of the kit's libraries, but for the words that every file has: (library, FILE, name)."""
        found = {self.kit[key[:2], word] for key in keys for word in self.get(key).words
                 if (key[:2], word) in self.kit and word not in self.get(key).bound}
        return sorted(found)

    def reached(self, first, cut=()):
        """All that is reached from some keys, in the order in which it is, without going on from those that are cut."""
        seen = dict.fromkeys(first)
        queue = list(seen)
        for key in queue:
            if key in cut:
                continue
            for target in self.named(key):
                if target not in seen:
                    seen[target] = None
                    queue.append(target)
        return queue


def headline_file():
    """The file of org_wire in which the headline is."""
    for path in sorted(glob.glob(os.path.join(ROOT, "crates/org_wire/src/*.rt"))):
        path = os.path.relpath(path, ROOT)
        if re.search(rf"^pub fn {HEADLINE}[<(]", read(path), re.M):
            return path
    sys.exit(f"reading: there is no function {HEADLINE} in org_wire")


def contract(function, path):
    """The words of a function's contract, and the file that names them."""
    item = Definition(("code", path, function), path, 0, [])
    inside = found = clause = False
    for line in read(path).split("\n"):
        if re.match(rf" *pub fn {function}[<(]", line):
            inside = found = True
        if inside and re.match(r" *\{ *$", line):
            inside = False
        if inside and re.match(r" *(requires|ensures) ", line):
            clause = True
        if inside and clause:
            item.say(re.sub(r"(requires|ensures) \w* ?\{", "", line))
    if not found:
        sys.exit(f"reached: no function {function} there")
    return item


def begin(specs, function, path):
    """What the contract of a function names."""
    into = ("code", path)
    for line in read(path).split("\n"):
        if re.match(r" *ghost use ", line):
            specs.imports(line.strip(), into)
    item = contract(function, path)
    item.key = into + (function,)
    specs.definitions[item.key] = item
    first = specs.named(item.key)
    del specs.definitions[item.key]
    return first


class Laws:
    """Each law with its statement and the kind of its tie, and the rows of tests/shown/definitions.md."""

    def __init__(self, specs):
        self.specs, self.statements, self.rows, self.chapters, self.settles = specs, {}, [], [], {}
        for path in sorted(glob.glob(os.path.join(ROOT, "crates/*/src/*.rt"))):
            path = os.path.relpath(path, ROOT)
            crate = path.split("/")[1]
            for found in re.finditer(r"pub fn (\w+)\(\)\s*\n\s+ensures (?:\w+ )?\{ *(\w+)", read(path)):
                key = [key for key in specs.definitions if key[0] == crate and key[2] == found[2]]
                if key and found[1] != "examples_hold":
                    self.statements[f"{crate}::{found[1]}"] = key[0]
        self.read_rows()
        for law, names in re.findall(r"^\| `(\w+::\w+)` \| (.*) \|$", read("tests/shown/laws.md"), re.M):
            self.settles[law] = re.findall(r"`(\w+)`", names)
        self.settled = {key for law, names in self.settles.items() if law in self.statements
                        for key in specs.named(self.statements[law]) if key[2] in names}

    def read_rows(self):
        """The rows: their chapter, the keys of their definitions, their laws and what else shows them."""
        chapter, is_first = "", False
        for line in read("tests/shown/definitions.md").split("\n"):
            if line.startswith("## "):
                is_first = "headline" in line
            if line.startswith("### "):
                chapter = line[4:] if is_first else ""
                self.chapters += [chapter] if chapter else []
            cells = line.split("|")
            if not line.startswith("| `") or len(cells) != 6:
                continue
            files = [file.split("/") for file in re.findall(r"`([^`]+)`", cells[2])]
            homes = [(files[0][0], file[-1].removesuffix(".antt")) if len(file) == 1 else (file[0], file[2].removesuffix(".antt")) for file in files]
            keys = [home + (name,) for name in re.findall(r"`([^`]+)`", cells[1]) for home in homes]
            kinds = {part.split()[0]: re.findall(r"`([^`]+)`", part) for part in cells[4].split(";") if "`" in part}
            self.rows.append((chapter, [self.specs.made_by.get(key, key) for key in keys], kinds))

    def kind(self, law):
        return "both ways" if law in self.settles else "one way"

    def of(self, key):
        """The laws of a definition: those that a row of it names and whose statement names it, or the row's if none does."""
        named = [law for _, keys, kinds in self.rows if key in keys for law in kinds.get("law", []) if law in self.statements]
        straight = [law for law in dict.fromkeys(named) if key in self.specs.named(self.statements[law])]
        return straight or [law for law in dict.fromkeys(named) if key in self.specs.reached([self.statements[law]])]

    def side(self, law):
        """What a law is said with, in the order in which it is reached, but for what the headline reaches and what a law settles.
        Of a law that ties one way it is what stands in the law's own file."""
        first = self.statements[law]
        found = [key for key in self.specs.reached([first], self.settled) if key in self.specs.definitions and key != first]
        mine = [key for key in found if key not in self.own and key not in self.settled]
        return mine if law in self.settles else [key for key in mine if key[:2] == first[:2]]

    def tied(self, keys):
        """The definitions that laws settle whole, each with these laws."""
        found = {}
        for law, names in self.settles.items():
            for key in self.specs.named(self.statements[law]) if law in self.statements else []:
                if key in keys and key[2] in names:
                    found.setdefault(key, []).append(law)
        return found

    def shown(self, key):
        """Examples and edits of a definition."""
        return [f"{kind} `{name}`" for kind in ("example", "edit") for _, keys, kinds in self.rows if key in keys for name in kinds.get(kind, [])]

    def chapter(self, key, before):
        """The chapter of a definition: that of its row, else of one above it in its file, else of the one that named it."""
        own = [chapter for chapter, keys, _ in self.rows if key in keys and chapter]
        if own:
            return own[0]
        item = self.specs.definitions[key]
        near = [(self.specs.definitions[other].line, chapter) for chapter, keys, _ in self.rows if chapter for other in keys
                if other in self.specs.definitions and other[:2] == key[:2]]
        above = [pair for pair in near if pair[0] < item.line]
        return (max(above) if above else min(near))[1] if near else before


def sizes(specs, keys):
    """How many lines, how many of them without comments, and how many definitions."""
    items = [specs.get(key) for key in keys]
    return sum(item.size for item in items), sum(len(item.body) for item in items), len(items)


def skipped_for(specs, laws, first, own, tied):
    """What falls away where the laws' side is read in place of these definitions, and what of that side is read besides."""
    left = {key for key in specs.reached(first, tied) if key not in tied}
    sides = specs.reached([laws.statements[law] for names in tied.values() for law in names], tied)
    side = [key for key in sides if key in specs.definitions and key not in tied and key not in left]
    return [key for key in own if key not in left and key not in side], [key for key in side if key not in own]


def numbers(specs, laws, first):
    """What is reached; what of it the code declares; what laws settle; for each of these what falls away and what is read
    instead; and both together, of those where less is read so."""
    found = specs.reached(first)
    own = [key for key in found if key in specs.definitions]
    code = [key for key in found if key not in specs.definitions]
    tied = laws.tied(own)
    each = {}
    for key, names in tied.items():
        gone, side = skipped_for(specs, laws, first, own, {key: names})
        each[key] = (sizes(specs, gone)[0], sizes(specs, side)[0])
    shorter = {key: names for key, names in tied.items() if each[key][0] > each[key][1]}
    return own, code, tied, each, shorter, skipped_for(specs, laws, first, own, shorter)


def said(specs, counts):
    own, code, tied, _, shorter, (gone, side) = counts
    lines, bare, count = sizes(specs, own)
    whole, declared = sizes(specs, specs.definitions), sizes(specs, code)
    skipped, instead = sizes(specs, gone), sizes(specs, side)
    return [
        f"declared by the code: {declared[0]} lines of {declared[2]} types and constants, {declared[1]} without comments",
        f"settled by a law: {len(tied)} definitions; where the law's side of {len(shorter)} of them is read in their place, {skipped[0]} "
        f"lines fall away ({skipped[1]} without comments) and {instead[0]} come besides ({instead[1]})",
        f"reached: {lines} lines of {count} definitions, {bare} without comments, of {whole[0]} lines of {whole[2]} in all",
    ]


def said_first(specs, laws, first, own):
    """The chapters, those first that others rest on, and in each the definitions and what of the code they name, each behind
    all that it names. What an earlier chapter needs stands there."""
    chapters, chapter = {}, laws.chapters[0]
    for key in own:
        chapter = laws.chapter(key, chapter)
        chapters.setdefault(chapter, []).append(key)
    said, out = set(), []

    def say(key, into):
        stack = [(key, iter(specs.named(key)))]
        said.add(key)
        while stack:
            here, rest = stack[-1]
            step = next((target for target in rest if target not in said), None)
            if step is None:
                into.append(here)
                stack.pop()
            else:
                said.add(step)
                stack.append((step, iter(specs.named(step))))

    left = [name for name in reversed(laws.chapters) if name in chapters]
    homes = {key: name for name, keys in chapters.items() for key in keys}
    needs = {name: Counter(homes[target] for key in chapters[name] for target in specs.named(key) if target in homes) for name in left}
    while left:
        name = min(left, key=lambda name: sum(needs[name][other] for other in left if other != name))
        left.remove(name)
        out.append((name, []))
        for key in chapters[name]:
            if key not in said:
                say(key, out[-1][1])
    return [(name, keys) for name, keys in out if keys]


class Page:
    """The page of the definitions, and the one of their laws behind its links. No word stands for two things there: what has the
    name of something else is written with its crate, `stamp::is_name`."""

    def __init__(self, specs, laws, first):
        self.specs, self.laws, self.first = specs, laws, first
        self.counts = numbers(specs, laws, first)
        own, code, self.tied = self.counts[:3]
        laws.own = set(own)
        self.folded = folded.Folded(specs, read, own, first)
        self.chapters = said_first(specs, laws, first, own)
        self.shown = [key for _, keys in self.chapters for key in keys if key not in self.folded.into]
        names = Counter(key[2] for key in {*own, *code})
        self.names = {key: key[2] if names[key[2]] == 1 else f"{key[0].removeprefix('org_')}::{key[2]}" for key in {*own, *code}}
        self.bodies = {key: self.body(key) for key in self.shown}

    def place(self, key):
        """Where a definition stands: that into which it is folded, if it is."""
        while key in self.folded.into:
            key = self.folded.into[key]
        return key

    @staticmethod
    def anchor(key):
        return "-".join(key).replace("/", "-")

    def link(self, key, text=None, page=""):
        return f'<a href="{page}#{self.anchor(self.place(key))}">{html.escape(text or self.names.get(key, key[2]))}</a>'

    def linked(self, key, tokens):
        """A text with its names as links."""
        out = []
        for token in tokens:
            target = self.target(key, token) if folded.is_word(token) else None
            if target is None or target == key:
                out.append(html.escape(self.names[key] if target == key and token == key[2] else token))
                continue
            parts = token.split(".")
            if target[2] in parts:
                out.append(self.link(target) + html.escape("".join(f".{part}" for part in parts[parts.index(target[2]) + 1 :])))
            else:
                out.append(self.link(target, token))
        return "".join(out)

    def target(self, key, token):
        """What of the page a word stands for."""
        if isinstance(token, folded.Word):
            module, name = token.means
            parts = module.split(".")
            if parts[0] == "Rattle" and len(parts) == 4 and parts[2] == "specs":
                found = (parts[1], parts[3], name)
                found = self.specs.passed_on.get(found, found)
                found = self.specs.made_by.get(found, found)
                return found if found in self.names else None
            into = key[:2]
        else:
            into = key[:2]
        bound = self.specs.get(key).bound
        found = self.specs.resolve(into, str(token), bound)
        return found if found in self.names else None

    def body(self, key):
        """The lines of a definition or of what the code declares, as lists of words."""
        if key not in self.specs.definitions:
            return declared(self.specs.code[key])
        text = self.folded.texts[key]
        if text.is_within:
            item = self.specs.definitions[key]
            return [folded.lex(line.removeprefix("abbrev pub ")) for line in [item.module, *item.body]]
        if not text.clauses:
            return [folded.lex(line) for line in gathered(text)]
        kind = [*folded.lex(f"{text.name} "), *text.type[text.type.index(":") :]]
        one = in_one(text)
        if one:
            return wrapped(one)
        return [line for tokens in [kind, *([*left, " ", "=", " ", *right] for left, right, _ in text.clauses)] for line in wrapped(tokens)]

    def law(self, key):
        """The links to the laws of a definition."""
        names = list(dict.fromkeys(self.tied.get(key, []) + self.laws.of(key)))
        found = []
        for law in names:
            sign = "settled by" if law in self.tied.get(key, []) else "law"
            found.append(f'<a class="l" href="laws.html#{law.replace("::", "-")}">{sign} {law.split("::")[1]}</a>')
        return (" " + " ".join(found)) if found else ""

    def entry(self, key):
        """A definition: its comment with the links to its laws, then its lines."""
        item = self.specs.get(key)
        comment = " ".join(re.sub(r"^\s*(--|///) ?", "", line).strip() for line in item.comment if not re.match(r"\s*(#|module )", line))
        lines = [self.linked(key, line) for line in self.bodies[key]]
        laws = self.law(key) if key in self.specs.definitions else ""
        head = f"<i>{html.escape(comment)}</i>{laws}\n" if comment or laws else ""
        return f'<p id="{self.anchor(key)}">{head}' + "\n".join(lines) + "</p>"

    def lines(self, key):
        item = self.specs.get(key)
        comment = " ".join(re.sub(r"^\s*(--|///) ?", "", line).strip() for line in item.comment if not re.match(r"\s*(#|module )", line))
        return len(self.bodies[key]) + (-(-len(comment) // folded.WIDEST) if comment else 0)

    def index(self):
        """Each name with a link, by the alphabet; of what is folded to where it stands."""
        keys = sorted({*self.counts[0], *self.counts[1]}, key=lambda key: (self.names[key].lower(), self.names[key]))
        return [" ".join(self.link(key) for key in group) for _, group in groupby(keys, lambda key: self.names[key][0].lower())]

    def text(self):
        """The page; and how many lines of definitions and how many lines in all it has."""
        title = "What the headline rests on"
        own, code = self.counts[0], self.counts[1]
        shown = [key for key in self.shown if key in self.specs.definitions]
        bare = sum(len(self.bodies[key]) for key in shown)
        index = self.index()
        kit = self.specs.of_kit(own)
        called = ", ".join(f"{name} ({library}, {file})" for library, file, name in kit)
        intro = [
            f"All that has to be believed of what <code>{HEADLINE}</code> promises ({headline_file().removeprefix('crates/')}), made of the "
            "sources by tests/reading.py. Each word is said before it is used, so the promise itself is the last chapter. Names are links. "
            "A word that two crates use stands with its crate. A definition of one line that one other alone uses stands in that one, if "
            "it fits its line; that the two are the same is the law <code>org_reading::folds_hold</code>. Behind a link <b>law</b> is what "
            "is proved of a definition, behind <b>settled by</b> a law that says exactly when it gives what.",
        ]
        chapters = [(name, [key for key in keys if key not in self.folded.into]) for name, keys in self.chapters]
        table = [f'<a href="#{slug(name)}">{name}</a> ({sum(len(self.bodies[key]) for key in keys if key in self.specs.definitions)} lines)' for name, keys in chapters]
        count = sum(self.lines(key) for key in self.shown) + len(chapters) + len(headline()) + sum(-(-len(re.sub("<[^>]*>", "", line)) // folded.WIDEST) for line in [*index, *intro, *table, called]) + 6
        summary = (f"{len(own)} definitions, {len(own) - len(shown)} of them folded: {bare} lines without comments; "
                   f"{len(code)} types and constants of the code; {count} lines in all.")
        out = ["<!doctype html>", '<html lang="en"><head><meta charset="utf-8">', f"<title>{title}</title>", STYLE, "</head><body>", f"<h1>{title}</h1>",
               *(f"<div>{line}</div>" for line in intro), f"<div>{summary}</div>", "<ol>", *(f"<li>{line}</li>" for line in table), "</ol>"]
        for name, keys in chapters:
            out += [f'<h2 id="{slug(name)}">{name}</h2>', *(self.entry(key) for key in keys)]
        path = headline_file()
        into = ("code", path)
        promise = [self.promised(into, line) for line in headline()]
        out += ['<h2 id="headline">The headline</h2>', "<p>" + "\n".join(promise) + "</p>", '<h2 id="index">Index</h2>', *(f"<div>{line}</div>" for line in index),
                '<h2 id="kit">What the kit defines besides the words of its prelude</h2>', f"<div>{html.escape(called)}</div>", "</body></html>"]
        return "\n".join(out) + "\n", bare, count

    def promised(self, into, line):
        out = []
        for token in folded.lex(line):
            target = self.specs.resolve(into, token, set()) if folded.is_word(token) and not line.startswith("///") else None
            out.append(self.link(target, token) if target in self.names else html.escape(token))
        return "".join(out)

    def laws_text(self):
        """The page behind the links: each law of a definition of the page, with what it is said with."""
        names = sorted({law for key in self.shown if key in self.specs.definitions for law in [*self.tied.get(key, []), *self.laws.of(key)]})
        out = ["<!doctype html>", '<html lang="en"><head><meta charset="utf-8">', "<title>Laws of the definitions</title>", STYLE, "</head><body>",
               "<h1>Laws of the definitions</h1>", "<div>Each is proved. One that ties both ways says exactly when a definition gives what.</div>"]
        for law in names:
            statement = self.laws.statements[law]
            out += [f'<h2 id="{law.replace("::", "-")}">{law}, {self.laws.kind(law)}</h2>']
            for key in [statement, *self.laws.side(law)]:
                item = self.specs.definitions[key]
                lines = [self.linked_of_law(key, line) for line in item.body]
                comment = " ".join(re.sub(r"^\s*-- ?", "", line).strip() for line in item.comment if not line.startswith("module "))
                out.append(f"<p><i>{html.escape(comment)}</i>\n" + "\n".join(lines) + "</p>")
        return "\n".join([*out, "</body></html>"]) + "\n"

    def linked_of_law(self, key, line):
        out = []
        for token in folded.lex(line):
            target = self.specs.resolve(key[:2], token, self.specs.definitions[key].bound) if folded.is_word(token) else None
            out.append(self.link(target, token, "reading.html") if target in self.names else html.escape(token))
        return "".join(out)


STYLE = """<style>body { max-width: 110em; margin: 2em auto; padding: 0 1em; font: 15px/1.5 sans-serif; }
p, code { white-space: pre-wrap; font: 13px/1.5 monospace; margin: 0 0 .7em; } i { color: #666; font-family: sans-serif; }
a { color: #036; text-decoration: none; } a:hover { text-decoration: underline; } .l { color: #084; font: 12px sans-serif; }
p:target { background: #ffd; }</style>"""


def slug(name):
    return re.sub(r"[^a-z0-9 -]", "", name.lower()).replace(" ", "-")


def in_one(text):
    """The type and the one clause of a definition in one line, `name (a : A) : B = ..`; None where they don't fit."""
    if len(text.clauses) != 1 or not all(re.fullmatch(r"[a-z_]\w*", token) for token in text.patterns()):
        return None
    kinds, patterns = folded.arrows(text.type[text.type.index(":") + 1 :]), text.patterns()
    front, rest = [text.name], list(patterns)
    while kinds and (kinds[0][0] == "{" or rest):
        kind = kinds.pop(0)
        if kind[0] == "{":
            front += [" ", *kind]
            continue
        if re.match(r"\(\w+ : ", "".join(kind)):
            return None
        names = [rest.pop(0)]
        while rest and kinds and "".join(kinds[0]) == "".join(kind):
            names += [" ", rest.pop(0)]
            kinds.pop(0)
        front += [" ", "(", *names, " ", ":", " ", *kind, ")"]
    if rest or not kinds:
        return None
    result = [token for number, kind in enumerate(kinds) for token in ([" ", "→", " "] if number else []) + kind]
    one = [*front, " ", ":", " ", *result, " ", "=", " ", *text.clauses[0][1]]
    return one if len("".join(one)) <= folded.WIDEST else None


def wrapped(tokens):
    """A text in lines of at most WIDEST columns, those behind the first set in."""
    lines, line, width = [], [], 0
    for place, token in enumerate(tokens):
        behind = len(tokens[place + 1]) if token == "(" and place + 1 < len(tokens) else 0
        if width + len(token) + behind > folded.WIDEST and line and not folded.is_space(token):
            lines.append(line)
            line, width = ["    "], 4
        line.append(token)
        width += len(token)
    return [*lines, line]


def gathered(text):
    """A type of several lines, its fields or variants side by side."""
    head, parts = text.lines[0].strip().removeprefix("pub "), []
    for line in text.lines[1:]:
        line = line.strip().removeprefix("pub ")
        parts = parts + [line] if not line.startswith("--") else parts
    return packed(re.sub(r" where$", "", head.replace("record ", "record ").replace(" : Type 0 where", "")), parts)


def packed(head, parts):
    """A head and its parts in as few lines as hold them."""
    lines, line = [], head + " where " if parts else head
    for number, part in enumerate(parts):
        add = part + ("; " if number + 1 < len(parts) else "")
        if len(line) + len(add) > folded.WIDEST:
            lines.append(line.rstrip())
            line = "    "
        line += add
    return [*lines, line.rstrip()]


def declared(item):
    """A constant, or a type with its parts side by side; what is said of a part stands behind it."""
    lines = [line.strip() for line in item.body]
    if len(lines) == 1 or not lines[0].endswith("{"):
        return [folded.lex(re.sub(r"^(pub(\([a-z]+\))? )", "", " ".join(lines)))]
    parts, notes = [], []
    for line in lines[1:-1]:
        if line.startswith("///"):
            notes.append(line[3:].strip())
        elif line and not line.startswith(("#", "//")):
            note = f" [{' '.join(notes).rstrip('.')}]" if notes else ""
            parts.append(re.sub(r"^(pub(\([a-z]+\))? )", "", line).rstrip(",").removeprefix("ghost ") + note)
            notes = []
    return [folded.lex(line) for line in packed(re.sub(r"^(pub(\([a-z]+\))? )", "", lines[0])[:-1].strip(), parts)]


def headline():
    """The contract of the headline, with its comment."""
    lines = read(headline_file()).split("\n")
    at = next(number for number, line in enumerate(lines) if line.startswith(f"pub fn {HEADLINE}"))
    begin_at = at
    while lines[begin_at - 1].startswith("///"):
        begin_at -= 1
    end = next(number for number, line in enumerate(lines) if number > at and line == "{")
    return lines[begin_at:end]


def write(text, path):
    os.makedirs(os.path.dirname(os.path.join(ROOT, path)), exist_ok=True)
    with open(os.path.join(ROOT, path), "w", encoding="utf-8") as file:
        file.write(text)


class Tried:
    """What was tried, and what of it failed."""

    def __init__(self):
        self.passed = self.failed = 0

    def that(self, is_so, what):
        self.passed, self.failed = self.passed + bool(is_so), self.failed + (not is_so)
        if not is_so:
            print(f"reading: {what}")


def check(specs, laws, first):
    """Whether the page holds every definition, each behind what it names, and docs/definitions.md says of laws what is so."""
    made, tried = Page(specs, laws, first), Tried()
    text, bare, count = made.text()
    write(text, PAGE)
    write(made.laws_text(), LAWS)
    named = subprocess.run(["sh", "tests/reached.sh", "list"], cwd=ROOT, capture_output=True, text=True, check=True).stdout
    rows = re.findall(r"^ *\d+  (\w+)  (\w+)/specs/(\w+)\.antt$", named, re.M)
    for name, crate, file in rows:
        tried.that(f'<p id="{made.anchor(made.place((crate, file, name)))}">' in text, f"{PAGE} doesn't hold {name} of {crate}/specs/{file}.antt")
    tried.that(len(rows) == len(made.counts[0]), f"tests/reached.sh names {len(rows)} definitions, and {len(made.counts[0])} are reached")
    order = {key: number for number, key in enumerate(key for _, keys in made.chapters for key in keys)}
    for key in order:
        late = [target for target in specs.named(key) if order.get(target, -1) > order[key] and key not in specs.reached([target])]
        tried.that(not late, f"{key[2]} of {key[0]} is said before {', '.join(target[2] for target in late)}")
    shown = Counter(made.names.values())
    tried.that(max(shown.values()) == 1, f"these stand for two things: {', '.join(name for name, number in shown.items() if number > 1)}")
    tried.that(count <= MOST_LINES and bare <= MOST_BARE, f"{PAGE} has {count} lines, {bare} of them definitions; {MOST_LINES} and {MOST_BARE} may be")
    for path, content in folds(made).items():
        tried.that(os.path.exists(os.path.join(ROOT, path)) and read(path) == content, f"{path} isn't as `tests/reading.py fold` writes it")
    for law, names in laws.settles.items():
        found = {key[2] for key in specs.named(laws.statements[law])} if law in laws.statements else set()
        tried.that(law in laws.statements and found.issuperset(names), f"tests/shown/laws.md: {law} isn't there, or doesn't name {', '.join(names)}")
    for line in read("docs/definitions.md").split("\n"):
        cells = line.split("|")
        if not line.startswith("| `") or len(cells) != 7:
            continue
        kind = cells[4].split()[0]
        crate = re.search(r"`(\w+)/", cells[2])[1]
        names = [name if "::" in name else f"{crate}::{name}" for name in re.findall(r"`([^`]+)`", cells[4])]
        if kind not in ("both", "one"):
            continue
        kinds = {laws.kind(name) for name in names if name in laws.statements}
        tried.that(("both ways" in kinds) if kind == "both" else bool(kinds), f"docs/definitions.md: {cells[1].strip()}: no law there ties {kind}")
    print(f"reading: {tried.passed} passed, {tried.failed} failed")
    return tried.failed == 0 and tried.passed > 0


def folds(made):
    """The files of the crate that proves what is folded."""
    keys = [key for key in made.counts[0] if key in made.folded.changed and key not in made.folded.into]
    return folded.Writer(made.folded, keys).files()


def main():
    words = sys.argv[1:]
    what = words.pop(0) if words else "page"
    if what not in ("page", "count", "list", "ties", "check", "fold"):
        sys.exit(__doc__)
    function = words[0] if words else HEADLINE
    path = words[1] if len(words) > 1 else headline_file()
    if not os.path.exists(os.path.join(ROOT, path)):
        sys.exit(f"reached: no file {path}")
    specs = Specs()
    laws = Laws(specs)
    if what == "ties":
        for law in sorted(laws.statements):
            print(f"{laws.kind(law):9}  {law}")
        return
    first = begin(specs, function, path)
    if what == "check":
        sys.exit(not check(specs, laws, first))
    if what == "fold":
        for path, text in folds(Page(specs, laws, first)).items():
            write(text, path)
        return
    counts = numbers(specs, laws, first)
    own = counts[0]
    if what == "list":
        for key in own:
            print(f"{specs.definitions[key].size:4d}  {key[2]}  {specs.definitions[key].path.removeprefix('crates/')}")
    elif what == "count":
        for crate, lines in Counter({key[0]: 0 for key in own}).items():
            print(f"{sum(specs.definitions[key].size for key in own if key[0] == crate):6d}  {crate}")
    else:
        made = Page(specs, laws, first)
        text, bare, count = made.text()
        write(text, PAGE)
        write(made.laws_text(), LAWS)
        print(f"reading: {PAGE} has {count} lines, {bare} of them definitions; {LAWS} is behind its links")
    print("\n".join(said(specs, counts)))


if __name__ == "__main__":
    main()
