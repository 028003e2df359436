#!/usr/bin/env python3
"""Checks in seconds that what the pages name in backticks is there: README.md, docs/*.md, and the first pages of crates. What
a name is shows in how it is written, and each kind is looked up where such names are declared:

    Owner::name     a type, a trait, a module or a crate of this repository, and what is declared in it; of a type that is
                    none of ours, as of the kit, both words have to stand in code
    is_word, Word   stands as a word in code, in definitions or in a script, outside comments; behind `Owner::name` and a comma
                    it is a function
    a-word          stands so in such a file, or is the name of a file of tests/ or of a must-fail edit; what begins with `org-`
                    and not with `org-views` is Emacs' own, and passed over
    path/file.rt    is a file of the repository, by its whole path or the end of it; `CRATE/File.antt` is a file of the crate
    --option        is listed in the sources of `orgq` or `orgviews`; behind another program's name it is that program's, and
                    passed over
    orgq word       is a command of `orgq`
    make word       is a target of the Makefile, also in the lines of code of a page

Words in capitals without a small letter stand for others, as `FILE.rt`. Says what is missing; the last line counts pages.

    tests/mentions.py          every page
    tests/mentions.py list     each name with its kind, as it is taken here
"""
import collections
import glob
import os
import re
import sys

ROOT = os.path.dirname(os.path.dirname(os.path.abspath(__file__)))
CODE = (".rt", ".antt", ".rs", ".sh", ".py", ".el", ".vim", ".lua", ".c", ".awk", ".bash", ".zsh", ".fish")
FILE = re.compile(r"[A-Za-z0-9_./*-]+\.(?:rt|antt|rs|sh|py|md|json|txt|edit|svg)")
BESIDE = re.compile(r"`[A-Z]\w*::\w+`((?:, `[a-z_]+`)+)")
BRACE = re.compile(r"[{}]")
PLACES = ("tests/", "docs/", "crates/", "contrib/", "clients/", "bench/")
# Words of Org and of Emacs that no file here has.
OTHERS = {"REPEAT_TO_STATE", "TIMESTAMP_IA", "use-package"}


def files():
    """Each file of the repository but what is made, by its path."""
    found = []
    for folder, below, names in os.walk("."):
        below[:] = [name for name in below if name not in ("out", ".git", "__pycache__")]
        found += [os.path.join(folder, name)[2:] for name in names]
    return sorted(found)


def text_of(path):
    with open(path, encoding="utf-8", errors="replace") as file:
        return file.read()


def code_of(path):
    """The text of a file of code without the comments that stand alone or behind code."""
    text = text_of(path)
    if path.endswith((".rt", ".rs", ".c")):
        return re.sub(r"//[^\n]*", "", text)
    if path.endswith(".antt"):
        return re.sub(r"(?m)(^|\s)--[^\n]*", "", text)
    if path.endswith(".py"):
        text = re.sub(r'"""[^"]*(?:"{1,2}[^"]+)*"""', "", text)
    if path.endswith((".sh", ".py", ".awk", ".bash", ".zsh", ".fish", "Makefile")):
        return re.sub(r"(?m)^\s*#[^\n]*", "", text)
    return text


def block_end(text, at):
    """Where the brace that stands at a place is closed."""
    depth = 0
    for found in BRACE.finditer(text, at):
        depth += 1 if found[0] == "{" else -1
        if depth == 0:
            return found.start()
    return len(text)


class Sources:
    """What is declared: names by their owner, and all words that stand in code."""

    def __init__(self):
        self.files = files()
        self.members = collections.defaultdict(set)
        self.traits = collections.defaultdict(set)
        self.words = set()
        self.functions = set()
        self.kebabs = set()
        for path in self.files:
            if path.endswith(CODE) or "." not in os.path.basename(path) or path == "crates.txt" or path.startswith("tests/orgq/"):
                code = code_of(path)
                self.words.update(re.findall(r"\w+", code))
                self.kebabs.update(re.findall(r"[A-Za-z0-9]+(?:-[A-Za-z0-9]+)+", code))
            if path.startswith("tests/") or "/must-fail/" in path:
                self.kebabs.add(os.path.basename(path).partition(".")[0])
            if path.startswith("crates/") and path.endswith((".rt", ".antt")):
                self.declare(path)
        programs = "".join(text_of(path) for path in self.files if re.match(r"crates/org(q(_[a-z]+)?|views)/src/", path))
        self.options = set(re.findall(r'(?m)(?:^|")[a-zA-Z]?;([a-z][a-z-]*);|\.long\("([a-z-]+)"\)', programs))
        self.options = {name for pair in self.options for name in pair} | {"help", "version"}
        # What a line of a view takes besides, which is no option of a program.
        self.options |= set(re.findall(r'word == "--([a-z-]+)"', text_of("crates/orgq_views/src/block.rt")))
        self.commands = set(re.findall(r'"([a-z]+)"', programs))
        self.targets = set(re.findall(r"(?m)^([a-z-]+):", text_of("Makefile")))

    def declare(self, path):
        """Notes what a file of a crate declares: for its crate, its module, and each type and trait in it."""
        parts = path.split("/")
        crate, module = parts[1], os.path.basename(path).rpartition(".")[0]
        text = code_of(path)
        if path.endswith(".antt"):
            own = set(re.findall(r"[A-Za-z_]\w*", text))
        else:
            own = set(re.findall(r"\b(?:fn|struct|enum|trait|type|const|mod|macro_rules!) +([A-Za-z_]\w*)", text))
            self.functions |= set(re.findall(r"\bfn +([a-z]\w*)", text))
        self.members[crate] |= own | {module}
        self.members[module] |= own
        if path.endswith(".antt"):
            return
        header = r"(?m)^[ \t]*(?:pub(?:\([a-z]+\))? +)?(impl|trait|enum|struct)\b([^{;]*)\{"
        for found in re.finditer(header, text):
            body = text[found.end() : block_end(text, found.end() - 1)]
            kind, head = found[1], re.sub(r"<[^<>]*>", "", re.sub(r"<[^<>]*(<[^<>]*(<[^<>]*>[^<>]*)*>[^<>]*)*>", "", found[2]))
            head = re.sub(r"\bwhere\b.*", "", head, flags=re.S)
            named = re.findall(r"[A-Za-z_]\w*", head.split(" for ")[-1].split(":")[0])
            if not named:
                continue
            owner = named[-1] if kind == "impl" else named[0]
            self.members[owner] |= set(re.findall(r"\b(?:fn|const|type) +([A-Za-z_]\w*)", body))
            if kind == "enum":
                self.members[owner] |= set(re.findall(r"(?m)^\s*([A-Z]\w*)\s*(?:[,({=]|$)", body))
            if " for " in head:
                self.traits[owner].add(re.findall(r"[A-Za-z_]\w*", head.split(" for ")[0])[-1])

    def has_member(self, owner, name):
        return name in self.members[owner] or any(name in self.members[it] for it in self.traits[owner])

    def path_missing(self, path):
        *owners, name = path.split("::")
        owner = owners[-1]
        if owner in self.members:
            return None if self.has_member(owner, name) else f"{owner} has no {name}"
        return None if owner in self.words and name in self.words else "nothing has it"

    def file_missing(self, name, page):
        if re.search(r"(^|/)[A-Z]+[./]", name) and not name.endswith(".md"):
            return None
        crate, _, rest = name.partition("/")
        pattern = re.compile("(^|/)" + re.escape(name).replace(r"\*", "[^/]*") + "$")
        within = re.compile(f"^crates/{re.escape(crate)}/.*/{re.escape(rest)}$") if rest else pattern
        near = os.path.normpath(os.path.join(os.path.dirname(page), name))
        there = near in self.files or any(pattern.search(it) or within.search(it) for it in self.files)
        return None if there else "there is no such file"


def spans(text):
    """What stands in backticks in a page outside its blocks of code, and the lines of these blocks."""
    prose, code, fenced = [], [], False
    for line in text.split("\n"):
        if line.lstrip().startswith("```"):
            fenced = not fenced
        elif fenced or line.startswith("    "):
            code.append(line.strip())
        else:
            prose.append(line)
    return re.findall(r"`([^`]+)`", "\n".join(prose)), code


def first_page(path):
    lines = []
    for line in text_of(path).split("\n"):
        if line.startswith("//!"):
            lines.append(line[3:].removeprefix(" "))
        elif lines:
            break
    return "\n".join(lines)


def kinds(span):
    """The names in a span, each with its kind."""
    words = span.replace("\\|", "|").split()
    if len(words) == 1 and re.fullmatch(r"[A-Za-z_]\w*(::[A-Za-z_]\w*)+", span):
        yield "path", span
    elif len(words) == 1 and re.fullmatch(r"[a-z][a-z0-9]*(_[a-z0-9]+)+|[A-Z]+(_[A-Z]+)+|[A-Z]\w*[a-z]\w*", span):
        yield "word", span
    elif len(words) == 1 and re.fullmatch(r"(?!org-(?!views))[a-z]+(-[a-z]+)+", span):
        yield "kebab", span
    for word in words:
        if FILE.fullmatch(word) and (len(words) == 1 or word.startswith(PLACES)):
            yield "file", word
    if words and words[0] == "make" and len(words) > 1 and re.fullmatch(r"[a-z-]+", words[1]):
        yield "target", words[1]
    if words and words[0] in ("orgq", "orgviews") or span.startswith("--"):
        for option in re.findall(r"(?:^|\s)--([a-z][a-z-]*)", span):
            yield "option", option
    if len(words) > 1 and words[0] == "orgq" and re.fullmatch(r"[a-z]+", words[1]):
        yield "command", words[1]


def targets(line):
    """The targets that a line of code names: `make check, rows` names two."""
    found = re.match(r"make ((?:[a-z-]+)(?:, [a-z-]+)*)", line)
    return found[1].split(", ") if found else []


def why_missing(sources, kind, name, page):
    if kind == "path":
        return sources.path_missing(name)
    if kind == "function":
        return None if name in sources.functions else "no function has this name"
    if kind == "word" and name not in OTHERS:
        return None if name in sources.words else "nothing has it"
    if kind == "kebab" and name not in OTHERS:
        return None if name in sources.kebabs else "nothing has it"
    if kind == "file":
        return sources.file_missing(name, page)
    if kind == "target":
        return None if name in sources.targets else "the Makefile has no such target"
    if kind == "option":
        return None if name in sources.options else "neither orgq nor orgviews has this option"
    if kind == "command":
        return None if name in sources.commands else "orgq has no such command"
    return None


def main():
    os.chdir(ROOT)
    sources = Sources()
    pages = {path: text_of(path) for path in ["README.md", *sorted(glob.glob("docs/*.md"))]}
    pages |= {path: first_page(path) for path in sources.files if re.fullmatch(r"crates/[a-z0-9_]+/src/(lib|main)\.rt", path)}
    failed = 0
    for page, text in pages.items():
        named, code = spans(text)
        found = [it for span in named for it in kinds(span)] + [("target", it) for line in code for it in targets(line)]
        found += [("function", it) for after in BESIDE.findall(text) for it in re.findall(r"`(\w+)`", after)]
        if sys.argv[1:] == ["list"]:
            print("\n".join(f"{page}: {kind} {name}" for kind, name in found))
            continue
        said = [f"{page}: {name}: {why}" for kind, name in dict.fromkeys(found) if (why := why_missing(sources, kind, name, page))]
        failed += bool(said)
        if said:
            print("\n".join(said))
    print(f"mentions: {len(pages) - failed} passed, {failed} failed")
    sys.exit(failed > 0)


if __name__ == "__main__":
    main()
