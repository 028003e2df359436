"""Definitions of one line that one other alone uses, folded into that one; and the laws that the folded text means the same.

tests/reading.py shows the folded text. What it shows is written as definitions of a crate of its own (SPECS, LAWS, PROOF below),
each beside the one of the sources that it stands for, and one law says that the two are the same, clause by clause. A clause of
the sources that calls itself calls the sources' one in the folded text, too, so that each clause is proved by `refl`.
"""
import re

CRATE = "org_reading"
SPECS = f"crates/{CRATE}/specs/Folded.antt"
LAW = f"crates/{CRATE}/specs/Laws.antt"
PROOF = f"crates/{CRATE}/proofs/Folds.antt"
WIDEST = 160
SHORT = 30

LEX = re.compile(r'\s+|"(?:\\.|[^"\\])*"|[A-Za-z_]\w*(?:\.[A-Za-z_0-9]\w*)*|\d[\d_]*|\.\w+|[()\[\]{};,.]|[^\sA-Za-z0-9_()\[\]{};,."]+')
KEYWORDS = {"if", "then", "else", "let", "in", "record", "data", "where", "elim", "do"}
STATES = {"Type"}
CONSTRUCTORS = {"zero", "suc", "true", "false"}


class Word(str):
    """A word that stands for a definition or a name from elsewhere: `means` is (module, name), `rest` the fields behind it."""

    means, rest = None, ""


def lex(text):
    return LEX.findall(text)


def is_word(token):
    return bool(re.match(r"[A-Za-z_]", token)) and token not in KEYWORDS


def is_space(token):
    return token.isspace()


def close_of(tokens, at):
    """The place behind the bracket that closes the one at a place."""
    depth = 0
    for place in range(at, len(tokens)):
        depth += (tokens[place] in "([{") - (tokens[place] in ")]}")
        if depth == 0:
            return place + 1
    return len(tokens)


def atom(tokens, at):
    """The place behind the atom that begins at a place, with what hangs on it (`.0`, `.day`); None where there is none."""
    if at >= len(tokens):
        return None
    token = tokens[at]
    if token in ("(", "["):
        end = close_of(tokens, at)
    elif is_word(token) or token[0] in '"0123456789':
        end = at + 1
    elif token in ("ℕ", "⊥", "⊤"):
        end = at + 1
    else:
        return None
    while end < len(tokens) and re.match(r"\.\w", tokens[end]):
        end += 1
    return end


def arguments(tokens, at, most):
    """Up to so many arguments behind a place, and the place behind them."""
    found = []
    while len(found) < most:
        begin = at
        while begin < len(tokens) and is_space(tokens[begin]):
            begin += 1
        end = atom(tokens, begin)
        if end is None:
            break
        found.append(tokens[begin:end])
        at = end
    return found, at


def is_plain(tokens):
    """A whole application or an atom: nothing in it stands outside brackets but atoms."""
    place = 0
    while place < len(tokens):
        if is_space(tokens[place]):
            place += 1
            continue
        end = atom(tokens, place)
        if end is None:
            return False
        place = end
    return True


def is_atom(tokens):
    return atom(tokens, 0) == len(tokens)


def is_argument(before):
    """Whether what stands behind a text is taken by an application that ends it."""
    last = next((token for token in reversed(before) if not is_space(token)), "")
    return bool(last) and last not in KEYWORDS and (is_word(last) or last in (")", "]") or last[0] in '"0123456789')


def bare(tokens):
    """A bracketed application without its brackets."""
    inside = tokens[1:-1] if tokens[0] == "(" and close_of(tokens, 0) == len(tokens) else []
    return inside if inside and is_plain(inside) and tokens[0] == "(" else tokens


def bracketed(tokens):
    return tokens if is_atom(tokens) else ["(", *tokens, ")"]


def bound_in(tokens):
    """Names that a text binds within itself: behind a λ, in front of a colon, and by a let."""
    text = "".join(tokens)
    found = set()
    for part in re.findall(r"λ ([^.]*)\.", text) + re.findall(r"[({]([a-z]\w*(?: \w+)*) : ", text):
        found |= set(re.findall(r"[a-z_]\w*", part.partition(":")[0] if ":" in part else part))
    for part in re.findall(r"λ ([^.]*)\.", text):
        found |= set(re.findall(r"\(([a-z]\w*) :", part))
    return found | set(re.findall(r"\blet (\w+) ", text))


class Text:
    """A definition as it is written: its marks, its type, its clauses, each as tokens."""

    def __init__(self, item):
        self.key, self.name = item.key, item.name
        lines = item.body
        self.marks = re.match(r"(?:(?:abbrev|unfoldable|opaque|pub|pattern) )*", lines[0])[0].strip()
        self.is_type = bool(re.match(r"(pub )?(data|record) ", lines[0]))
        self.is_within = bool(item.module)
        self.clauses, self.type, self.lines = [], [], list(lines)
        if self.is_type or self.is_within:
            return
        begins = [n for n, line in enumerate(lines) if n and re.match(rf"{self.name}\b", line)] + [len(lines)]
        self.type = lex(" ".join(line.strip() for line in lines[: begins[0]])[len(self.marks) :].strip())
        for begin, end in zip(begins, begins[1:]):
            whole = lex(" ".join(line.strip() for line in lines[begin:end]))
            at = whole.index("=")
            self.clauses.append((whole[:at], whole[at + 1 :], end - begin))
        self.clauses = [(strip(left), strip(right), count) for left, right, count in self.clauses]
        self.is_opened = any("unfolding" in line for line in lines)

    def patterns(self, number=0):
        return [token for token in self.clauses[number][0][1:] if not is_space(token)]

    def is_foldable(self):
        """One line behind its type, with variables alone as its patterns."""
        if self.is_type or self.is_within or len(self.lines) != 2 or len(self.clauses) != 1:
            return False
        return all(re.fullmatch(r"[a-z_]\w*", token) for token in self.patterns()) and "{" not in "".join(self.type).partition(":")[0]


def strip(tokens):
    while tokens and is_space(tokens[0]):
        tokens = tokens[1:]
    while tokens and is_space(tokens[-1]):
        tokens = tokens[:-1]
    return tokens


class Names:
    """What the words of each file stand for: (module, name), of our definitions and of all others."""

    def __init__(self, specs, read):
        self.specs, self.read, self.tables = specs, read, {}

    def table(self, crate, file):
        if (crate, file) not in self.tables:
            names, aliases, operators = {}, {}, set()
            for line in self.read(f"crates/{crate}/specs/{file}.antt").split("\n"):
                found = re.match(r"(?:unfoldable )?(?:pub )?use ([\w.]+?)(?:\.\{(.*)\}| as (\w+))?;?\s*$", line)
                if not found:
                    continue
                if found[3]:
                    aliases[found[3]] = found[1]
                for name in re.split(r", *", found[2] or ""):
                    if not name:
                        continue
                    name, _, other = name.partition(" as ")
                    if re.match(r"\w+$", name) and re.match(r"[A-Za-z_]", name):
                        names[other or name] = (found[1], name)
                    else:
                        operators.add((found[1], name))
            self.tables[crate, file] = (names, aliases, operators)
        return self.tables[crate, file]

    def of(self, into, word, bound):
        """What a word's front stands for, as (module, name), how much of the word that is, and its rest; None of a variable."""
        names, aliases, _ = self.table(*into)
        head, _, rest = word.partition(".")
        if head in aliases and rest and (rest[0].isupper() or head not in bound):
            name, _, rest = rest.partition(".")
            return (aliases[head], name), rest
        if head in STATES or (head in bound and not (head in CONSTRUCTORS and head in names)):
            return None
        if head in names:
            return names[head], rest
        target = self.specs.made_by.get(into + (head,)) or (into + (head,) if into + (head,) in self.specs.definitions else None)
        return ((f"Rattle.{into[0]}.specs.{into[1]}", head), rest) if target else None


class Folded:
    """The folds among some definitions: which definition is folded into which, and the text that each other one then has."""

    def __init__(self, specs, read, own, first):
        self.specs, self.names = specs, Names(specs, read)
        self.texts = {key: Text(specs.definitions[key]) for key in own}
        for key, text in self.texts.items():
            text.type = self.marked(key, text.type)
            text.clauses = [(self.marked(key, left), self.marked(key, right), count) for left, right, count in text.clauses]
        users = {}
        for key in own:
            for target in specs.named(key):
                if target in self.texts:
                    users.setdefault(target, set()).add(key)
        self.into, self.done, self.changed, self.kept = {}, set(), {}, {}
        for key in own:
            self.fold(key, users, set(first))

    def marked(self, key, tokens):
        """The words of a text, each with what it stands for."""
        out = []
        for token in tokens:
            found = self.names.of(key[:2], token, self.specs.definitions[key].bound) if is_word(token) else None
            word = Word(token) if found else token
            if found:
                word.means, word.rest = found
            out.append(word)
        return out

    def fold(self, key, users, kept):
        """Folds into a definition what it alone uses, that first."""
        if key in self.done:
            return
        self.done.add(key)
        text = self.texts[key]
        for target in self.specs.named(key):
            if target not in self.texts or users[target] != {key} or target in kept:
                continue
            self.fold(target, users, kept)
            if not self.texts[target].is_foldable():
                continue
            if text.is_type or text.is_within:
                self.kept[target] = "user is a type"
                continue
            clauses = "hidden" if self.is_hidden(key) or self.is_hidden(target) else self.put(key, target)
            if isinstance(clauses, str):
                self.kept[target] = clauses
                continue
            text.clauses = clauses
            self.into[target] = key
            self.changed[key] = self.changed.get(key, set()) | {target} | self.changed.get(target, set())

    def is_hidden(self, key):
        """Whether a definition names what its crate keeps to itself: no other crate could prove anything of it."""
        text = self.texts[key]
        words = [token for left, right, _ in text.clauses for token in [*text.type, *left, *right] if isinstance(token, Word)]
        return any(self.is_own(token.means) for token in words)

    def is_own(self, means):
        """Whether the code declares this for its crate alone."""
        parts = means[0].split(".")
        if parts[:1] != ["Rattle"] or "declared" not in parts:
            return False
        names = [part for part in parts[4:] if part not in ("TheVariants", "TheConstants")]
        name = means[1] if "TheConstants" in parts else names.pop()
        item = self.specs.code.get((parts[1], "/".join(names), name))
        return item is not None and not item.body[0].startswith("pub ")

    def put(self, key, target):
        """The clauses of a definition with another one's body in place of its name; else why it doesn't stand so."""
        text = self.texts[key]
        if any(self.is_target(token, target) for token in text.type):
            return "in the type"
        clauses, found = [], 0
        for number, (left, right, count) in enumerate(text.clauses):
            hits = [place for place, token in enumerate(right) if self.is_target(token, target)]
            for place in reversed(hits):
                right = self.put_at(right, place, target)
                if isinstance(right, str):
                    return right
            if hits:
                found, count = found + len(hits), 1
                if found > 1 and len("".join(self.texts[target].clauses[0][1])) > SHORT:
                    return "twice"
                if hides(text.clauses, number):
                    return "hidden clause"
                if len("".join([*left, " = ", *right])) > WIDEST:
                    return "too long"
            clauses.append((left, right, count))
        return clauses if found else "not found"

    @staticmethod
    def is_target(token, target):
        return isinstance(token, Word) and token.means == (f"Rattle.{target[0]}.specs.{target[1]}", target[2])

    def put_at(self, tokens, place, target):
        """A text with the target's body in place of its name at a place, applied to what stands behind it."""
        other, rest = self.texts[target], tokens[place].rest
        patterns, body = other.patterns(), other.clauses[0][1]
        given, end = ([], place + 1) if rest or is_argument(tokens[:place]) else arguments(tokens, place + 1, len(patterns))
        behind = strip(tokens[end:])
        if len(given) < len(patterns) and behind and behind[0] == "record":
            return "a record behind it"
        left = patterns[len(given) :]
        inner = bound_in(body) | set(left)
        free = {token.partition(".")[0] for part in given for token in part if is_word(token) and not isinstance(token, Word)}
        if inner & free:
            return "a variable of that name"
        values, out = dict(zip(patterns, given)), []
        for token in body:
            head, dot, fields = token.partition(".")
            if isinstance(token, Word) or head not in values:
                out.append(token)
                continue
            value = values[head]
            if not dot:
                out += value if is_argument(out) else bare(value)
            elif len(value) == 1 and not isinstance(value[0], Word) and is_word(value[0]):
                out.append(f"{value[0]}.{fields}")
            elif parts_of(value) and fields[0].isdigit():
                number, _, more = fields.partition(".")
                out += bracketed(parts_of(value)[int(number)]) + ([f".{more}"] if more else [])
            else:
                out += [*bracketed(value), f".{fields}"]
        if left:
            kinds = arrows(other.type[other.type.index(":") + 1 :])
            if len(kinds) < len(patterns) or any(kind[0] == "{" for kind in kinds):
                return "implicit"
            front = []
            for name, kind in zip(left, kinds[len(given) :]):
                front += [" ", "(", name, " ", ":", " ", *kind, ")"] if re.search(rf"\b{name}\.\w", "".join(body)) else [" ", name]
            out = ["λ", *front, ".", " ", *out]
        if rest:
            out = [*bracketed(out), f".{rest}"]
        return [*tokens[:place], *self.fitted(tokens[:place], out, tokens[end:], bool(left)), *tokens[end:]]

    @staticmethod
    def fitted(before, out, behind, is_function):
        """A text in brackets where its neighbours would take a part of it."""
        last = next((token for token in reversed(before) if not is_space(token)), "")
        after = next((token for token in behind if not is_space(token)), "")
        is_glued = bool(behind) and bool(re.match(r"\.\w", behind[0]))
        taken = is_argument(before)
        is_alone = last in ("", "(", "then", ".") and after in ("", ")", "else") and not is_glued
        is_head = is_plain(out) and not taken and not is_glued and not is_function
        return out if is_alone or (is_atom(out) and not is_function) or is_head else ["(", *out, ")"]


def parts_of(tokens):
    """The parts of a tuple that is written out; none of any other text."""
    if tokens[0] != "(" or close_of(tokens, 0) != len(tokens):
        return []
    parts, depth = [[]], 0
    for token in tokens[1:-1]:
        depth += (token in "([{") - (token in ")]}")
        if token == "," and depth == 0:
            parts.append([])
        else:
            parts[-1].append(token)
    return [strip(part) for part in parts] if len(parts) > 1 else []


def arrows(tokens):
    """The types that arrows part, outside brackets."""
    out, part, place = [], [], 0
    while place < len(tokens):
        token = tokens[place]
        if token in ("(", "[", "{"):
            end = close_of(tokens, place)
            part += tokens[place:end]
            place = end
        elif token == "→":
            out, part, place = [*out, strip(part)], [], place + 1
        else:
            part, place = [*part, token], place + 1
    return [*out, strip(part)]


def hides(clauses, number):
    """Whether a clause stands behind one that takes a part of what its own patterns take: then it isn't the definition's by `refl`."""
    mine = patterns_of(clauses[number][0])
    for left, _, _ in clauses[:number]:
        for one, other in zip(patterns_of(left), mine):
            if not re.fullmatch(r"[a-z_]\w*", "".join(one)) and re.fullmatch(r"[a-z_]\w*", "".join(other)):
                return True
    return False


def patterns_of(left):
    place, out = 1, []
    while place < len(left):
        if is_space(left[place]):
            place += 1
            continue
        end = atom(left, place) or place + 1
        out.append(left[place:end])
        place = end
    return out


def said_clause(text, number):
    left, right, _ = text.clauses[number]
    return "".join([*left, " = ", *right])


class Writer:
    """Writes the folded definitions beside those that they stand for: each name is imported once, and none stands for two things."""

    def __init__(self, folded, keys):
        self.folded, self.keys = folded, keys
        twice = {key[2] for key in keys if sum(other[2] == key[2] for other in keys) > 1}
        self.shown = {key: f"{key[2]}_{key[0]}_shown" if key[2] in twice else f"{key[2]}_shown" for key in keys}
        self.imports, self.taken, self.operators = {}, {}, set()

    def local(self, means):
        """The word that stands for (module, name) in the file that is written."""
        if means not in self.imports:
            name = means[1]
            if name in self.taken:
                name = f"{means[1]}_of_{'_'.join(means[0].split('.')[1:2] + means[0].split('.')[-1:])}"
            self.taken[name] = means
            self.imports[means] = name
        return self.imports[means]

    def words(self, tokens):
        out = []
        for token in tokens:
            if isinstance(token, Word):
                out.append(self.local(token.means) + (f".{token.rest}" if token.rest else ""))
            else:
                out.append(token)
        return "".join(out)

    def copy_of(self, key):
        """A definition as it is shown, under a name of its own."""
        text = self.folded.texts[key]
        name = self.shown[key]
        kind = self.words(text.type[text.type.index(":") :])
        return [f"abbrev pub {name} {kind}"] + [f"{name}{self.words(left[1:])} = {self.words(right)}" for left, right, _ in text.clauses]

    def binders(self, key):
        """The variables of a definition as a law says them, and as it is applied to them."""
        text = self.folded.texts[key]
        parts, count = arrows(text.type[text.type.index(":") + 1 :]), len(patterns_of(text.clauses[0][0]))
        said, given = [], []
        for part in parts:
            if part and part[0] == "{":
                said.append(self.words(part))
                continue
            if len(given) == count:
                break
            named = re.match(r"\(([a-z]\w*) : (.*)\)$", self.words(part))
            given.append(named[1] if named else f"x{len(given)}")
            said.append(f"({given[-1]} : {named[2] if named else self.words(part)})")
        return said, given

    def law_of(self, key):
        mine = self.local((f"Rattle.{key[0]}.specs.{key[1]}", key[2]))
        said, given = self.binders(key)
        applied = " ".join(["", *given])
        return self.shown[key].removesuffix("_shown"), "".join(f"{one} → " for one in said) + f"{mine}{applied} {'↔' if self.is_type(key) else '≡'} {self.shown[key]}{applied}"

    def is_type(self, key):
        """Whether a definition says something, and gives no value."""
        return "".join(arrows(self.folded.texts[key].type)[-1]).endswith("Type 0")

    def opened(self, key):
        """What its proof opens: the definition and what is folded into it, where it is no abbreviation."""
        folded = [other for other in (key, *sorted(self.folded.changed[key])) if "unfoldable" in self.folded.texts[other].marks]
        return [self.local((f"Rattle.{other[0]}.specs.{other[1]}", other[2])) for other in folded]

    def uses(self, own):
        """The lines that import all that was written, but for what this crate's own files define."""
        modules = {}
        for (module, name), local in self.imports.items():
            modules.setdefault(module, set()).add(name if name == local else f"{name} as {local}")
        for module, name in self.operators:
            modules.setdefault(module, set()).add(name)
        return [f"use {module}.{{{', '.join(sorted(names))}}}" for module, names in sorted(modules.items())] + own

    def files(self):
        """The three files: the folded definitions, the law of them, its proof."""
        for key in self.keys:
            for other in (key, *self.folded.changed[key]):
                self.operators |= self.folded.names.table(*other[:2])[2]
        self.operators |= {("Rattle.std.specs.Prelude", "◌≡◌"), ("Rattle.std.specs.Prelude", "◌↔◌")}
        copies = [line for key in self.keys for line in ["", *self.copy_of(key)]]
        specs = ["-- What tests/reading.py shows of definitions into which it folds others. Made by it: `tests/reading.py fold`.",
                 *self.uses([]), *copies, ""]
        self.imports, self.taken, equal = {}, {}, "◌≡◌"
        laws = [self.law_of(key) for key in self.keys]
        shown = f"use Rattle.{CRATE}.specs.Folded.{{{', '.join(self.shown.values())}}}"
        law = ["-- That what is shown folded is what it stands for. Made by tests/reading.py: `tests/reading.py fold`.", *self.uses([shown]), "",
               "-- each definition is, at every input, what the page of the definitions shows in its place", "pub record FoldsHold : Type 0 where",
               *(f"  pub {name} : {what}" for name, what in laws), ""]
        self.imports, self.taken = {}, {}
        lemmas = []
        for key in self.keys:
            name, what = self.law_of(key)
            opened = self.opened(key)
            text = self.folded.texts[key]
            lemmas += ["", f"pub fold_{name} : {what}", *([f"unfolding {' '.join(opened)}"] if opened else [])]
            same = "(λ it. it, λ it. it)" if self.is_type(key) else "refl"
            lemmas += [f"fold_{name}{self.words(left[1:])} = {same}" for left, _, _ in text.clauses]
        proof = ["-- Each clause computes. Made by tests/reading.py: `tests/reading.py fold`.", "use Rattle.std.proofs.Common.{refl}",
                 *self.uses([shown, f"use Rattle.{CRATE}.specs.Laws.{{FoldsHold}}"]), *lemmas, "", "pub folds_hold : FoldsHold", "folds_hold = record {",
                 *(f"  {name} = fold_{name};" for name, _ in laws), "}", ""]
        return {SPECS: "\n".join(specs), LAW: "\n".join(law), PROOF: "\n".join(proof)}
