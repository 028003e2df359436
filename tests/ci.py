#!/usr/bin/env python3
# SPDX-License-Identifier: Apache-2.0 OR MIT
"""`rt ci` by its own code, at less cost: the same crates are proved, and the same verdicts are asked.

    tests/ci.py [--anew]            at the top of the repository; prints what `rt ci` prints, and its last line is 'N passed, M failed'
    tests/ci.py must-fail [NAME..]  the must-fail edits of these crates alone, as `rt must-fail`, over what `rt check` kept of them

One thing is done otherwise. A must-fail edit with lines 'only: PATH' (a function, as `rt check --only` takes it) is tried on what
they name and what that calls, where `rt` proves the whole crate once more. What the lines name is first checked without any edit,
and all of it has to be proved there. Each edit is tried over links to what that check left, of which no file may be another one
behind the edits. An edit then counts as refused only where less of it is proved, and the prover says of which clause: of what a
function ensures or requires, or of the invariant of a type or a loop. An edit without such a line, or one that isn't refused so,
is tried as `rt` does, on its whole crate, which has the last word.

And a text that changed while it was proved fails the run.

All this rests on how `rt` is written inside. Each thing that is used is looked at first: what isn't there as it is expected is
left to `rt` itself, which costs time and changes no verdict, and a line that begins with 'ci:' says so.
"""
import importlib.machinery
import importlib.util
import inspect
import os
import re
import shutil
import sys
import tempfile

sys.dont_write_bytecode = True
# What is used of `rt`, by the names of the parameters that it is called with.
RUNS = {"main": "words", "rtlib.guarded": ""}
EDITS = {
    "add_edits": "tasks crate edits first waits is_well kept start in_ci",
    "must_fail": "crate edit flags kept",
    "checked": "crate texts flags kept",
    "read_edit": "edit folder",
    "unread": "line changed",
    "need": "crate",
    "Kept.key": "self crate",
    "Kept.of_edit": "self edit sum",
    "Kept.tried": "self name",
    "Kept.keep_tried": "self name kind text",
    "Kept.is_untouched": "self crate",
}
SUMS = {"stamp_of": "crate seen", "rtlib.crates_below": "top"}
# The last line of a check of some functions alone: how many were asked for, and how many of them are proved.
LAST = re.compile(r"only=(\d+) proved=(\d+)")
# What the prover says where a clause or an invariant isn't met: at the source, or in the answer to a goal that one makes; but not
# where that answer only names what the edit took away.
AT_SOURCE = re.compile(r"note: (\./)?src/\S+:\d+:\d+: it is not proved that (what .* (ensures|requires) |the (\S+ )*`?invariant)")
NAMES = r"has no field|is not in scope|has no `|was not admitted"
IN_ANSWER = re.compile(rf"(\./)?proofs/\S+:\d+:\d+: error: `(returns|\S*(clause|requires|invariant|-preserved|-init))\S*`: (?!.*({NAMES}))")


def toolchain():
    """Returns the program `rt` as a module, or nothing where it can't be read as one."""
    path = shutil.which("rt") or sys.exit("ci: there is no rt")
    try:
        loader = importlib.machinery.SourceFileLoader("rt", os.path.realpath(path))
        made = importlib.util.module_from_spec(importlib.util.spec_from_loader("rt", loader))
        loader.exec_module(made)
    except (Exception, SystemExit) as error:
        print(f"ci: {path} can't be read as a module ({type(error).__name__}: {error})", flush=True)
        return None
    return made


def part_of(made, path):
    """Returns what a path below a module names, or nothing."""
    for name in path.split("."):
        made = getattr(made, name, None)
    return made


def lacking(made, parts):
    """Returns which of these parts `rt` doesn't have as they are expected."""
    found = []
    for path, names in parts.items():
        part = part_of(made, path)
        try:
            is_so = [*inspect.signature(part).parameters] == names.split()
        except (TypeError, ValueError):
            is_so = False
        found += [] if is_so else [path]
    return found


def has(made, parts, what):
    """Returns whether `rt` has these parts; says so where it hasn't."""
    found = lacking(made, parts)
    if found:
        print(f"ci: this rt has no {', '.join(found)} as it is expected, so {what}", flush=True)
    return not found


def paths_of(edit):
    """Returns what an edit's lines 'only:' name."""
    with open(edit, encoding="utf-8", errors="replace") as it:
        return re.findall(r"(?m)^only: (\S+)\s*$", it.read())


def refusal(lines):
    """Returns the line by which the prover refuses a clause or an invariant, or nothing."""
    return next((it for found in (AT_SOURCE, IN_ANSWER) for it in lines if found.match(it)), "")


def linked(folder, to):
    """Copies what a check kept: what was proved by links, where these can be made, since a check replaces such a file and changes none."""

    def copy(one, other):
        try:
            if one.endswith(".oantt"):
                return os.link(one, other)
        except OSError:
            pass
        return shutil.copy2(one, other)

    shutil.copytree(folder, to, copy_function=copy)


def files_of(folder):
    """Returns what tells whether a file of the folder was changed, lost or added."""
    found = {}
    for at, _, names in os.walk(folder):
        for name in names:
            about = os.stat(f"{at}/{name}")
            found[f"{at}/{name}"] = about.st_ino, about.st_size, about.st_mtime_ns
    return found


class Edits:
    """How must-fail edits are tried: on what they name alone, and what isn't refused so by `rt` itself."""

    def __init__(self, rt, kept_of=lambda crate: ""):
        # (kept_of gives the folder of a crate's kept work, of which a copy is taken, or nothing)
        self.rt, self.kept_of = rt, kept_of

    def add(self, tasks, crate, edits, first, waits, is_well, kept, start=None, in_ci=True):
        """Adds the task that tries a crate's edits: what `rt` asks of its `add_edits`. Returns what gives their results, in the edits' order,
        and what gives those of earlier runs."""
        key, earlier = (crate.name, "edits", 0), {}

        def try_all(given, jobs):
            names = [kept.of_edit(it, kept.key(crate)) for it in edits] if in_ci else []
            earlier.update((at, it) for at, it in enumerate(map(kept.tried, names)) if it)
            if not is_well(given, len(edits) - len(earlier)):
                return []
            left = [it for at, it in enumerate(edits) if at not in earlier]
            told = self.all(crate, left, ["--jobs", "1"], start or self.kept_of(crate))
            for at, name in enumerate(names):
                if at not in earlier and told[edits[at]][0] == self.rt.REFUSED and kept.is_untouched(crate):
                    kept.keep_tried(name, *told[edits[at]])
            return [earlier.get(at) or told[it] for at, it in enumerate(edits)]

        if edits:
            tasks[key] = (waits, crate.count(rb"\n"), self.rt.need(crate), try_all)
        return lambda given: given.get(key, []), lambda: earlier

    def count(self, crate, texts, flags, kept, paths):
        """Checks what the paths name, with these texts in place of the crate's. Returns how many functions were asked for, how many of them
        are proved, and what was said."""
        ran = self.rt.checked(crate, texts, [*flags, *(f"--only={it}" for it in paths)], kept)
        lines = ran.stdout.rstrip("\n").split("\n")
        found = LAST.fullmatch(lines[-1]) if ran.returncode in (0, 1) else None
        return (int(found[1]), int(found[2]), lines) if found else (0, 0, lines)

    def is_read(self, lines, texts):
        """Returns whether the prover could read the edited texts, and what was kept of the libraries below."""
        return not any(self.rt.unread(it, texts) for it in lines) and not any("Run the lower steps again" in it for it in lines)

    def alone(self, crate, edits, flags, kept):
        """Tries the edits that name what they change on that alone, each over links to what `kept` holds once that is proved without an edit.
        Returns what is to be said of those that are refused so: of none where it isn't proved, or a file that was kept is another one then."""
        named = {it: paths_of(it) for it in edits}
        paths, told = sorted({path for it in named.values() for path in it}), {}
        if paths and not self.is_proved(crate, flags, kept, paths):
            paths = [it for it in paths if self.is_proved(crate, flags, kept, [it])] if len(paths) > 1 else []
        before = files_of(kept)
        for edit in edits:
            texts, why = self.rt.read_edit(edit, crate.folder)
            if why or not named[edit] or not {*named[edit]} <= {*paths}:
                continue
            found, left, lines = self.over_links(crate, texts, flags, kept, named[edit])
            said = refusal(lines)
            if left < found and said and self.is_read(lines, texts):
                label = f"must-fail {crate.name}/{os.path.basename(edit)}"
                told[edit] = self.rt.REFUSED, f"{label}: refused, as it must be (of {' '.join(named[edit])} {left} of {found} proved): {said[:200]}"
            else:
                print(f"ci: {crate.name}/{os.path.basename(edit)} isn't refused in a clause of {' '.join(named[edit])}, so it is tried on the whole crate", flush=True)
        is_same = files_of(kept) == before
        if not is_same:
            print(f"ci: {crate.name}: what its edits were tried over is no longer what it was, so they are tried on the whole crate", flush=True)
        return told if is_same else {}

    def over_links(self, crate, texts, flags, kept, paths):
        """Checks what the paths name, with these texts, over links to what is kept."""
        over = f"{kept}.edit"
        try:
            linked(kept, over)
            return self.count(crate, texts, flags, over, paths)
        finally:
            shutil.rmtree(over, ignore_errors=True)

    def is_proved(self, crate, flags, kept, paths):
        """Returns whether all that the paths name is proved without any edit; says so where it isn't."""
        asked, proved, lines = self.count(crate, {}, flags, kept, paths)
        is_so = 0 < asked == proved
        if not is_so:
            print(f"ci: {crate.name}: {' '.join(paths)} can't be proved alone: {lines[-1][:200]}", flush=True)
        return is_so

    def all(self, crate, edits, flags, was):
        """Tries the edits of a crate, over a copy of what was kept, where a folder is named. Returns what each comes to, and what to say."""
        told = {}
        with tempfile.TemporaryDirectory(prefix=f"rt-edits-{os.getpid()}-") as room:
            try:
                kept = f"{room}/kept"
                if was and os.path.isdir(was):
                    shutil.copytree(was, kept)
                told = self.alone(crate, edits, flags, kept)
            except (Exception, SystemExit) as error:
                print(f"ci: {crate.name}: edits can't be tried alone ({type(error).__name__}: {error}), so they are tried on the whole crate", flush=True)
        return {it: told.get(it) or self.rt.must_fail(crate, it, flags) for it in edits}


class Sums:
    """The sums of crates' texts, as they are when this is made: of all that `crates.txt` lists."""

    def __init__(self, rt):
        self.rt, self.made, self.crates = rt, {}, []
        try:
            self.crates = rt.rtlib.crates_below(os.getcwd())
            self.made = self.now()
        except (Exception, SystemExit):
            # (`rt` says itself what is wrong)
            pass

    def now(self):
        seen = {}
        return {it.name: self.rt.stamp_of(it, seen) for it in self.crates}

    def of(self, crate):
        """Returns a crate's sum."""
        return self.made.get(crate.name)

    def changed(self):
        """Returns the crates whose texts, or those of a crate below, aren't as they were when their sums were made."""
        now = self.now() if self.made else {}
        return sorted(it for it, sum in self.made.items() if sum != now[it])


def main(words, look=lambda rt: None):
    """Runs `rt ci`, or `rt must-fail`, at less cost where this `rt` lets it. What `look` does with that `rt` is done first."""
    rt = toolchain()
    if rt is None or not has(rt, RUNS, f"all is left to `rt {words[0]}`"):
        sys.stdout.flush()
        os.execvp("rt", ["rt", *words])
    sums = None
    look(rt)
    if words[0] == "ci" and has(rt, SUMS, "nothing looks whether texts change while they are proved"):
        sums = Sums(rt)
    if has(rt, EDITS, "each edit is tried on its whole crate"):
        rt.add_edits = Edits(rt).add
    try:
        status = rt.main(words)
    except Exception as error:
        print(f"ci: {type(error).__name__}: {error}; so all is begun again, by `rt {' '.join(words)}`", flush=True)
        os.execvp("rt", ["rt", *words])
    changed = sums.changed() if sums else []
    if changed:
        print(f"ci: texts changed while they were proved: {' '.join(changed)}\n0 passed, {len(changed)} failed")
        return 1
    return status


if __name__ == "__main__":
    if sys.argv[1:] not in ([], ["--anew"]) and sys.argv[1:2] != ["must-fail"]:
        sys.exit(__doc__)
    sys.exit(main(sys.argv[1:] if sys.argv[1:2] == ["must-fail"] else ["ci", *sys.argv[1:]]))
