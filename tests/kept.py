#!/usr/bin/env python3
# SPDX-License-Identifier: Apache-2.0 OR MIT
"""All that `rt ci` does, over the proofs that earlier checks kept where there are some; and what is kept.

    tests/kept.py gate [FILE]  at the top of the repository: every crate, its must-fail edits, tests, builds and runs; its last lines
                               also go into FILE
    tests/kept.py fill         keeps what `rt check` left in crates/*/out, for later gates; `make check` ends with it
    tests/kept.py show         says what is kept, and when each crate was last proved from nothing

Kept work lies in $XDG_CACHE_HOME/orgviews/kept, else in ~/.cache/orgviews/kept, in a folder for each build of the toolchain. It is
taken only where nobody else can write to it; each file has a sum, and a crate of which one file has another is thrown away.

Where nothing is kept, `gate` is tests/ci.py: everything is proved from nothing. So it is with WHOLE=1, and wherever something
isn't as it is expected, as the folder, its room or how `rt` is written inside. Else there are two stages.

What `rt ci` itself proved from nothing on this machine, of the same files over libraries of the same files, it keeps beside the
toolchain and takes again; so it does here, but with WHOLE=1, where this run proves everything.

First all that `rt ci` does, but a function that the prover finds kept and up to date isn't proved again; a verdict's last line then
has incremental=trusted. Then, until MINUTES after the start (150), crates are proved from nothing: first those that FIRST names,
then those that were left out for want of time a week ago, then those whose texts, or those of a crate below, never were, then
those for which it is longest ago. What is proved so is held beside what was kept, file by file, and takes its place. A proof that
fails there, or a file that differs, fails the gate, and what was kept of that crate is thrown away. The end says which crates were
proved from nothing by this run, and of each other one when and at which commit it last was.
"""
import copy
import fcntl
import hashlib
import inspect
import json
import os
import re
import shutil
import signal
import stat
import subprocess
import sys
import tempfile
import threading
import time
from concurrent.futures import ThreadPoolExecutor

sys.dont_write_bytecode = True
sys.path.insert(0, os.path.dirname(os.path.realpath(__file__)))
import ci

START = time.monotonic()
# What of `rt` is used beside what tests/ci.py uses, by the names of the parameters.
PARTS = {
    "ci_over": "aside anew names origin",
    "processors": "",
    "free": "",
    "say": "text out",
    "Crate.prove": "self commands",
    "Crate.ci": "self flags tests",
    "Crate.link": "self made program",
    "Crate.compile_by": "self backend words to",
    "Kept.key": "self crate",
    "Kept.place": "self crate tests key",
    "Kept.give": "self crate tests key",
    "Kept.keep": "self crate tests key",
    "rtlib.Crate.words": "self flags tests keeps as_source",
    "rtlib.Crate.build_rlib": "self flags anew",
    "rtlib.Crate.has_tests": "self",
    "rtlib.Crate.count": "self pattern",
    "rtlib.crates_below": "top",
}
# These are done otherwise over kept work, so their text has to be what it was when that was written: its sum.
TEXTS = (
    *("ci_over", "crates_of", "Kept.key", "Kept.give", "Kept.keep", "Kept.place", "Crate.prove", "Crate.ci", "Crate.link", "Crate.compile_by"),
    *("rtlib.Crate.prove", "rtlib.Crate.build_rlib", "rtlib.Crate.words"),
)
KNOWN_TEXTS = {"c1f9a822f86029586593c4b2085a1f112a43583551b1e3466faeeab798095ce4"}
# What the kept work of all crates takes at most, and what has to be free beside what is there already.
MOST_KEPT, LEAST_FREE = 15_000_000_000, 4_000_000_000
WEEK = 7 * 86_400
# The most memory that a check over kept work has been seen to take with one job, in bytes.
MOST_MEMORY = 8_600_000_000
# How much longer than the last time a proof may take, at most, and what one is taken to cost of which nothing is known.
SLOWER, UNKNOWN = 1.3, 120


def number(name, other):
    """Returns the number that a variable of the environment has, or another where it has none."""
    given = os.environ.get(name, "")
    return int(given) if given.isdigit() else other


def cache():
    """Returns the folder of the person's own in which work is kept, or nothing where the environment names none."""
    given, home = os.environ.get("XDG_CACHE_HOME", ""), os.environ.get("HOME", "")
    base = given if os.path.isabs(given) else f"{home}/.cache" if os.path.isabs(home) else ""
    return f"{base}/orgviews/kept" if base else ""


def unsafe(path):
    """Returns why others could change what lies at a path, or nothing: every folder on the way to it counts, also behind links."""
    for at in (os.path.abspath(path), os.path.realpath(path)):
        while True:
            try:
                about = os.lstat(at)
                is_link, is_open = stat.S_ISLNK(about.st_mode), about.st_mode & 0o022 and not about.st_mode & stat.S_ISVTX
                if about.st_uid not in (0, os.geteuid()) or is_open and not is_link:
                    return f"others can write to {at}"
            except FileNotFoundError:
                pass
            if at == "/":
                break
            at = os.path.dirname(at)
    about = os.stat(path) if os.path.exists(path) else None
    if about and (not stat.S_ISDIR(about.st_mode) or about.st_uid != os.geteuid() or about.st_mode & 0o022):
        return f"{path} is no folder of one's own"
    return ""


def make(path):
    """Makes a folder, and those on the way to it, for nobody else."""
    if not os.path.isdir(path):
        make(os.path.dirname(path))
        os.mkdir(path, 0o700)


def name_of_kit(rt):
    """Returns a name for this build of the toolchain."""
    with open(f"{rt.KIT}/KIT-ID", "rb") as it:
        held = it.read()
    words = re.sub(r"[^\w.-]+", "-", held.split(b"\n")[0].decode(errors="replace").strip())
    return f"{words[:80]}-{hashlib.sha256(held).hexdigest()[:12]}"


def files_below(folder):
    """Returns the files below a folder, by their path in it."""
    return sorted(os.path.relpath(f"{at}/{name}", folder) for at, _, names in os.walk(folder) for name in names)


def sum_of(path):
    with open(path, "rb") as it:
        return hashlib.file_digest(it, "sha256").hexdigest()


def sums_of(folder):
    """Returns the sum of each file below a folder; what is no plain file has none."""
    names = files_below(folder)
    with ThreadPoolExecutor(len(os.sched_getaffinity(0))) as pool:
        paths = [f"{folder}/{it}" for it in names]
        return dict(zip(names, pool.map(lambda it: sum_of(it) if os.path.isfile(it) and not os.path.islink(it) else "none", paths)))


def read(path):
    """Returns what a file says, or nothing where it can't be read as that."""
    try:
        with open(path, encoding="utf-8") as it:
            found = json.load(it)
    except (OSError, ValueError):
        found = {}
    return found if isinstance(found, dict) else {}


def write(what, path):
    with open(f"{path}.new", "w", encoding="utf-8") as it:
        json.dump(what, it)
    os.replace(f"{path}.new", path)


class Store:
    """The folder of this build of the toolchain: a folder for each crate's kept work, beside it the sums of its files, and when each crate
    was last proved from nothing. Sums are written as each check ends, so that a run that is cut off loses only what was being checked."""

    def __init__(self, path):
        self.path, self.guard, self.proved = path, threading.Lock(), read(f"{path}/proved.json")

    def of(self, key):
        return f"{self.path}/{key}"

    def keys(self):
        """Returns the crates of which work is kept."""
        return sorted(it for it in os.listdir(self.path) if os.path.isdir(self.of(it)))

    def sums(self, key):
        """Returns the sums of what the last check left of a crate."""
        return read(f"{self.of(key)}.sums")

    def renew(self, key):
        """Takes the sums of what is kept of a crate."""
        write(sums_of(self.of(key)), f"{self.of(key)}.sums")

    def drop(self, key):
        """Throws away what is kept of a crate."""
        shutil.rmtree(self.of(key), ignore_errors=True)
        if os.path.exists(f"{self.of(key)}.sums"):
            os.remove(f"{self.of(key)}.sums")

    def drop_damaged(self):
        """Throws away what isn't as the last check left it."""
        for key in self.keys():
            if self.sums(key) != sums_of(self.of(key)):
                print(f"kept: what was kept of {key} isn't as the last check left it, and is thrown away", flush=True)
                self.drop(key)

    def note(self, key, stamp, seconds, commit, at=None):
        """Writes down that a crate was proved from nothing: by this run, or at the time that is given."""
        with self.guard:
            self.proved[key] = {"stamp": stamp, "at": at or time.time(), "seconds": seconds, "commit": commit}
            write(self.proved, f"{self.path}/proved.json")

    def note_left(self, key):
        """Writes down since when a crate has waited for its turn."""
        with self.guard:
            self.proved.setdefault(key, {}).setdefault("left", time.time())
            write(self.proved, f"{self.path}/proved.json")


def opened(rt, makes):
    """Returns the store and what holds it for this run; or why it can't be used."""
    path = cache()
    if not path:
        return None, None, "neither XDG_CACHE_HOME nor HOME names a folder"
    try:
        why = unsafe(path)
        if why:
            return None, None, why
        own = f"{path}/{name_of_kit(rt)}"
        if makes:
            make(own)
        if not os.path.isdir(own):
            return None, None, f"nothing is kept in {path} of this toolchain"
        # A folder that nobody else gets into keeps all below it.
        why = unsafe(own) or (f"others can get into {own}" if os.stat(own).st_mode & 0o077 else "")
        if why:
            return None, None, why
        held = sum(os.path.getsize(f"{own}/{it}") for it in files_below(own))
        free, wanted = shutil.disk_usage(own).free, max(MOST_KEPT - held, LEAST_FREE)
        if free < wanted:
            return None, None, f"{own} has {free / 1e9:.0f} GB free, and not {wanted / 1e9:.0f}"
        lock = open(f"{own}/lock", "w")
        fcntl.flock(lock, fcntl.LOCK_EX | fcntl.LOCK_NB)
        return Store(own), lock, ""
    except OSError as error:
        return None, None, f"{path}: {error.strerror or error}"


def commit():
    """Returns the commit that is checked out, marked where files differ from it."""
    try:
        ran = subprocess.run(["git", "describe", "--always", "--dirty", "--abbrev=8", "--exclude=*"], capture_output=True, text=True)
        return ran.stdout.strip() or "no commit"
    except OSError:
        return "no commit"


def key_of(name, tests):
    return f"{name}-tests" if tests else name


def told(key):
    """Returns how a crate, or one with its tests, is named to people."""
    return f"{key[: -len('-tests')]} with its tests" if key.endswith("-tests") else key


def class_over(rt, store, anew):
    """Returns a class of crates whose checks take from the store what is up to date, and keep there what they check. What was checked with
    nothing to take is noted in `anew`, with its seconds."""
    plain = rt.Crate

    class Kept(plain):
        def prove(self, *commands):
            key = key_of(self.name, "--test" in commands[0])
            is_empty, began = not files_below(store.of(key)), time.monotonic()
            try:
                status = super().prove(*[[*it, "--incremental", store.of(key)] for it in commands])
            finally:
                store.renew(key)
            if status and not is_empty:
                rt.say("that was over kept work; WHOLE=1 proves it from nothing", self.out)
            if not status and is_empty:
                anew[key] = time.monotonic() - began
            return status

        def ci(self, flags, tests):
            # (a library that is built over kept work holds its proofs: rattle refuses --statements there)
            self.cuts_libraries = False
            if tests or not self.is_program:
                return super().ci(flags, tests)
            # (a check over kept work records no checked crate, so the second compiler's build looks at the kept work once more)
            words, to = [*self.words(flags, keeps=False), "--toolchain", f"{rt.KIT}/toolchain"], f"out/{self.name}"
            status = self.prove(["build", *words, "--backend", "llvm", "-o", f"{to}.o"]) or self.link(f"{to}.o", to)
            status = status or self.compile_by("rattle", [*words, "--incremental", store.of(self.name)], to)
            if not status and not os.path.isfile(f"{self.folder}/{to}{rt.BACKENDS['rattle']}"):
                rt.say(f"{self.name} isn't built by Rattle's own compiler over kept work", self.out)
                return 1
            return status

        def from_nothing(self, tests):
            """Proves the crate, or it with its tests, with nothing of its own taken from the store, and builds nothing. What this keeps is
            held beside what was kept of the same texts, and takes its place."""
            key = key_of(self.name, tests)
            fresh = f"{store.of(key)}.fresh"
            shutil.rmtree(fresh, ignore_errors=True)
            status = plain.prove(self, ["check", *self.words(["--jobs", "1"], tests=tests, keeps=False), "--incremental", fresh])
            others = [] if status else differing(store.of(key), fresh)
            if others:
                rt.say(f"{len(others)} kept files aren't what this proof gives, as {os.path.basename(others[0])}", self.out)
            if status or others:
                shutil.rmtree(fresh, ignore_errors=True)
                return status or 1
            shutil.rmtree(store.of(key), ignore_errors=True)
            os.replace(fresh, store.of(key))
            store.renew(key)
            return 0

    return Kept


def noting(rt, taken, is_from_nothing=lambda key: True):
    """Returns a class of what `rt` keeps itself of crates that it proved from nothing. What it gives is noted in `taken`, with the time of
    that proof; what wasn't proved from nothing it doesn't get."""
    plain = rt.Kept

    class Own(plain):
        def give(self, crate, tests, key):
            is_given = super().give(crate, tests, key)
            if is_given:
                taken[key_of(crate.name, tests)] = os.path.getmtime(f"{self.place(crate, tests, key)}/made.json")
            return is_given

        def keep(self, crate, tests, key):
            if is_from_nothing(key_of(crate.name, tests)):
                super().keep(crate, tests, key)

    return Own


def parts_of(path):
    """Returns the front of a kept file, which says of which texts it is, and the file's sum."""
    with open(path, "rb") as it:
        held = it.read()
    front, head, _ = held.partition(b"\n--@ head ")
    return front if head else None, hashlib.sha256(held).hexdigest()


def differing(kept, fresh):
    """Returns the kept files that are of the same texts as the fresh ones, and yet not the same."""
    found = []
    for name in files_below(fresh):
        other = f"{kept}/{name}"
        if name.endswith(".oantt") and os.path.isfile(other):
            (front, made), (front_there, made_there) = parts_of(f"{fresh}/{name}"), parts_of(other)
            if front is not None and front == front_there and made != made_there:
                found.append(other)
    return found


class Turns:
    """The second stage: which crates are proved from nothing, in which order, while the time lasts."""

    def __init__(self, rt, store, sums, anew, taken):
        self.rt, self.store, self.sums, self.anew, self.taken = rt, store, sums, anew, taken
        self.minutes = number("MINUTES", 150)
        self.first = (os.environ.get("FIRST") or "").split()
        self.guard, self.failed = threading.Lock(), []

    def left(self):
        """Returns how many seconds are left."""
        return 60 * self.minutes - (time.monotonic() - START)

    def is_new(self, crate, key):
        return self.store.proved.get(key, {}).get("stamp") != self.sums.of(crate)

    def rank(self, crate, key):
        """Returns by what crates come one after the other."""
        row = self.store.proved.get(key, {})
        is_due = row.get("left", time.time()) < time.time() - WEEK
        return crate.name not in self.first, not is_due, not self.is_new(crate, key), row.get("at", 0)

    def likely(self, crate, key):
        """Returns how many seconds a proof from nothing is likely to take: as the last time, else by lines as the others did."""
        lines = {it.name: it.count(rb"\n") for it in self.crates}
        seen = [(row["seconds"], lines[it]) for it, row in self.store.proved.items() if it in lines and row.get("seconds")]
        by_line = sum(it for it, _ in seen) / max(sum(it for _, it in seen), 1)
        return self.store.proved.get(key, {}).get("seconds") or max(UNKNOWN, by_line * lines[crate.name])

    def run(self, crates):
        """Proves crates from nothing while the time lasts. Returns what failed."""
        self.crates = crates
        waiting = [(it, key_of(it.name, tests)) for it in crates for tests in (False, True) if not tests or it.has_tests()]
        waiting = sorted((it for it in waiting if it[1] not in self.anew and it[1] not in self.taken), key=lambda it: self.rank(*it))
        lanes = number("RT_JOBS", self.rt.processors())
        with ThreadPoolExecutor(lanes) as pool:
            for it in [pool.submit(self.lane, waiting) for _ in range(lanes)]:
                it.result()
        for _, key in waiting:
            self.store.note_left(key)
        return self.failed

    def lane(self, waiting):
        """Takes one crate after the other that fits into what is left of the time. One that FIRST names is taken whether it fits or not."""
        while True:
            with self.guard:
                fit = [it for it in waiting if it[0].name in self.first or SLOWER * self.likely(*it) < self.left()]
                if not fit or self.failed:
                    return
                waiting.remove(fit[0])
            self.prove(*fit[0])

    def prove(self, crate, key):
        """Proves one crate from nothing, and writes down what came out."""
        began, tests, crate = time.monotonic(), key != crate.name, copy.copy(crate)
        with tempfile.TemporaryFile("w+", errors="replace") as crate.out:
            status = 1
            try:
                status = crate.from_nothing(tests)
                if status == -signal.SIGKILL:
                    self.rt.say("the check was killed, most likely for memory: once more", crate.out)
                    status = crate.from_nothing(tests)
            except (Exception, SystemExit) as error:
                print(f"{type(error).__name__}: {error}", file=crate.out)
            crate.out.seek(0)
            said = crate.out.read()
        with self.guard:
            if status:
                self.failed.append(told(key))
                # The crate without its tests, or it with them, has the same functions.
                for it in (key_of(crate.name, False), key_of(crate.name, True)):
                    self.store.drop(it)
                print(f"{said}\nkept: {told(key)} is proved over kept work, and NOT from nothing, or not as it was kept: the lines above say which", flush=True)
            else:
                self.anew[key] = time.monotonic() - began
                self.store.note(key, self.sums.of(crate), self.anew[key], commit())
                print(f"kept: {told(key)} proved from nothing", flush=True)


def say_at_end(lines, path, is_shown=True):
    """Prints lines, and writes them into a file, where one is named, for the end of the gate."""
    if is_shown:
        print("\n".join(lines), flush=True)
    if path:
        with open(path, "w", encoding="utf-8") as it:
            it.write("".join(f"{line}\n" for line in lines))


def keys_of(crates):
    """Returns what is to be proved: crates, and those that have tests with them too."""
    return [(it, key_of(it.name, tests)) for it in crates for tests in (False, True) if not tests or it.has_tests()]


def say_ours(keys, is_ours):
    """Returns the line that says what this run proved from nothing."""
    ours = [told(key) for _, key in keys if is_ours(key)]
    return f"kept: {len(ours)} of {len(keys)} proofs were made from nothing by this run: {', '.join(ours) or 'none'}"


def say_taken(key, at):
    """Returns the line of what an earlier run proved from nothing."""
    return f"kept: {told(key)} was proved from nothing by an earlier run, of the same files: {time.strftime('%Y-%m-%d %H:%M', time.gmtime(at))}"


def report(crates, store, sums, anew, taken):
    """Returns lines that say which crates were proved from nothing by this run, and of each other one when it last was."""
    keys = keys_of(crates)
    lines = [say_ours(keys, lambda key: key in anew)]
    for crate, key in keys:
        if key in taken and key not in anew:
            lines.append(say_taken(key, taken[key]))
        elif key not in anew:
            row = store.proved.get(key, {})
            when = f"{time.strftime('%Y-%m-%d %H:%M', time.gmtime(row['at']))} at {row['commit']}" if "at" in row else "never"
            other = ", of other texts" if "at" in row and row.get("stamp") != sums.of(crate) else ""
            lines.append(f"kept: {told(key)} rests on kept work; from nothing: {when}{other}")
    return lines


def why_whole(rt):
    """Returns why kept work can't be taken with this `rt`, or nothing."""
    missing = [*ci.lacking(rt, {**ci.RUNS, **ci.EDITS, **ci.SUMS, **PARTS}), *(it for it in ("KIT", "BACKENDS", "rtlib.VERDICT") if ci.part_of(rt, it) is None)]
    if missing:
        return f"this rt has no {', '.join(missing)} as it is expected"
    try:
        texts = "".join(inspect.getsource(ci.part_of(rt, it)) for it in TEXTS)
    except (OSError, TypeError) as error:
        return f"the text of this rt can't be read: {error}"
    if hashlib.sha256(texts.encode()).hexdigest() not in KNOWN_TEXTS:
        return "this rt isn't one that is known here"
    return ""


def in_two_stages(rt, store, path):
    """Runs both stages, within `rt ci`: behind its end crates/*/out has again what the session's own checks had left there."""
    anew, taken, sums, stage_one = {}, {}, ci.Sums(rt), rt.ci_over
    rt.add_edits = ci.Edits(rt, lambda crate: store.of(crate.name)).add
    rt.Crate = class_over(rt, store, anew)
    rt.Kept = noting(rt, taken, lambda key: key in anew)
    # A verdict's last line may have this one word more.
    rt.rtlib.VERDICT = re.compile(rt.rtlib.VERDICT.pattern.replace(r"\n\Z", r"( incremental=trusted)?\n\Z"), re.M)

    def both(*given):
        status = stage_one(*given)
        crates = rt.rtlib.crates_below(os.getcwd())
        by_key = {key_of(it.name, tests): it for it in crates for tests in (False, True)}
        for key, seconds in anew.items():
            store.note(key, sums.of(by_key[key]), seconds, commit())
        if status:
            return status
        failed = Turns(rt, store, sums, anew, taken).run(crates)
        changed = sums.changed()
        failed += [f"{it} (its texts changed meanwhile)" for it in changed]
        say_at_end([*report(crates, store, sums, anew, taken), *([f"kept: FAILED: {', '.join(failed)}"] if failed else [])], path)
        if failed:
            print(f"0 passed, {len(failed)} failed", flush=True)
        return 1 if failed else 0

    rt.ci_over = both
    # (each check may need more memory than one from nothing does)
    os.environ["RT_JOBS"] = str(max(1, min(number("RT_JOBS", rt.processors()), int(0.85 * rt.free() / MOST_MEMORY))))
    return rt.main(["ci"])


def whole(path, is_asked=False):
    """Proves everything from nothing, but what an earlier run of `rt ci` proved so, where WHOLE doesn't ask for all. Where that is done, and
    there is a store, it has that every crate was."""
    taken, made, says = {}, [], ["kept: everything was proved from nothing"]
    # (it stays so where `rt` can't be looked into)
    say_at_end(says if is_asked else [f"{says[0]}, by this run or by an earlier one"], path, is_shown=False)

    def look(rt):
        if not ci.lacking(rt, {it: PARTS[it] for it in ("Kept.place", "Kept.give", "Kept.keep")}):
            rt.Kept = noting(rt, taken)
        made.append(rt)

    status = ci.main(["ci", "--anew"] if is_asked else ["ci"], look)
    rt = made[0] if made and not status else None
    keys = keys_of(rt.rtlib.crates_below(os.getcwd())) if rt else []
    if taken:
        says = [say_ours(keys, lambda key: key not in taken), *(say_taken(key, at) for key, at in sorted(taken.items()))]
    say_at_end(says, path)
    store, lock, why = opened(rt, makes=False) if rt and not why_whole(rt) else (None, None, "")
    if store:
        sums = ci.Sums(rt)
        for crate, key in keys:
            store.note(key, sums.of(crate), store.proved.get(key, {}).get("seconds"), commit(), taken.get(key))
    return status


def gate(path=None):
    """Runs the gate's proofs, edits, tests and builds."""
    rt = ci.toolchain()
    why, store, lock = "WHOLE is set", None, None
    if os.environ.get("WHOLE", "0") in ("", "0"):
        why = "rt can't be read" if rt is None else why_whole(rt)
        if not why:
            store, lock, why = opened(rt, makes=False)
    if store:
        store.drop_damaged()
        why = "" if store.keys() else "nothing is kept"
    if why:
        print(f"kept: everything is proved from nothing: {why}", flush=True)
        return whole(path, why == "WHOLE is set")
    print(f"kept: over what {store.path} has of {len(store.keys())} proofs", flush=True)
    try:
        return in_two_stages(rt, store, path)
    except Exception as error:
        # (by a process of its own: nothing of what was put into this `rt` is to stay)
        print(f"kept: {type(error).__name__}: {error}; so all is begun again, from nothing", flush=True)
        os.environ["WHOLE"] = "1"
        os.execvp("python3", ["python3", os.path.realpath(__file__), "gate", *([path] if path else [])])


def keep(was, store, key):
    """Copies what a check left into the store, as far as it differs."""
    to, sums, found = store.of(key), store.sums(key), {}
    for name in files_below(was):
        mine, kept = os.stat(f"{was}/{name}"), f"{to}/{name}"
        there = os.stat(kept) if os.path.isfile(kept) else None
        if not there or (mine.st_size, mine.st_mtime_ns) != (there.st_size, there.st_mtime_ns) or name not in sums:
            make(os.path.dirname(kept))
            shutil.copy2(f"{was}/{name}", f"{kept}.new")
            os.replace(f"{kept}.new", kept)
            sums[name] = sum_of(kept)
        found[name] = sums[name]
    for name in files_below(to):
        if name not in found:
            os.remove(f"{to}/{name}")
    write(found, f"{to}.sums")


def fill():
    """Keeps what `rt check` left of each crate."""
    rt = ci.toolchain()
    why = "rt can't be read" if rt is None else why_whole(rt)
    store, lock, why = (None, None, why) if why else opened(rt, makes=True)
    if why:
        print(f"kept: nothing is kept: {why}")
        return 0
    kept = 0
    try:
        for crate in rt.rtlib.crates_below(os.getcwd()):
            was = f"{crate.folder}/out/incremental"
            if files_below(was):
                keep(was, store, crate.name)
                kept += 1
    except OSError as error:
        # (a crate that was copied in part has sums of another time, and is thrown away by the next gate)
        print(f"kept: {store.path}: {error.strerror or error}")
    print(f"kept: the proofs of {kept} crates, in {store.path}")
    return 0


def show():
    """Says what is kept."""
    rt = ci.toolchain()
    store, lock, why = opened(rt, makes=False) if rt else (None, None, "rt can't be read")
    if why:
        print(f"kept: {why}")
        return 0
    for key in sorted({*store.keys(), *store.proved}):
        row, files = store.proved.get(key, {}), files_below(store.of(key))
        size = sum(os.path.getsize(f"{store.of(key)}/{it}") for it in files)
        when = f"{time.strftime('%Y-%m-%d %H:%M', time.gmtime(row['at']))} at {row['commit']}" if "at" in row else "never"
        print(f"{told(key):32} {size / 1e6:7.0f} MB   from nothing: {when}")
    return 0


if __name__ == "__main__":
    verbs = {"gate": gate, "fill": fill, "show": show}
    sys.exit(verbs[sys.argv[1]](*sys.argv[2:]) if sys.argv[1:] and sys.argv[1] in verbs else __doc__)
