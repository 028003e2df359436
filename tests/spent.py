#!/usr/bin/env python3
"""What the checks of a run spend, looked at from outside once a second: processor seconds and memory of each `rattle`.

    tests/spent.py watch PID FILE       watches what PID starts, and writes FILE every half minute and when it is told to end
    tests/spent.py tell FILE [MINUTES]  prints what FILE says: processor minutes by kind, and the ten dearest crates;
                                        of so many processor minutes in all, where they are named, also what is left
    tests/spent.py lanes                prints how many checks fit side by side, by processors and free memory, or nothing
                                        where two don't fit or `rt` doesn't say

A line of FILE is a check: crate, kind, processor seconds, the most memory at once in MB. A check's last second is lost, and so
is what ends within one. The gate runs this beside `rt ci`; nothing in it depends on what comes out.
"""
import importlib.machinery
import importlib.util
import os
import re
import shutil
import signal
import sys
import time

sys.dont_write_bytecode = True

TICKS = os.sysconf("SC_CLK_TCK")
PAGE = os.sysconf("SC_PAGE_SIZE")
# The most memory that checks with one job have been seen to take, of another crate each, the most first: docs/new-code.md says
# which, and how it was measured.
MOST = (7_700_000_000, 5_800_000_000, 5_600_000_000, 5_100_000_000)
KINDS = ("proofs", "edits", "tests", "builds")
LINE = rf"\w+ ({'|'.join(KINDS)}) [0-9.]+ [0-9]+"


def text_of(path):
    with open(path, "rb") as it:
        return it.read().decode(errors="replace")


def processes():
    """Returns each process that runs: its parent, its name, when it began, and its processor seconds with its ended children's."""
    found = {}
    for pid in filter(str.isdigit, os.listdir("/proc")):
        try:
            front, _, back = text_of(f"/proc/{pid}/stat").rpartition(")")
            fields = back.split()
            found[int(pid)] = int(fields[1]), front.partition("(")[2], fields[19], sum(int(it) for it in fields[11:15]) / TICKS
        except (OSError, ValueError, IndexError):
            pass
    return found


def check_of(pid):
    """Returns the crate and the kind of a check by its words, or nothing where it is none."""
    try:
        words = text_of(f"/proc/{pid}/cmdline").split("\0")
    except OSError:
        return None
    if "--crate-name" not in words[:-1]:
        return None
    crate = words[words.index("--crate-name") + 1]
    if "--test" in words:
        return crate, "tests"
    if "--crate-checked" in words:
        return crate, "builds"
    # A must-fail edit is checked alone, and nothing is made of it. Nor is it of what tests/kept.py proves from nothing.
    is_anew = any(it.endswith(".fresh") for it in words)
    return crate, "edits" if "check" in words[:2] and "-o" not in words and not is_anew else "proofs"


def look(root, checks):
    """Adds what the checks below a process have spent up to now. Returns whether that process still runs."""
    running = processes()
    below = {}
    for pid, (parent, *_) in running.items():
        below.setdefault(parent, []).append(pid)
    open_ends = [(root, None)]
    for pid, key in open_ends:
        _, name, began, seconds = running.get(pid, (0, "", "", 0))
        if key is None and name == "rattle":
            key = pid, began
            if key not in checks:
                checks[key] = {"is": check_of(pid), "seconds": 0, "memory": 0}
            checks[key]["now"] = checks[key]["held"] = 0
        if key is not None:
            checks[key]["now"] += seconds
            try:
                checks[key]["held"] += int(text_of(f"/proc/{pid}/statm").split()[1]) * PAGE / 1e6
            except (OSError, ValueError, IndexError):
                pass
        open_ends += [(it, key) for it in below.get(pid, [])]
    for it in checks.values():
        it["seconds"] = max(it["seconds"], it.pop("now", 0))
        it["memory"] = max(it["memory"], it.pop("held", 0))
    return root in running


def write(checks, path):
    lines = [f"{it['is'][0]} {it['is'][1]} {it['seconds']:.1f} {it['memory']:.0f}\n" for it in checks.values() if it["is"]]
    with open(f"{path}.new", "w") as it:
        it.writelines(lines)
    os.replace(f"{path}.new", path)


def watch(root, path):
    ends, checks, written = [], {}, time.monotonic()
    signal.signal(signal.SIGTERM, lambda *_: ends.append(True))
    while look(root, checks) and not ends:
        if time.monotonic() - written > 30:
            write(checks, path)
            written = time.monotonic()
        time.sleep(1)
    write(checks, path)


def minutes_of(spent):
    """Returns minutes by kind as words, the dearest first, without those that are nothing."""
    return ", ".join(f"{kind} {seconds / 60:.1f}" for kind, seconds in sorted(spent.items(), key=lambda it: -it[1]) if seconds >= 3)


def tell(path, whole=None):
    kinds, crates, most = dict.fromkeys(KINDS, 0), {}, (0, "", "")
    for crate, kind, seconds, memory in (it.split() for it in text_of(path).splitlines() if re.fullmatch(LINE, it)):
        kinds[kind] += float(seconds)
        spent = crates.setdefault(crate, dict.fromkeys(KINDS, 0))
        spent[kind] += float(seconds)
        most = max(most, (int(memory), crate, kind))
    if not crates:
        return
    rest = [] if whole is None else [f"all else {max(float(whole) - sum(kinds.values()) / 60, 0):.1f}"]
    print("gate: processor minutes:", ", ".join([*(f"{kind} {seconds / 60:.1f}" for kind, seconds in kinds.items()), *rest]))
    print("gate: the ten dearest crates:")
    for crate, spent in sorted(crates.items(), key=lambda it: -sum(it[1].values()))[:10]:
        print(f"gate: {sum(spent.values()) / 60:6.1f}  {crate}: {minutes_of(spent)}")
    print(f"gate: the most memory that a check took: {most[0] / 1000:.1f} GB, {most[2]} of {most[1]}")


def side_by_side(room):
    """Returns how many checks fit into so much memory, were they the dearest ones."""
    fit = 0
    while sum(MOST[: fit + 1]) + max(fit + 1 - len(MOST), 0) * MOST[-1] <= room:
        fit += 1
    return fit


def lanes():
    loader = importlib.machinery.SourceFileLoader("rt", os.path.realpath(shutil.which("rt") or ""))
    rt = importlib.util.module_from_spec(importlib.util.spec_from_loader("rt", loader))
    loader.exec_module(rt)
    fit = min(rt.processors(), side_by_side(0.85 * rt.free()))
    if fit > 1:
        print(fit)


if sys.argv[1:2] == ["watch"] and len(sys.argv) == 4:
    watch(int(sys.argv[2]), sys.argv[3])
elif sys.argv[1:2] == ["tell"] and len(sys.argv) in (3, 4):
    tell(*sys.argv[2:])
elif sys.argv[1:] == ["lanes"]:
    lanes()
else:
    sys.exit(__doc__)
