#!/usr/bin/env python3
"""Makes files with logging of every kind, and the acts that are done to them: the same for the same seed.

    logs.py SEED COUNT FOLDER    FOLDER/files/lNNN.org, and behind FOLDER/acts: CASE, FILE, LINE, ACT, WORD and NOTE, with tabs between
"""
import random
import sys

from make import DAYS, DELAYS, REPEATERS, TIMES, TITLES

STARTUP = ["logdone", "lognotedone", "nologdone", "logrepeat", "lognoterepeat", "nologrepeat", "logdrawer", "nologdrawer", "logreschedule",
           "lognotereschedule", "nologreschedule", "logredeadline", "lognoteredeadline", "logstatesreversed", "nologstatesreversed", "overview",
           "nologstatesreversed", "logdrawer", "logdone", "LogDone"]
# Lines that name keywords, and which those are.
SEQUENCES = [([], ["TODO"], ["DONE"])] * 3 + [
    (["#+TODO: TODO(t) WAIT(w@/!) | DONE(d!) CANCELED(c@)"], ["TODO", "WAIT"], ["DONE", "CANCELED"]),
    (["#+TODO: TODO(t) WAIT(w@/!) | DONE(d!) CANCELED(c@)"], ["TODO", "WAIT"], ["DONE", "CANCELED"]),
    (["#+TODO: TODO | DONE(!)"], ["TODO"], ["DONE"]),
    (["#+SEQ_TODO: TODO(!) NEXT(n) WAIT(/!) | DONE"], ["TODO", "NEXT", "WAIT"], ["DONE"]),
    (["#+TODO: TODO(@/!) | VERYLONGDONEWORD(!)"], ["TODO"], ["VERYLONGDONEWORD"]),
    (["#+TODO: A(a) | Ö(!)", "#+TODO: TODO | DONE(d@/!)"], ["A", "TODO"], ["Ö", "DONE"]),
]
LOGGING = ["nil", "logdone", "logrepeat", "lognoterepeat", "WAIT(@) logrepeat", "DONE(!) nologrepeat", "TODO(!) DONE(@/!) logrepeat", "lognotedone logrepeat",
           "DONE(x!) TODO(/!)"]
DRAWERS = ["t", "nil", "NOTES", "LOGBOOK"]
BODY = ["Some text.", "- a list item", "  indented", "| a | table |", "", "", "See <2024-03-03 Sun>.", "# a comment",
        ":NOTES:\ninside\n:END:", "#+begin_example\n:LOGBOOK:\n:END:\n#+end_example", "1. one\n2. two", "- [ ] box\n  more of it\n- [X] box"]
NOTES = ["", "", "", "Because.", "It is done\nand well", "With <2024-03-03 Sun> in it"]
DATES = ["2024-03-05", "2024-03-05 9:30", "none"]


def stamp(chance):
    return "<" + chance.choice(DAYS) + chance.choice(TIMES) + chance.choice(REPEATERS) + chance.choice(DELAYS) + ">"


def planning(chance):
    words = [word for word, often in (("CLOSED", 0.4), ("SCHEDULED", 0.6), ("DEADLINE", 0.4)) if chance.random() < often] or ["SCHEDULED"]
    if chance.random() < 0.2:
        chance.shuffle(words)
    return chance.choice(["", "", "", "  ", "\t"]) + " ".join("CLOSED: [2024-02-27 Tue 18:00]" if word == "CLOSED" else f"{word}: {stamp(chance)}" for word in words)


def properties(chance, indent, wanted):
    lines = [f"{indent}:{name}: {value}" for name, value in wanted]
    return [f"{indent}:PROPERTIES:", *lines, f"{indent}:END:"]


def own_properties(chance, often):
    wanted = []
    if chance.random() < often:
        wanted.append(("LOGGING", chance.choice(LOGGING)))
    if chance.random() < often:
        wanted.append(("LOG_INTO_DRAWER", chance.choice(DRAWERS)))
    if chance.random() < 0.15:
        wanted.append(("Effort", "1:00"))
    if chance.random() < 0.1:
        wanted.append(("LAST_REPEAT", "[2024-02-21 Wed 09:00]"))
    chance.shuffle(wanted)
    return wanted


def state(chance, indent, open_words, done_words):
    to, was = chance.choice(done_words), chance.choice(open_words)
    line = indent + "- State " + f'"{to}"'.ljust(12) + " from " + f'"{was}"'.ljust(12) + " [2024-02-20 Tue 09:00]"
    if chance.random() < 0.3:
        return [line + " \\\\", indent + "  an older note"]
    return [line]


def log(chance, running, open_words, done_words):
    """Clock lines and state lines, in a drawer or loose."""
    indent = chance.choice(["", "", "", "  "])
    lines = []
    if running:
        lines.append(f"{indent}CLOCK: [2024-02-28 Wed 09:05]")
    elif chance.random() < 0.4:
        lines.append(f"{indent}CLOCK: [2024-02-27 Tue 09:10]--[2024-02-27 Tue 10:40] =>  1:30")
    for _ in range(chance.choice([0, 0, 1, 2])):
        lines += state(chance, indent, open_words, done_words)
    if chance.random() < 0.7:
        name = chance.choice(["LOGBOOK", "LOGBOOK", "LOGBOOK", "NOTES", "logbook"])
        return [f"{indent}:{name}:", *lines, f"{indent}:END:"]
    return lines


def section(chance, level, running, open_words, done_words):
    keyword = chance.choice(["", *open_words, *open_words, *done_words])
    lines = ["*" * level + " " + (keyword + " " if keyword else "") + chance.choice(["", "", "[#A] "]) + chance.choice(TITLES)]
    if chance.random() < 0.65:
        lines.append(planning(chance))
    wanted = own_properties(chance, 0.12)
    if wanted:
        lines += properties(chance, chance.choice(["", "", "  "]), wanted)
    if running or chance.random() < 0.5:
        lines += log(chance, running, open_words, done_words)
    for _ in range(chance.choice([0, 0, 1, 2, 3])):
        lines += chance.choice(BODY).split("\n")
    return lines


def file(chance):
    running = chance.random() < 0.2
    lines = []
    if chance.random() < 0.06:
        lines += properties(chance, "", own_properties(chance, 0.9) or [("LOGGING", "logdone")])
    sequence, open_words, done_words = chance.choice(SEQUENCES)
    for _ in range(chance.choice([0, 1, 1, 1, 2])):
        lines.append("#+STARTUP: " + " ".join(chance.choice(STARTUP) for _ in range(chance.choice([1, 1, 2, 3]))))
    lines += sequence
    if chance.random() < 0.05:
        lines.append(f"#+PROPERTY: LOGGING {chance.choice(LOGGING)}")
    count = chance.choice([1, 2, 3])
    wanted = chance.randrange(count)
    line = 0
    level = 1
    for k in range(count):
        if k == wanted:
            line = len(lines) + 1
        lines += section(chance, level, running and k == wanted, open_words, done_words)
        level = chance.choice([1, level, level + 1])
    end = "\r\n" if chance.random() < 0.05 else "\n"
    return end.join(lines) + (end if chance.random() < 0.95 else ""), line, open_words + done_words


def main():
    seed, count, folder = int(sys.argv[1]), int(sys.argv[2]), sys.argv[3]
    chance = random.Random(seed)
    with open(f"{folder}/acts", "a", encoding="utf-8") as acts:
        for number in range(count):
            text, line, words = file(chance)
            name = f"l{number:03}.org"
            with open(f"{folder}/files/{name}", "w", encoding="utf-8", newline="") as made:
                made.write(text)
            wanted = [("set", word, chance.choice(NOTES)) for word in chance.sample(words, min(3, len(words)))]
            wanted.append((chance.choice(["schedule", "deadline"]), chance.choice(DATES), ""))
            for k, (act, word, note) in enumerate(wanted):
                note = note.replace("\n", "\\n")
                acts.write(f"l{number:03}-{k}\t{name}\t{line}\tlog-{act}\t{word}\t{note}\n")


if __name__ == "__main__":
    main()
