#!/usr/bin/env python3
"""Writes habits by chance, the same each time: make.py FILE. All around 2024-02-28, done on time and late, twice on a day, never."""
import datetime
import random
import sys

TODAY = datetime.date(2024, 2, 28)


def stamp(day):
    return day.strftime("%Y-%m-%d %a")


def habit(chance, number):
    kind = chance.choice(["+", "++", ".+", ".+"])
    unit, days = chance.choice([("d", 1), ("d", 1), ("d", 1), ("w", 7), ("m", 30)])
    count = chance.randint(1, 9) if unit == "d" else 1
    interval = count * days
    limit = f"/{count + chance.randint(1, 3)}{unit}" if chance.random() < 0.5 else ""
    scheduled = TODAY + datetime.timedelta(days=chance.randint(-6, 8))
    done, day = [], TODAY - datetime.timedelta(days=chance.randint(0, interval))
    while day > TODAY - datetime.timedelta(days=45) and len(done) < 25:
        if chance.random() < 0.9:
            done.append(day)
        if chance.random() < 0.1:
            done.append(day)
        day -= datetime.timedelta(days=max(1, interval + chance.randint(-1, 2)))
    if chance.random() < 0.1:
        done = []
    lines = [f"* TODO Habit {number}", f"SCHEDULED: <{stamp(scheduled)} {kind}{count}{unit}{limit}>"]
    lines += [":PROPERTIES:", ":STYLE:    habit", ":END:", ":LOGBOOK:"]
    for day in done:
        lines.append(f'- State "{chance.choice(["DONE", "CANCELLED"])}"       from "TODO"       [{stamp(day)} 07:30]')
        if chance.random() < 0.1:
            lines.append(f'- State "TODO"       from "DONE"       [{stamp(day)} 06:00]')
    return lines + [":END:"]


def main():
    chance = random.Random(5)
    lines = ["#+TODO: TODO | DONE CANCELLED"]
    for number in range(80):
        lines += habit(chance, number)
    with open(sys.argv[1], "w", encoding="utf-8") as file:
        file.write("\n".join(lines) + "\n")


main()
