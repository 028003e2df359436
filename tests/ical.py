"""ical.py icalendar|khal FOUND ROWS HEADINGS DAYS: holds what another program found in a calendar against rows of JSON.

FOUND is a stream of iCalendar, read by the library icalendar, or lines of `khal list`: days, and below each start, end and title with
tabs
between. ROWS are the objects of an agenda of the same days, HEADINGS those of all headings, DAYS how many days there are. Rules and
further days of events are gone through, so that each row has its day of an event. The last line counts, or says what
differs."""
import datetime
import json
import re
import sys

# A row of these kinds is one of an event; of a range each day has its row.
EVENTS = {"stamp", "scheduled", "deadline"}
STEPS = {"DAILY": 1, "WEEKLY": 7}
FIRST = datetime.date(2024, 2, 28)


def shown(text):
    """A text as a calendar has it: without control characters."""
    return "".join("\u00a0" if 0x80 <= ord(c) < 0xA0 else " " if ord(c) < 32 or ord(c) == 127 else c for c in text)


def objects(path):
    with open(path, encoding="utf-8") as lines:
        return [json.loads(line) for line in lines]


def other_end(row):
    """The end of a row, where it isn't its start."""
    end = row.get("end", "")
    return end if end != row.get("start", "") else ""


def wanted_events(rows):
    """The events and the days of ranges that rows stand for."""
    events, ranges = [], []
    for row in rows:
        title = shown(row["words"])
        if row["kind"] in EVENTS or row["kind"] == "range" and row["days_in"] == 1:
            events.append((row["day"], row.get("start", ""), other_end(row), title))
        elif row["kind"] == "range":
            ranges.append((row["day"], title))
    return sorted(events), sorted(ranges)


def wanted_tasks(headings):
    """The tasks by file and line; files are asked in the order of their names."""
    tasks = []
    for heading in sorted(headings, key=lambda heading: (heading["file"], heading["line"])):
        if "deadline" in heading and not heading.get("done", False):
            day, time = re.match(r"(\S+) \S+(?: (\d+:\d\d))?", heading["deadline"]).groups()
            tasks.append((day, time or "", shown(heading["words"]), tuple(heading["tags"])))
    return tasks


def when(value):
    """The day and the time of a property."""
    value = value.dt
    if not hasattr(value, "hour"):
        return value, ""
    if value.tzinfo is not None:
        fail(f"a zone: {value}")
    return value.date(), value.strftime("%H:%M")


def rule_days(first, rule, last):
    """The days that a rule gives, up to a last one; a month and a year that lack the day are passed over."""
    frequency, interval = str(rule["FREQ"][0]), int(rule.get("INTERVAL", [1])[0])
    day, step = first, 0
    while day <= last:
        yield day
        step += interval
        if frequency in STEPS:
            day = first + datetime.timedelta(days=STEPS[frequency] * step)
            continue
        months = first.month - 1 + (step if frequency == "MONTHLY" else 12 * step)
        try:
            day = first.replace(year=first.year + months // 12, month=months % 12 + 1)
        except ValueError:
            fail(f"a rule that passes over a day: {rule} from {first}")


def begin_days(component, last):
    """The days on which an event begins, up to a last one."""
    first, start = when(component["DTSTART"])
    if "RRULE" in component:
        return list(rule_days(first, component["RRULE"], last))
    more = component.get("RDATE", [])
    more = more if isinstance(more, list) else [more]
    days = [first]
    for dates in more:
        for date in dates.dts:
            day, time = when(date)
            if time != start:
                fail(f"an event at {start} is at {time}, too")
            days.append(day)
    if days != sorted(set(days)):
        fail(f"days that don't rise: {days}")
    return days


def categories(component):
    found = component.get("CATEGORIES")
    return tuple(str(item) for item in found.cats) if found is not None else ()


def by_icalendar(path, days):
    import icalendar

    with open(path, "rb") as stream:
        data = stream.read()
    for line in data.split(b"\r\n"):
        if len(line) > 75:
            fail(f"a line of {len(line)} octets")
        line.decode("utf-8")
    calendar = icalendar.Calendar.from_ical(data)
    components = calendar.subcomponents
    uids = [str(component["UID"]) for component in components]
    if len(set(uids)) != len(uids):
        fail("a UID stands twice")
    last = FIRST + datetime.timedelta(days=days - 1)
    events, ranges, tasks = [], [], []
    for component in components:
        if component.name == "VEVENT":
            begun, start = when(component["DTSTART"])
            of, end = when(component["DTEND"]) if "DTEND" in component else (begun, "")
            title = str(component["SUMMARY"])
            if "DTEND" in component and (of, end) <= (begun, start):
                fail(f"{title} ends at {of} {end} and begins at {begun} {start}")
            over = (of - begun).days
            if not start or end == "00:00":
                over -= 1 if "DTEND" in component else 0
            is_night = over == 1 and start and end and end < start
            for day in begin_days(component, last):
                if over <= 0 or is_night:
                    if FIRST <= day <= last:
                        events.append((day.isoformat(), start, end, title))
                    continue
                held = [day + datetime.timedelta(days=more) for more in range(over + 1)]
                ranges += [(day.isoformat(), title) for day in held if FIRST <= day <= last]
        elif component.name == "VTODO":
            day, time = when(component["DUE"])
            tasks.append((day.isoformat(), time, str(component["SUMMARY"]), categories(component)))
        else:
            fail(f"a component {component.name}")
    return sorted(events), sorted(ranges), tasks


def by_khal(path):
    """The events that khal lists, each under its day; it gives those without an end one of its own."""
    events, day = [], ""
    with open(path, encoding="utf-8") as lines:
        for line in lines:
            if line.startswith("= "):
                day = line[2:].strip()
            elif line.strip():
                events.append((day, *line.rstrip("\n").split("\t")))
    return events


def fail(why):
    print(why)
    sys.exit(1)


def same(name, found, wanted):
    for place in range(max(len(found), len(wanted))):
        left = found[place] if place < len(found) else None
        right = wanted[place] if place < len(wanted) else None
        if left != right:
            fail(f"{name} {place}: found {left}, wanted {right}")


def main():
    reader, found, rows, headings, days = sys.argv[1:]
    events, ranges = wanted_events(objects(rows))
    if not events:
        fail("no rows")
    if reader == "icalendar":
        tasks = wanted_tasks(objects(headings))
        found_events, found_ranges, found_tasks = by_icalendar(found, int(days))
        same("event", found_events, events)
        same("day of a range", found_ranges, ranges)
        same("task", found_tasks, tasks)
        print(f"{len(events)} events, {len(ranges)} days of ranges, {len(tasks)} tasks")
    else:
        # What goes on over days is on each of them, with times of its own.
        over = {title for _, title in ranges} | {title for _, start, end, title in events if end and end < start}
        ends = {(day, start, title): end for day, start, end, title in events if end}
        listed = [(day, start, end if (day, start, title) in ends else "", title) for day, start, end, title in by_khal(found) if title not in over]
        same("event", sorted(listed), [event for event in events if event[3] not in over])
        held = {(day, title) for day, _, _, title in by_khal(found) if title in over}
        for day, title in ranges:
            if (day, title) not in held:
                fail(f"{title} isn't on {day}")
        print(f"{len(events)} events, {len(ranges)} days of ranges")


main()
