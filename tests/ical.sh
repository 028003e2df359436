#!/bin/sh
# Reads back the calendars of the program ORGQ (the one that was built last where none is named) by two other programs: khal, and
# the library icalendar of python3. Each has to find the days, times and titles of the rows that an agenda of the same days has as
# JSON, the late ones and the warnings left out, and the tasks of the open headings that have a deadline; and where the calendar is
# taken in again on a later day, no event has another name. A program that isn't
# installed is left out, and the status is 0 then. The last line counts, and names what was left out.
here=$(cd "$(dirname "$0")" && pwd)
given=${1:-$here/../crates/orgq/out/orgq}
orgq=$(cd "$(dirname "$given")" 2> /dev/null && pwd)/$(basename "$given")
passed=0
failed=0
if [ ! -x "$orgq" ]; then
    echo "ical: there is no program $orgq"
    echo "ical: 0 passed, 1 failed"
    exit 1
fi
for python in python3 /usr/bin/python3 ""; do
    [ -n "$python" ] && command -v "$python" > /dev/null 2>&1 && "$python" -c "import icalendar" 2> /dev/null && break
done
[ -n "$python" ] || echo "ical: the library icalendar is left out, it isn't installed (on Debian: apt-get install python3-icalendar)"
khal=khal
command -v "$khal" > /dev/null 2>&1 && [ -n "$python" ] || khal=""
[ -n "$khal" ] || echo "ical: khal is left out, it isn't installed (on Debian: apt-get install khal)"
left_out=""
[ -n "$khal" ] || left_out=" (without khal)"
[ -n "$python" ] || left_out=" (without icalendar, khal)"
room=$(mktemp -d) || exit 2
trap 'rm -rf "$room"' EXIT
unset ORGQ_FILES NO_COLOR TZDIR
HOME=$room/home
XDG_CONFIG_HOME=$room/config
XDG_DATA_HOME=$room/data
XDG_CACHE_HOME=$room/cache
TZ=UTC
LC_ALL=C.UTF-8
export HOME XDG_CONFIG_HOME XDG_DATA_HOME XDG_CACHE_HOME TZ LC_ALL
mkdir -p "$HOME" "$room/files"

# Texts in which each sign that a calendar writes another way stands (but no n behind a backslash, which icalendar takes for the
# end of a line whatever stands before them), lines that would be its own, long ones, and all that stamps
# have: times, ranges, repeaters, ends of months, planning.
{
    printf '* A, b; c \\ "d": BEGIN:VEVENT END:VCALENDAR <2024-02-28 Wed 08:15>\n'
    printf '* \303\204rger \342\202\254 %s <2024-02-28 Wed 09:00-09:45>\n' "$(printf 'und noch \303\244\303\266\303\274 %.0s' 1 2 3 4 5 6 7 8 9)"
    printf '* Night <2024-02-28 Wed 23:00-01:00>\n* Rent\nSCHEDULED: <2024-01-31 Wed +1m>\n'
    printf '* Trip <2024-03-02 Sat 10:00>--<2024-03-05 Tue 18:00>\n* Fair <2024-03-30 Sat>--<2024-04-01 Mon>\n'
    printf '* TODO Weekly :home:dog_walk:\n<2024-02-26 Mon 07:30-08:00 +1w>\n* Twice <2024-02-29 Thu> <2024-02-29 Thu 12:00>\n'
    printf '* Same\n<2024-02-29 Thu>\n* Same\n<2024-02-29 Thu>\n'
    printf '* TODO [#A] Tax\nDEADLINE: <2024-03-01 Fri>\n* WAIT Later\nDEADLINE: <2024-04-30 Tue 18:00 +1y>\n* DONE Over\nDEADLINE: <2024-03-01 Fri>\n'
    printf '* Key\nDEADLINE: <2024-03-09 Sat> SCHEDULED: <2024-03-08 Fri 06:00>\n:PROPERTIES:\n:ID: 0f3a-11\n:END:\n'
    printf '* Begun <2024-02-20 Tue>--<2024-03-01 Fri>\n* Daily\nSCHEDULED: <2024-02-01 Thu 07:00 +2d>\n* Leap <2020-02-29 Sat +1y>\n'
    printf '* Born <1980-03-03 Mon +1y>\n* Month <2023-11-28 Tue 20:00 +3m>\n* Hours <2024-02-28 Wed 06:00 +7h>\n'
    printf '* TODO Delayed\nSCHEDULED: <2024-02-26 Mon +1w -2d>\n* TODO Once delayed\nSCHEDULED: <2024-02-27 Tue +1w --3d>\n'
    printf '* Evening <2024-03-08 Fri 18:00>--<2024-03-08 Fri 20:00>\n* Fast <2024-03-10 Sun 12:00>--<2024-03-12 Tue>\n'
} > "$room/files/all.org"
cp "$here/orgq/files/home.org" "$here/orgq/files/work.org" "$room/files/"
cd "$room/files" || exit 2

# The calendar of some days of files, read back: DAYS FILE..
read_back() {
    days=$1
    shift
    set -- $(for file in "$@"; do printf '%s\n' -f "$file"; done)
    "$orgq" --at "2024-02-28 10:30" "$@" ical -d "$days" > "$room/out.ics" 2> "$room/err" || fail "no calendar of $*: $(cat "$room/err")"
    "$orgq" --at "2024-02-28 10:30" --json "$@" agenda -d "$days" > "$room/rows" || fail "no rows of $*"
    "$orgq" --at "2024-02-28 10:30" --json "$@" match "LEVEL>0" > "$room/headings" || fail "no headings of $*"
    [ -z "$python" ] || compare icalendar "$room/out.ics" "$days" "$*"
    if [ -n "$khal" ]; then
        khal_rows "$days" && compare khal "$room/khal" "$days" "$*"
    fi
}

fail() {
    failed=$((failed + 1))
    echo "ical: $1"
}

compare() {
    if said=$("$python" "$here/ical.py" "$1" "$2" "$room/rows" "$room/headings" "$3"); then
        passed=$((passed + 1))
        echo "ical: $1, $4: $said"
    else
        fail "$1, $4: $said"
    fi
}

# What khal lists of the calendar, once it has taken it in.
khal_rows() {
    rm -rf "$room/calendar" "$room/khal.db"
    mkdir -p "$room/calendar"
    printf '[calendars]\n[[all]]\npath = %s/calendar\n[locale]\nlocal_timezone = UTC\ndefault_timezone = UTC\ntimeformat = %%H:%%M\ndateformat = %%Y-%%m-%%d\nlongdateformat = %%Y-%%m-%%d\ndatetimeformat = %%Y-%%m-%%d %%H:%%M\nlongdatetimeformat = %%Y-%%m-%%d %%H:%%M\n[sqlite]\npath = %s/khal.db\n' "$room" "$room" > "$room/khal.conf"
    if ! "$khal" -c "$room/khal.conf" import --batch -a all "$room/out.ics" > "$room/said" 2>&1; then
        fail "khal takes no calendar: $(tail -n 3 "$room/said")"
        return 1
    fi
    "$khal" -c "$room/khal.conf" list --day-format "= {date}" --format "{start-time}	{end-time}	{title}" 2024-02-28 "${1}d" > "$room/khal" 2> "$room/said" || {
        fail "khal lists nothing: $(tail -n 3 "$room/said")"
        return 1
    }
}

# Which events have which names, from a day on.
names_from() {
    "$orgq" --at "$1" -f all.org -f home.org ical -d 366 | sed -n 's/\r$//; /^UID:/h; /^DTSTART/{G; s/\n/ /; p;}' | sort
}

# An event that is in both calendars has one name in both, and begins on one day, but where its days are written out.
names_from "2024-02-28 10:30" > "$room/today"
names_from "2024-02-29 10:30" > "$room/tomorrow"
if [ "$(cut -d' ' -f2- "$room/today" | sort | uniq -d | wc -l)" -eq 0 ] && [ "$(comm -12 "$room/today" "$room/tomorrow" | wc -l)" -ge 15 ]; then
    passed=$((passed + 1))
else
    fail "names that change from a day to the next"
fi

read_back 1 home.org work.org
read_back 30 home.org work.org
read_back 1 all.org
read_back 90 all.org
read_back 366 all.org home.org work.org
echo "ical: $passed passed$left_out, $failed failed"
[ "$failed" -eq 0 ]
