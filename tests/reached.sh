#!/bin/sh
# Counts the lines of definitions that a reader of the headline has to believe: those that the contract of `run` of org_wire
# names, those that these name, and so on, in crates/*/specs/*.antt; with their comments and without. Says how many of them are
# in each crate, how many lines of types and constants the code declares for them, and how many fall away where a law's side is
# read in place of what it settles. `make reading` writes them into one page.
#
#     sh tests/reached.sh            the count
#     sh tests/reached.sh list       each definition with its lines and its file, in the order in which they are reached
#     sh tests/reached.sh FUNCTION FILE.rt   the same of the contract of another function, as `day_rows crates/org_agenda/src/days.rt`
cd "$(dirname "$0")/.." || exit 2
what=count
[ "$1" = list ] && { what=list; shift; }
exec python3 tests/reading.py "$what" "$@"
