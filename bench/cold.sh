#!/bin/sh
# From cold: the day's agenda of 1,000, 10,000 and 100,000 entries, a thousand of them in a file, by orgq; the same entries by
# remind, and 1,000 of them by Emacs' batch agenda, where these are installed. Then the year of the same files by orgq.
# The middle of five runs in milliseconds, and millions of instructions where valgrind is installed.
#     sh bench/cold.sh ORGQ
orgq=$(cd "$(dirname "$1")" && pwd)/$(basename "$1")
work=$(mktemp -d) || exit 2
trap 'rm -rf "$work"' EXIT
cd "$work" || exit 2
day=2024-02-28

# So many entries: three of ten repeat weekly, the others stand on a day of three years.
entries() {
    awk -v count="$1" 'BEGIN {
        split("Jan Feb Mar Apr May Jun Jul Aug Sep Oct Nov Dec", names, " ")
        for (n = 0; n < count; n++) {
            file = sprintf("%d/%03d", count, n / 1000)
            year = 2023 + n % 3; month = 1 + int(n / 3) % 12; day = 1 + int(n / 36) % 28
            repeats = n % 10 < 3
            printf "* TODO Task %d :tag%d:\nSCHEDULED: <%d-%02d-%02d%s>\n", n, n % 9, year, month, day, repeats ? " +1w" : "" > (file ".org")
            printf "REM %d %s %d %sMSG Task %d\n", day, names[month], year, repeats ? "*7 " : "", n > (file ".rem")
        }
    }'
}

# The middle time of five runs of a command, and its instructions.
cost() {
    for run in 1 2 3 4 5; do
        from=$(date +%s%N)
        "$@" > /dev/null 2>&1
        echo $((($(date +%s%N) - from) / 100000))
    done | sort -n | sed -n 3p | awk '{ printf "%.1f ms", $1 / 10 }'
    if command -v valgrind > /dev/null 2>&1; then
        valgrind --tool=callgrind --callgrind-out-file=/dev/null "$@" 2>&1 > /dev/null | awk '/Collected/ { printf ", %.1f million", $NF / 1e6 }'
    fi
}

for count in 1000 10000 100000; do
    mkdir "$count"
    entries "$count"
    echo "cold: $count entries: orgq agenda: $(cost "$orgq" --at "$day 10:30" -f "$count" agenda)"
    if command -v remind > /dev/null 2>&1; then
        cat "$count"/*.rem > "$count/all.rem"
        echo "cold: $count entries: remind: $(cost remind -q "$count/all.rem" 28 Feb 2024)"
    else
        echo "cold: remind is left out, it is not installed"
    fi
    echo "cold: $count entries: orgq agenda of 366 days: $(cost "$orgq" --at "$day 10:30" -f "$count" agenda -d 366)"
done
if command -v emacs > /dev/null 2>&1; then
    from=$(date +%s%N)
    emacs -Q --batch -l org --eval "(setq org-agenda-files (list \"$work/1000/000.org\") org-agenda-span 1 org-agenda-start-day \"$day\")" --eval '(org-batch-agenda "a")' > /dev/null 2>&1
    echo "cold: 1000 entries: emacs --batch agenda: $((($(date +%s%N) - from) / 1000000)) ms"
else
    echo "cold: emacs is left out, it is not installed"
fi
