#!/bin/sh
# How `orgq` grows with its text, beside the limit: millions of instructions of an agenda and of a TODO list over one file of a
# person's years, of 256 KiB to 4 MiB. Prints a table, and draws it (docs/growth.svg): both axes by factors, so that what grows
# as the text does is a straight line along the grid's diagonal.
#     sh bench/growth.sh ORGQ      in bench/out there are `bench` and `limit`
orgq=$(cd "$(dirname "$1")" && pwd)/$(basename "$1")
cd "$(dirname "$0")/.." || exit 2
work=$(mktemp -d) || exit 2
trap 'rm -rf "$work"' EXIT

# The instructions of a command, in millions.
count() {
    valgrind --tool=callgrind --callgrind-out-file=/dev/null "$@" 2>&1 > /dev/null |
        awk '/Collected/ { printf "%.2f", $NF / 1e6 }'
}

for size in 262144 1048576 4194304; do
    bench/out/bench years "$size" 4 > "$work/years.org"
    for question in agenda todo; do
        echo "$size orgq-$question $(count "$orgq" --at "2024-02-28 10:30" -f "$work/years.org" "$question")"
        echo "$size limit-$question $(count bench/out/limit "$question" "$work/years.org")"
    done
done | tee "$work/table"

awk '
    function x(bytes) { return 60 + 460 * log(bytes / 262144) / log(16) }
    function y(millions) { return 340 - 300 * log(millions) / log(1024) }
    { line[$2] = line[$2] sprintf("%.1f,%.1f ", x($1), y($3)); last[$2] = y($3) }
    END {
        print "<svg xmlns=\"http://www.w3.org/2000/svg\" width=\"660\" height=\"390\" font-family=\"sans-serif\" font-size=\"12\">"
        print "<rect width=\"660\" height=\"390\" fill=\"white\"/>"
        for (power = 0; power <= 10; power += 2) {
            height = y(2 ^ power)
            printf "<path d=\"M60 %.1f H520\" stroke=\"#ddd\"/><text x=\"52\" y=\"%.1f\" text-anchor=\"end\">%d</text>\n", height, height + 4, 2 ^ power
        }
        for (power = 18; power <= 22; power += 2) {
            place = x(2 ^ power)
            name = power < 20 ? "256 KiB" : 2 ^ (power - 20) " MiB"
            printf "<path d=\"M%.1f 40 V340\" stroke=\"#ddd\"/><text x=\"%.1f\" y=\"358\" text-anchor=\"middle\">%s</text>\n", place, place, name
        }
        print "<text x=\"60\" y=\"24\">millions of instructions of one question from cold, by the size of the file</text>"
        split("orgq-agenda orgq-todo limit-agenda limit-todo", names, " ")
        split("#1f5fa8 #6aa5de #a84a1f #de936a", colours, " ")
        for (n = 1; n <= 4; n++) {
            printf "<polyline points=\"%s\" fill=\"none\" stroke=\"%s\" stroke-width=\"2\"/>", line[names[n]], colours[n]
            name = names[n]
            sub("-", " ", name)
            printf "<text x=\"526\" y=\"%.1f\" fill=\"%s\">%s</text>\n", last[names[n]] + (n % 2 ? 0 : 10), colours[n], name
        }
        print "</svg>"
    }
' "$work/table" > docs/growth.svg
