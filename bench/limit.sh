#!/bin/sh
# `orgq` and `orgviews` from cold beside the limit (bench/limit.rs), in millions of instructions, which don't depend on the load:
# an agenda of a day and a TODO list of three files of 1 MB, of one of 21 MB, and of 8 MiB of the text that `bench` measures
# elsewhere. `orgviews` takes the files by `add` and answers one question. All three have to write the same rows.
#     sh bench/limit.sh ORGQ ORGVIEWS      in bench/out there are `bench` and `limit`
orgq=$(cd "$(dirname "$1")" && pwd)/$(basename "$1")
orgviews=$(cd "$(dirname "$2")" && pwd)/$(basename "$2")
out=$(cd "$(dirname "$0")" && pwd)/out
if ! command -v valgrind > /dev/null 2>&1; then
    echo "limit: left out, valgrind is not installed"
    exit 0
fi
work=$(mktemp -d) || exit 2
trap 'rm -rf "$work"' EXIT
cd "$work" || exit 2
mkdir three one eight
for number in 1 2 3; do "$out/bench" years 1048576 "$number" > "three/$number.org"; done
"$out/bench" years 21300000 4 > one/years.org
"$out/bench" text 8388608 > eight/text.org

# The instructions of a command, in millions.
count() {
    valgrind --tool=callgrind --callgrind-out-file=/dev/null "$@" 2>&1 > /dev/null |
        awk '/Collected/ { printf "%.1f", $NF / 1e6 }'
}

# The same of `orgviews` over a stream.
count_stream() { count "$orgviews" --at "2024-02-28 10:30" < "$1"; }

# The commands that add the files of a folder.
added() {
    for file in "$1"/*.org; do
        printf 'add %s %s\n' "$(basename "$file")" "$(wc -c < "$file")"
        cat "$file"
    done
}

echo "limit: millions of instructions: the limit; orgq, how many times the limit; orgviews, how many times"
for texts in three one eight; do
    added "$texts" > stream
    echo "limit: $texts, files added: orgviews $(count_stream stream)"
    for question in "agenda" "todo"; do
        "$out/limit" "$question" "$texts"/*.org > limit.rows
        "$orgq" --at "2024-02-28 10:30" -f "$texts" "$question" > orgq.rows
        { cat stream; echo "$question" | sed 's/agenda/agenda 2024-02-28 1/'; } > asked
        "$orgviews" --at "2024-02-28 10:30" < asked | sed '/^ok /d; /^view /d' > orgviews.rows
        if ! cmp -s limit.rows orgq.rows || ! cmp -s limit.rows orgviews.rows; then
            echo "limit: $texts, $question: the programs write different rows"
            exit 1
        fi
        least=$(count "$out/limit" "$question" "$texts"/*.org)
        ours=$(count "$orgq" --at "2024-02-28 10:30" -f "$texts" "$question")
        service=$(count_stream asked)
        awk -v texts="$texts" -v question="$question" -v least="$least" -v ours="$ours" -v service="$service" 'BEGIN {
            printf "limit: %s, %s: %s; orgq %s, %.1f; orgviews %s, %.1f\n", texts, question, least, ours, ours / least, service, service / least
        }'
    done
done
