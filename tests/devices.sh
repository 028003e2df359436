#!/bin/sh
# Runs a program over streams of tests/rows that are cut behind each byte, that come and go a byte a call, and with a read, a
# write or a write that takes nothing failing at each place (tests/faults).
# What is written must be the replies to all commands that are whole in the bytes taken, and where the stream is cut
# `err 24 cut`; where a write fails, a front of the replies. No call may follow one that failed. The last line counts.
# To see it bite, build the program with a `write_bytes` that tries a failed write once more: each failing write is named, and
# every stream of tests/rows comes out as before.
here=$(cd "$(dirname "$0")" && pwd)
streams="first-run serial-after-drop-and-add"
work=$(mktemp -d) || exit 2
trap 'rm -rf "$work"' EXIT
passed=0
failed=0

# Ends where nothing can be tried: that is no success.
give_up() {
    echo "devices: $1: nothing was tried"
    echo "devices: 0 passed, 1 failed"
    exit 1
}
[ -x "$1" ] || give_up "there is no program $1"
program=$(cd "$(dirname "$1")" && pwd)/$(basename "$1")
shim=$(sh "$here/faults/build.sh" "$work") || give_up "the shim of tests/faults can't be built here"
cd "$here/rows" || exit 2

fail() {
    failed=$((failed + 1))
    echo "devices: $row: $1: status $status, $(cat "$work/err")"
}

# Runs the program over a file with what else is set, and reads what the shim counted.
run() {
    from=$1
    shift
    : > "$work/counts"
    env "$@" FAULTS="$work/counts" LD_PRELOAD="$shim" "$program" --at "$moment" < "$from" > "$work/out" 2> "$work/err"
    status=$?
    reads=0
    writes=0
    behind=1
    [ ! -s "$work/counts" ] || read -r growths refused reads writes behind < "$work/counts"
}

# Whether a run ended by a failed call, and nothing was called behind it.
is_device() {
    [ "$status" -eq 4 ] && [ "$behind" -eq 0 ] && [ "$(cat "$work/err")" = "orgviews: device" ]
}

# The places where commands end: how many bytes of the row and of its replies the commands so far have.
ends_of_commands() {
    rm -rf "$work/commands"
    mkdir "$work/commands"
    LC_ALL=C awk -v to="$work/commands" -f "$here/faults/split.awk" "$row"
    : > "$work/front"
    for command in "$work"/commands/*; do
        cat "$command" >> "$work/front"
        "$program" --at "$moment" < "$work/front" > "$work/replies"
        echo "$(wc -c < "$work/front") $(wc -c < "$work/replies")"
    done
}

# For each byte of the row: how many bytes of replies the whole commands before it have, and whether it ends one.
places() {
    ends_of_commands | awk -v size="$(wc -c < "$row")" '
        { end[NR] = $1; shown[NR] = $2 }
        END {
            for (byte = 0; byte <= size; byte++) {
                while (end[at + 1] != "" && end[at + 1] <= byte) at++
                print byte, shown[at] + 0, (byte == 0 || end[at] == byte) ? "whole" : "cut"
            }
        }'
}

# The read behind so many bytes fails: all whole commands before it have their replies, and nothing else is written.
try_read() {
    head -c "$2" "$row.stdout" > "$work/want"
    run "$row" READ_STEP=1 READ_FAILS=$(($1 + 1))
    is_device && cmp -s "$work/out" "$work/want" || fail "read $(($1 + 1)) fails"
}

# The stream ends behind so many bytes.
try_cut() {
    head -c "$2" "$row.stdout" > "$work/want"
    want=0
    if [ "$3" = cut ]; then
        echo "err 24 cut" >> "$work/want"
        want=4
    fi
    head -c "$1" "$row" > "$work/short"
    run "$work/short"
    [ "$status" -eq "$want" ] && cmp -s "$work/out" "$work/want" || fail "cut behind byte $1"
}

# The write of this number fails, or takes nothing: what stands is the bytes before it.
try_write() {
    head -c $(($1 - 1)) "$row.stdout" > "$work/want"
    run "$row" WRITE_STEP=1 WRITE_FAILS="$1"
    is_device && cmp -s "$work/out" "$work/want" || fail "write $1 fails"
    run "$row" WRITE_STEP=1 WRITE_TAKES_NONE="$1"
    is_device && cmp -s "$work/out" "$work/want" || fail "write $1 takes nothing"
}

for row in $streams; do
    moment=$(sed -n 2p "$row.args")
    places > "$work/places"

    run "$row" READ_STEP=1 WRITE_STEP=1
    if [ "$status" -eq 0 ] && cmp -s "$work/out" "$row.stdout"; then passed=$((passed + 1)); else fail "a byte a call"; fi
    all_reads=$reads
    all_writes=$writes

    # Each byte and each write has its try.
    [ "$(wc -l < "$work/places")" -eq $(($(wc -c < "$row") + 1)) ] && [ "$all_writes" -eq "$(wc -c < "$row.stdout")" ] ||
        fail "$(wc -l < "$work/places") places and $all_writes writes"

    before=$failed
    while read -r byte shown kind; do
        try_read "$byte" "$shown"
        try_cut "$byte" "$shown" "$kind"
    done < "$work/places"
    [ "$failed" -ne "$before" ] || passed=$((passed + 2))

    before=$failed
    write=1
    while [ "$write" -le "$all_writes" ]; do
        try_write "$write"
        write=$((write + 1))
    done
    [ "$failed" -ne "$before" ] || passed=$((passed + 2))
    echo "devices: $row: $(wc -c < "$row") bytes in $all_reads reads, $all_writes bytes written"
done
echo "devices: $passed passed, $failed failed"
[ "$failed" -eq 0 ] && [ "$passed" -gt 0 ]
