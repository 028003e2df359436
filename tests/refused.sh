#!/bin/sh
# Refuses each growth of memory once (tests/faults): of the program, its first argument, over streams that have all commands,
# each given twice, without background steps and with one behind each command; and of a program that makes single calls,
# which the other arguments are, with its words.
# Over a stream the output must be as with ample memory (the growth was done without), or `err 1 memory` stands for one
# reply, and all else is what the program gives to the stream without that command; before the run, nothing is written.
# The other program tries each call again; its status is 9 where it met want of memory and all was well, 0 where it met none.
# A view that is larger than a limit on addresses is asked for too.
# The count of growths ends a round, and not that none was refused, since some are done without. The last line counts.
# To see it bite, build the program with an `Engine::edit` that takes the bytes out of the file first and then puts the others
# in: where the second step finds no memory the first one stands, and this stops there.
# And with a `read_one` of org_store that keeps what an empty section says where `read_entry` finds no memory, so that a
# background step takes the mark away and loses what the section says: then the call `Work` lists no heading, and is named.
here=$(cd "$(dirname "$0")" && pwd)
streams="every-command places-and-what-is-made-from-them lists-of-one-file-in-every-form edits-of-one-section-among-many headings-that-come-and-go-among-many"
work=$(mktemp -d) || exit 2
trap 'rm -rf "$work"' EXIT
passed=0
failed=0

# Ends where nothing can be tried: that is no success.
give_up() {
    echo "refused: $1: nothing was tried"
    echo "refused: 0 passed, 1 failed"
    exit 1
}
[ -x "$1" ] || give_up "there is no program $1"
program=$(cd "$(dirname "$1")" && pwd)/$(basename "$1")
shift
shim=$(sh "$here/faults/build.sh" "$work") || give_up "the shim of tests/faults can't be built here"

# What the program writes with ample memory.
ample() {
    "$program" --at "$moment" --idle "$idle" --protocol 2
}

# What is to be written where the command of the given number is refused: what those before it give, that reply, and what
# those behind it give in a stream without it.
expect() {
    front=$(head -n $(($1 - 1)) "$work/names")
    others=$(sed "$1d" "$work/names")
    (
        cd "$work/commands" || exit 2
        # (names of digits and a dash; without a front nothing is given)
        cat /dev/null $front > "$work/front"
        cat /dev/null $others > "$work/without"
    )
    ample < "$work/front" > "$work/expected"
    before=$(wc -c < "$work/expected")
    echo "err 1 memory" >> "$work/expected"
    ample < "$work/without" | tail -c +$((before + 1)) >> "$work/expected"
}

# Runs something with one growth refused; the shim tells how many there were, and whether one was refused. It tells nothing
# where the program didn't end by itself, and that ends a round.
run_refused() {
    : > "$work/counts"
    REFUSE=$growth FAULTS=$work/counts LD_PRELOAD=$shim "$@" > "$work/out" 2> "$work/err"
    status=$?
    growths=0
    met=0
    [ ! -s "$work/counts" ] || read -r growths met rest < "$work/counts"
}

# Whether nothing was written since memory was refused before the run.
is_before_the_run() {
    [ "$refused" -eq 0 ] && [ ! -s "$work/out" ] || return 1
    [ "$status" -eq 2 ] || { [ "$status" -eq 4 ] && [ "$(cat "$work/err")" = "orgviews: memory" ]; }
}

# Whether what was written is right where one growth was refused; counts in which way.
is_right() {
    if is_before_the_run; then
        early=$((early + 1))
        return 0
    fi
    [ "$status" -eq 0 ] && [ ! -s "$work/err" ] || return 1
    if cmp -s "$work/out" "$work/base"; then
        without=$((without + 1))
        return 0
    fi
    # Growths come in the order of the commands: it is the command that was refused last, or one behind it.
    while [ "$refused" -eq 0 ] || ! cmp -s "$work/out" "$work/expected"; do
        refused=$((refused + 1))
        [ "$refused" -le "$commands" ] || return 1
        expect "$refused"
    done
    answered=$((answered + 1))
}

# Each command of the stream, twice, as files in order.
cut_twice() {
    rm -rf "$work/commands" "$work/once"
    mkdir "$work/commands" "$work/once"
    LC_ALL=C awk -v to="$work/once" -f "$here/faults/split.awk" "$1"
    for command in "$work"/once/*; do
        cp "$command" "$work/commands/$(basename "$command")-1"
        mv "$command" "$work/commands/$(basename "$command")-2"
    done
    ls "$work/commands" > "$work/names"
    commands=$(wc -l < "$work/names")
    cat "$work"/commands/* > "$work/stream"
}

# Tries each growth of a run over the stream, with so many background steps behind each command.
try_stream() {
    moment=$(sed -n 2p "$here/rows/$1.args")
    idle=$2
    ample < "$work/stream" > "$work/base"
    growth=1
    refused=0
    early=0
    without=0
    answered=0
    while run_refused "$program" --at "$moment" --idle "$idle" --protocol 2 < "$work/stream"; [ "$met" -gt 0 ]; do
        is_right || break
        growth=$((growth + 1))
    done
    if [ "$met" -eq 0 ] && [ "$answered" -gt 0 ] && [ "$status" -eq 0 ] && cmp -s "$work/out" "$work/base"; then
        passed=$((passed + 1))
        echo "refused: $1, --idle $idle: $growths growths in $commands commands: $answered answered with want of memory, $without done without, $early before the run"
    else
        failed=$((failed + 1))
        echo "refused: $1, --idle $idle: wrong where growth $growth is refused: status $status, $(cat "$work/err")"
    fi
}

# Tries each growth of a program that makes single calls.
try_calls() {
    growth=1
    answered=0
    while run_refused "$@"; [ "$met" -gt 0 ]; do
        case $status in
        9) answered=$((answered + 1)) ;;
        0) ;;
        # The words themselves found no memory.
        2) [ "$answered" -eq 0 ] && [ ! -s "$work/out" ] && [ ! -s "$work/err" ] || break ;;
        *) break ;;
        esac
        growth=$((growth + 1))
    done
    if [ "$met" -eq 0 ] && [ "$status" -eq 0 ] && [ "$answered" -gt 0 ]; then
        passed=$((passed + 1))
        echo "refused: single calls: $growths growths, $answered answered with want of memory"
    else
        failed=$((failed + 1))
        echo "refused: single calls: wrong where growth $growth is refused: status $status, $(cat "$work/out")"
    fi
}

# A view for which a limit on addresses leaves no room: 4,000 rows of a day, each with the whole title of 48 KB, 192 MB. It is
# refused, and the stream goes on.
try_limit() {
    awk 'BEGIN {
        for (stamp = 0; stamp < 4000; stamp++) title = title "<2024-02-28>"
        print "add a.org " length(title) + 3
        print "* " title
        print "agenda 2024-02-28 1"
        print "clock block=today maxlevel=1"
    }' > "$work/stream"
    printf 'ok 1\nerr 1 memory\nview 33\n2024-02-28 2024-02-28\n0:00     *\n' > "$work/expected"
    (ulimit -v 100000 && exec "$program" --at "2024-02-28 10:30") < "$work/stream" > "$work/out" 2> "$work/err"
    status=$?
    if [ "$status" -eq 0 ] && cmp -s "$work/out" "$work/expected"; then
        passed=$((passed + 1))
        echo "refused: a view of 192 MB below a limit of 100,000 KiB: answered with want of memory"
    else
        failed=$((failed + 1))
        echo "refused: a view of 192 MB below a limit of 100,000 KiB: status $status, $(cat "$work/err")"
    fi
}

for stream in $streams; do
    cut_twice "$here/rows/$stream"
    try_stream "$stream" 0
    try_stream "$stream" 1
done
try_limit
[ "$#" -eq 0 ] || try_calls "$@"
echo "refused: $passed passed, $failed failed"
[ "$failed" -eq 0 ] && [ "$passed" -gt 0 ]
