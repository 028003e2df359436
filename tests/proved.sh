#!/bin/sh
# SPDX-License-Identifier: Apache-2.0 OR MIT
# Holds the table of docs/proved.md, at which commit each crate was last proved from nothing, against crates.txt: each crate has a
# row, and no other has one. The gate names two files besides, what it wrote of its proofs and of what it took from kept work: then
# each crate that it says is proved has a row, each row's crate is proved, and each that this run didn't prove from nothing is named
# as such.
#
#     sh tests/proved.sh [LOG KEPT]     checks; the last line counts
#     sh tests/proved.sh renew KEPT     writes into the table what a gate says it proved from nothing: all, or the crates it names
cd "$(dirname "$0")/.." || exit 2
page=docs/proved.md
all=$(sed 's/#.*//; /^ *$/d; s/[ :].*//' crates.txt)

if [ "$1" = renew ]; then
    at=$(git rev-parse --short=8 HEAD) && on=$(date -u +%Y-%m-%d) || exit 2
    if grep -q -x "kept: everything was proved from nothing" "$2"; then
        ours=$all
    else
        # (what an earlier run proved was of the same files)
        ours=$({
            sed -n 's/^kept: .* made from nothing by this run: //p' "$2" | tr ',' '\n' | sed 's/^ //; / with its tests$/d'
            sed -n 's/^kept: \([a-z_0-9]*\) was proved from nothing by an earlier run, .*/\1/p' "$2"
        })
    fi
    for crate in $ours; do
        sed -i "s/^| \`$crate\` | .*/| \`$crate\` | $at | $on |/" "$page"
    done
    exit 0
fi

passed=0
failed=0
# Counts a thing that is so, and says what isn't.
count() {
    if [ "$1" -eq 0 ]; then
        passed=$((passed + 1))
    else
        echo "$2"
        failed=$((failed + 1))
    fi
}

rows=$(sed -n 's/^| `\([a-z_0-9]*\)` | .*/\1/p' "$page")
for crate in $all; do
    [ "$(printf '%s\n' "$rows" | grep -c -x "$crate")" -eq 1 ]
    count $? "$page: $crate of crates.txt hasn't one row"
    grep -q -x -E "\| \`$crate\` \| ([0-9a-f]{8} \| [0-9]{4}-[0-9]{2}-[0-9]{2}|never \| ) \|" "$page"
    count $? "$page: the row of $crate has neither a commit and a day nor never"
done
for crate in $rows; do
    printf '%s\n' "$all" | grep -q -x "$crate"
    count $? "$page: there is no crate $crate"
done
if [ -n "$1" ]; then
    for crate in $(sed -n 's/^rt: \([a-z_0-9]*\) \(proved$\|is kept: .*\)/\1/p' "$1"); do
        printf '%s\n' "$rows" | grep -q -x "$crate"
        count $? "$page: $crate is proved and has no row"
    done
    for crate in $rows; do
        grep -q -x -E "rt: $crate (proved|is kept: .*)" "$1"
        count $? "$page: the gate doesn't say that $crate is proved"
        # (by the crate's own line, or all at once)
        grep -q -x -E "kept: everything was proved from nothing.*|kept: .* by this run: (.*, )?$crate(, .*)?|kept: $crate (rests on kept work; from nothing|was proved from nothing by an earlier run, .*): .*" "$2"
        count $? "$page: the gate doesn't say what the proof of $crate rests on"
    done
fi
echo "proved: $passed passed, $failed failed"
[ "$failed" -eq 0 ] && [ "$passed" -gt 0 ]
