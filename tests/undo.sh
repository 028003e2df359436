#!/bin/sh
# Tries `orgq undo` on real files: tests/undo.sh ORGQ. Each kind of act over made files, then taken back: the file has the bytes
# from before. Refused after an edit in between, with the lines that differ; twenty acts and twenty times taken back; an act that was stopped
# before its write is passed over; what is kept may be read by its owner alone; where nothing can be kept the act stands, and that
# is said; of several files the last change goes first. The last line counts.
here=$(cd "$(dirname "$0")" && pwd)
work=$(mktemp -d) || exit 2
trap 'chmod -R u+rwx "$work"; rm -rf "$work"' EXIT
passed=0
failed=0
if [ ! -x "$1" ]; then
    echo "undo: there is no program $1"
    echo "undo: 0 passed, 1 failed"
    exit 1
fi
orgq=$(cd "$(dirname "$1")" && pwd)/$(basename "$1")
cd "$work" || exit 2
unset ORGQ_FILES NO_COLOR TZ TZDIR XDG_STATE_HOME
HOME=$work/home XDG_CONFIG_HOME=$work/config LC_ALL=C.UTF-8
export HOME XDG_CONFIG_HOME LC_ALL
mkdir -m 755 "$HOME"
kept=$HOME/.local/state/orgq/undo

is() {
    if [ "$2" = "$3" ]; then
        passed=$((passed + 1))
    else
        failed=$((failed + 1))
        echo "undo: $1: $2, and not $3: $(cat err)"
    fi
}

# Runs the program at one moment.
run() {
    "$orgq" --no-config --at '2024-02-28 10:30' "$@" > out 2> err
    status=$?
}

# The file is as before.
same() {
    if cmp -s a.org before; then
        passed=$((passed + 1))
    else
        failed=$((failed + 1))
        echo "undo: $1: the file isn't as before"
    fi
}

# A file for all acts, in several forms: with and without a last line feed, with CRs, with letters of several bytes.
make() {
    printf '#+TODO: TODO NEXT | DONE\n* TODO Büy bulbs :home:\nSCHEDULED: <2024-02-28 Wed +1w>\nbody\n* NEXT Call\n:LOGBOOK:\nCLOCK: [2024-02-28 Wed 09:45]\n:END:\n* Läst' > a.org
    case $1 in
        feed) printf '\n' >> a.org ;;
        returns) sed 's/$/\r/' a.org > b && mv b a.org ;;
        # What acts log goes, too.
        logged) printf '\n#+STARTUP: logdone logdrawer logreschedule logredeadline\n' >> a.org ;;
    esac
    cp a.org before
}

# What comes of an act, and then of taking it back.
act() {
    name=$1
    shift
    for form in plain feed returns logged; do
        make $form
        run "$@"
        is "$name, $form" "$status" 0
        cmp -s a.org before && is "$name, $form: changed" no yes
        run undo --dry-run a.org
        is "$name, $form, tried" "$status" 0
        cp out tried
        run undo a.org
        is "$name, $form, taken back" "$status" 0
        same "$name, $form"
        cmp -s out tried
        is "$name, $form, as it was tried" $? 0
        is "$name, $form, said" "$(cat err)" ""
        run undo a.org
        is "$name, $form, nothing left" "$status" 1
        rm -rf "$kept"
    done
}
act done done a.org:2
act 'done by a word' done a.org:5 DONE
act set set a.org:9 NEXT
act schedule schedule a.org:5 2024-03-01
act 'schedule none' schedule a.org:2 none
act deadline deadline a.org:2 2024-03-01 9:30
act add -f a.org add -t TODO 'Ünder all'
act 'add below' add --under a.org:2 Below
act 'clock in' -f a.org clock in --switch a.org:2
act 'clock out' -f a.org clock out
act 'clock cancel' -f a.org clock cancel
printf '* One\n' > a.org
cp a.org before
run -f a.org clock in a.org:1
is 'clock in alone' "$status" 0
run undo a.org
is 'clock in alone, taken back' "$status" 0
same 'clock in alone'

# What is said and printed.
rm -rf "$kept"
printf '* TODO One\n* TODO Two\n' > a.org
run done a.org:2
run undo --list a.org
is 'the list' "$(cat out)" '2024-02-28 10:30 a.org
-* TODO Two
+* DONE Two'
run -n undo --dry-run a.org
is 'the places' "$(cat out)" 'a.org:2:-* DONE Two
a.org:2:+* TODO Two'
run -q undo a.org
is 'quiet' "$status $(cat out)" '0 '
is 'quiet, taken back' "$(cat a.org)" '* TODO One
* TODO Two'
run undo --list a.org
is 'an empty list' "$status $(cat out)" '1 '
run --json undo a.org
is 'no objects' "$status" 2

# Refused after an edit in between, and done once that is gone.
printf '* TODO One\n* TODO Two\n' > a.org
cp a.org before
run done a.org:1
cp a.org after
printf '* TODO Three\n' >> a.org
run undo a.org
is 'edited' "$status" 2
is 'edited, said' "$(cat err)" "orgq: a.org: it isn't as the last change by orgq left it
from line 3 on it had, and has
+* TODO Three"
is 'edited, kept' "$(tail -n 1 a.org)" '* TODO Three'
cp after a.org
run undo a.org
is 'no longer edited' "$status" 0
same 'no longer edited'

# Twenty acts and twenty times taken back, and as many as are kept.
for count in 20 102; do
    rm -rf "$kept" states
    mkdir states
    printf '* One\n' > a.org
    number=0
    while [ $number -lt $count ]; do
        cp a.org states/$number
        run -f a.org add "Title $number"
        number=$((number + 1))
    done
    run undo --list a.org
    left=$(grep -c '^2024' out)
    [ "$count" -lt 100 ] && wanted=$count || wanted=100
    is "$count acts are listed" "$left" "$wanted"
    wrong=0
    while [ $number -gt $((count - wanted)) ]; do
        number=$((number - 1))
        run undo a.org
        [ "$status" -eq 0 ] && cmp -s a.org states/$number || wrong=$((wrong + 1))
    done
    is "$count acts taken back" "$wrong" 0
    run undo a.org
    is "$count acts and no more" "$status" 1
done

# An act that was stopped before its write is passed over, and one that was taken back when its history couldn't be written.
rm -rf "$kept"
printf '* TODO One\n* TODO Two\n' > a.org
cp a.org before
run done a.org:1
cp a.org after
run done a.org:2
cp after a.org
run undo --list a.org
is 'stopped, listed' "$(grep -c '^2024' out)" 1
run undo a.org
is 'stopped' "$status" 0
same 'stopped'
run done a.org:2
run undo a.org
same 'after one that was stopped'

# The owner alone may read what is kept.
rm -rf "$HOME/.local"
umask 022
run done a.org:1
is 'the folders' "$(stat -c %a "$HOME/.local" "$HOME/.local/state" "$HOME/.local/state/orgq" "$kept" | tr '\n' ' ')" '700 700 700 700 '
is 'the history' "$(stat -c %a "$kept"/* | tr '\n' ' ')" '600 '
run done a.org:2
is 'the next history' "$(stat -c %a "$kept"/* | tr '\n' ' ')" '600 '
is 'nothing beside it' "$(ls -A "$kept" | wc -l)" 1

# Where nothing can be kept the act stands, and that is said.
stands() {
    printf '* TODO One\n' > a.org
    run done a.org:1
    is "$1" "$status $(cat a.org)" '0 * DONE One'
    is "$1, said" "$(grep -c "orgq undo can't take this change back" err)" 1
}
if [ "$(id -u)" -ne 0 ]; then
    chmod 500 "$kept"
    stands 'a folder that may not be written'
    chmod 700 "$kept"
fi
rm -rf "$HOME/.local"
: > "$HOME/.local"
stands 'a file in place of the folder'
rm "$HOME/.local"
home=$HOME
HOME=
stands 'no home'
HOME=$home
printf '* TODO One\n' > a.org
run done a.org:1
for file in "$kept"/*; do printf 'x\n' > "$file"; done
stands 'what is no history'
is 'what is no history stays' "$(cat "$kept"/*)" x
run undo a.org
is 'what is no history is no undo' "$status" 3

# Of several files the last change goes first; each path has a history of its own.
rm -rf "$HOME/.local"
mkdir -p d
printf '* TODO One\n' > d/a.org
printf '* TODO Two\n' > d/b.org
run done d/a.org:1
run done d/b.org:1
run done d/a.org:1
run set d/a.org:1 TODO
run -f d undo
is 'the last of two files' "$(cat d/a.org d/b.org)" '* DONE One
* DONE Two'
run -f d undo
is 'the one before' "$(cat d/a.org d/b.org)" '* DONE One
* TODO Two'
run -f d undo
is 'the first' "$(cat d/a.org d/b.org)" '* TODO One
* TODO Two'
run -f d undo
is 'no more of both' "$status" 1
ln -s d/b.org link.org
run done link.org:1
run undo d/b.org
is 'by another name' "$status $(cat d/b.org)" '0 * TODO Two'
run undo nowhere.org
is 'no such file' "$status" 1

# An act and taking it back, killed before each call on files, and with each failing: the file has the text from before or from after,
# and `undo` then gives the text before that one. Where the history couldn't be written, it may be refused.
stopped() {
    name=$1
    error=$2
    start=$3
    shift 3
    cp "$start" a.org
    rm -rf "$kept"
    cp -R "$start.kept" "$kept"
    (
        export LD_PRELOAD="$shim" FILE_CALLS=calls
        run "$@"
    )
    total=$(cat calls)
    call=1
    wrong=
    while [ "$call" -le "$total" ]; do
        cp "$start" a.org
        rm -rf "$kept"
        cp -R "$start.kept" "$kept"
        (
            export LD_PRELOAD="$shim" FILE_FAILS="$call"
            [ -z "$error" ] || export FILE_ERROR="$error"
            run "$@"
        ) 2> /dev/null
        now=other
        cmp -s a.org one && now=one
        cmp -s a.org two && now=two
        run undo a.org
        case $now in
            two) cmp -s a.org one || { [ -n "$error" ] && [ "$status" -eq 2 ] && cmp -s a.org two; } || wrong="$wrong $call" ;;
            one) cmp -s a.org none || wrong="$wrong $call" ;;
            other) wrong="$wrong $call" ;;
        esac
        call=$((call + 1))
    done
    [ "$total" -gt 20 ] || wrong="$wrong $total calls"
    is "$name, error ${error:-none}" "$wrong" ""
}
if shim=$(sh "$here/save/build.sh" "$work" 2> err); then
    rm -rf "$HOME/.local"
    printf '* TODO One\n* TODO Two\n' > a.org
    cp a.org none
    run done a.org:1
    cp a.org one
    cp -R "$kept" one.kept
    run done a.org:2
    cp a.org two
    cp -R "$kept" two.kept
    for error in '' 5; do
        stopped 'an act that is stopped' "$error" one done a.org:2
        stopped 'an undo that is stopped' "$error" two undo a.org
    done
else
    failed=$((failed + 1))
    echo "undo: the shim of tests/save can't be built here: $(cat err)"
fi

echo "undo: $passed passed, $failed failed"
[ "$failed" -eq 0 ]
