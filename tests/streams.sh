#!/bin/sh
# Tries a program that changes files, ORGQ, and one that answers commands, ORGVIEWS, with each of the eight sets of standard
# streams closed. Each act leaves exactly the bytes that it gives with all streams open, with status 0, or 6 where what it says
# could not be printed; or the file as it was, with another status. An answer that can't be printed is status 4. Nothing that is
# printed goes into a file. The last line counts.
#     tests/streams.sh ORGQ ORGVIEWS
# To see it bite, let `hold_streams` of org_save hold nothing and `open_apart` take every number.
work=$(mktemp -d) || exit 2
trap 'rm -rf "$work"' EXIT
passed=0
failed=0
for program in "$1" "$2"; do
    if [ ! -x "$program" ]; then
        echo "streams: there is no program $program: nothing was tried"
        echo "streams: 0 passed, 1 failed"
        exit 1
    fi
done
orgq=$(cd "$(dirname "$1")" && pwd)/$(basename "$1")
orgviews=$(cd "$(dirname "$2")" && pwd)/$(basename "$2")
cd "$work" || exit 2
unset ORGQ_FILES NO_COLOR TZ TZDIR XDG_STATE_HOME
HOME=$work/home XDG_CONFIG_HOME=$work/home/config
export HOME XDG_CONFIG_HOME

is() {
    if [ "$2" = "$3" ]; then
        passed=$((passed + 1))
    else
        failed=$((failed + 1))
        echo "streams: $1: $2, and not $3"
    fi
}

# Runs a program with the streams closed that the digits name.
with_closed() {
    closed=$1
    shift
    case $closed in
        0) "$@" <&- ;;
        1) "$@" >&- ;;
        2) "$@" 2>&- ;;
        01) "$@" <&- >&- ;;
        02) "$@" <&- 2>&- ;;
        12) "$@" >&- 2>&- ;;
        012) "$@" <&- >&- 2>&- ;;
        *) "$@" ;;
    esac
}

# A folder with a file that has two tasks and a clock that runs, and one without a clock.
new() {
    rm -rf d
    mkdir d
    printf '%s\n' '* TODO One' ':LOGBOOK:' 'CLOCK: [2024-02-28 Wed 09:45]' ':END:' '* TODO Two' > d/a.org
    printf '%s\n' '* TODO Three' > d/b.org
}

# An act by its name.
act() {
    name=$1
    set -- --no-config --at "2024-02-28 10:30"
    case $name in
        done) "$orgq" "$@" done d/a.org:5 ;;
        several) "$orgq" "$@" done d/a.org:1 d/a.org:5 d/b.org:1 ;;
        set) "$orgq" "$@" set d/a.org:5 DONE ;;
        schedule) "$orgq" "$@" schedule d/a.org:5 tomorrow ;;
        deadline) "$orgq" "$@" -n deadline d/a.org:5 +3d ;;
        add) "$orgq" "$@" -f d/a.org add -t TODO Four ;;
        under) "$orgq" "$@" add --under d/a.org:1 Five ;;
        body) "$orgq" "$@" -f d/a.org add Six - ;;
        in) "$orgq" "$@" -f d/b.org clock in d/b.org:1 ;;
        switch) "$orgq" "$@" -f d/a.org clock in --switch d/a.org:5 ;;
        out) "$orgq" "$@" -f d/a.org clock out ;;
        cancel) "$orgq" "$@" -f d/a.org clock cancel ;;
        page) "$orgq" "$@" -f d/a.org page -o d/page.html ;;
        quiet) "$orgq" "$@" -q done d/a.org:5 ;;
    esac
}

# What stands in the folder.
held() {
    for file in d/* d/.*; do
        [ ! -f "$file" ] || { echo "$file"; cat "$file"; }
    done
}

echo "streams: 14 acts, each with eight sets of streams closed"
echo body > input
for name in done several set schedule deadline add under body in switch out cancel page quiet; do
    new
    held > old
    act "$name" < input > out 2> err
    is "$name with all open" "$?" 0
    held > will
    is "$name changes something" "$(cmp -s old will && echo same)" ""
    for closed in none 0 1 2 01 02 12 012; do
        new
        with_closed "$closed" act "$name" < input > out 2> err
        status=$?
        held > now
        wanted="0 new"
        case $name-$closed in
            # The body can't be read.
            body-0*) wanted="3 old" ;;
            page-* | quiet-*) ;;
            # The lines can't be printed.
            *-*1*) wanted="6 new" ;;
        esac
        if cmp -s now will; then got=new; elif cmp -s now old; then got=old; else got=torn; fi
        is "$name with $closed closed" "$status $got" "$wanted"
    done
done

if [ -c /dev/full ]; then
    echo "streams: the same acts into a full device"
    for name in done several set schedule deadline add under body in switch out cancel page quiet; do
        new
        act "$name" < input > out 2> err
        held > will
        new
        act "$name" < input > /dev/full 2> err
        status=$?
        held > now
        case $name in page | quiet) wanted="0 " ;; *) wanted="6 " ;; esac
        is "$name into a full device" "$status $(cmp now will)" "$wanted"
    done
else
    is "a full device" "none here" "one"
fi

echo "streams: a page over a limit on the size of files, and then without it"
new
(ulimit -f 1 && act page > out 2> err) 2> /dev/null
is "no page is there" "$(ls d)" "a.org
b.org"
act page > out 2> err
is "and then it is" "$? $(ls -A d | tr '\n' ' ')" "0 a.org b.org page.html "

echo "streams: views, and files that are read"
new
for view in agenda todo keywords clock page; do
    for closed in 1 01 12 012; do
        with_closed "$closed" "$orgq" --no-config --at "2024-02-28 10:30" -f d/a.org "$view" > out 2> err
        is "$view with $closed closed" "$?" 4
    done
    "$orgq" --no-config --at "2024-02-28 10:30" -f d/a.org "$view" > will 2> err
    status=$?
    for closed in 0 2 02; do
        with_closed "$closed" "$orgq" --no-config --at "2024-02-28 10:30" -f d/a.org "$view" > out 2> err
        is "$view with $closed closed" "$? $(cmp out will)" "$status "
    done
done
for closed in 0 02; do
    with_closed "$closed" "$orgq" --no-config --at "2024-02-28 10:30" -f - todo > out 2> err
    is "standard input with $closed closed" "$? $(cat out)" "3 "
done
printf '%s\n' 'agenda 2024-02-28 1' 'quit' > commands
for closed in 1 01 12 012; do
    with_closed "$closed" "$orgviews" --at "2024-02-28 10:30" d/a.org < commands > out 2> err
    is "a stream with $closed closed" "$?" 4
done
for closed in 0 02; do
    with_closed "$closed" "$orgviews" --at "2024-02-28 10:30" d/a.org > out 2> err
    is "a stream with $closed closed" "$? $(cat out)" "4 "
done
is "the files stay" "$(held)" "$(new; held)"

echo "streams: $passed passed, $failed failed"
[ "$failed" -eq 0 ] && [ "$passed" -gt 0 ]
