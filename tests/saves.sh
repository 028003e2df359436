#!/bin/sh
# Tries on real files a program that changes a file by one replacement: PROGRAM append, which puts a line at the end,
# PROGRAM add, which puts a heading there, PROGRAM done, which completes the heading on the first line, or PROGRAM in, out or
# cancel, which begins, ends or takes away the clock of that heading, or PROGRAM switch, which ends it and begins another. Its status is to be 0 where the change stands there, and 5
# where nothing was changed; of all but `append` also 3 where the file couldn't be read, and 6 where the change stands there and
# output failed.
# Modes, links, pipes, read-only and locked files, a read-only folder; each call on files failing with four errors, the program
# killed before each, and another program writing in place before each (tests/save/shim.c); eight programs at once; a program
# killed at any time; a device that is full. Nothing may be torn, and no line lost. What can't be tried for want of setpriv or
# flock has failed; where the system lets nobody be another user or mount a device, the last line, which counts, says so.
# To see it bite, let `look_back` of org_save answer `Nothing` at once: then lines of the other program are lost and named.
here=$(cd "$(dirname "$0")" && pwd)
work=$(mktemp -d) || exit 2
trap 'rm -rf "$work"' EXIT
passed=0
failed=0

# Ends where nothing can be tried: that is no success.
give_up() {
    echo "saves: $1: nothing was tried"
    echo "saves: 0 passed, 1 failed"
    exit 1
}
[ -x "$1" ] || give_up "there is no program $1"
program=$(cd "$(dirname "$1")" && pwd)/$(basename "$1")
kind=$2
clock='CLOCK: [2024-02-28 Wed 09:45]'
case $kind in
    append) before='* One' after=x ;;
    add) before='* One' after='* DONE x' ;;
    done) before='* TODO One' after='* DONE One' ;;
    in)
        before='* One'
        after="* One
:LOGBOOK:
CLOCK: [2024-02-28 Wed 10:30]
:END:"
        ;;
    out)
        before="* One
$clock"
        after="$before--[2024-02-28 Wed 10:30] =>  0:45"
        ;;
    cancel)
        before="* One
:LOGBOOK:
$clock
:END:
body"
        after="* One
body"
        ;;
    switch)
        before="* One
:LOGBOOK:
$clock
:END:
* Two"
        after="* One
:LOGBOOK:
$clock--[2024-02-28 Wed 10:30] =>  0:45
:END:
* Two
:LOGBOOK:
CLOCK: [2024-02-28 Wed 10:30]
:END:"
        ;;
    *) give_up "there is no kind $kind" ;;
esac
# The status where a file can't be read: an act on a clock reads it once before it is opened to be changed.
case $kind in
    append | add | done) unread=5 ;;
    *) unread=3 ;;
esac
lines_before=$(printf '%s\n' "$before" | wc -l)
lines_after=$(printf '%s\n' "$after" | wc -l)
shim=$(sh "$here/save/build.sh" "$work") || give_up "the shim of tests/save can't be built here"
cd "$work" || exit 2
unset ORGQ_FILES NO_COLOR TZ TZDIR XDG_STATE_HOME
HOME=$work/home
XDG_CONFIG_HOME=$work/home/config
export HOME XDG_CONFIG_HOME

# Whether the change is a line at the end.
grows() {
    [ "$kind" = append ] || [ "$kind" = add ]
}

# Who runs it: another user, where this one may write everywhere and another is wanted.
user=
other=
[ "$(id -u)" -ne 0 ] || other="setpriv --reuid 65534 --regid 65534 --clear-groups"

# The program over a path and a line, a title or the number of a line.
run() {
    case $kind in
        append) exec $user "$program" append "$1" "$2" ;;
        add) exec $user "$program" --no-config --at "2024-02-28 10:30" -f "$1" add -t DONE "$2" ;;
        done) exec $user "$program" --no-config --at "2024-02-28 10:30" done "$1:$2" ;;
        in) exec $user "$program" --no-config --at "2024-02-28 10:30" clock in "$1:$2" ;;
        switch) exec $user "$program" --no-config --at "2024-02-28 10:30" -f "$1" clock in --switch "$1:5" ;;
        *) exec $user "$program" --no-config --at "2024-02-28 10:30" -f "$1" clock "$kind" ;;
    esac
}

# The same where more is to follow.
run_alone() {
    (run "$@")
}

# The same over a path, with what is set before it.
put() {
    path=$1
    shift
    (
        [ $# -eq 0 ] || export "$@"
        if grows; then run "$path" x; else run "$path" 1; fi
    ) > "$work/out" 2> "$work/err"
    status=$?
}

# A folder with one file, and what that holds.
new() {
    rm -rf d
    mkdir d
    printf '%s\n' "$before" > d/a.org
}

# The lines of a file that are changed.
changed() {
    if grows; then tail -n 1 "$1"; else head -n "$lines_after" "$1"; fi
}

# What stands in the folder but the file.
beside() {
    ls -A d | grep -v '^a\.org$' | tr '\n' ' '
}

is() {
    if [ "$2" = "$3" ]; then
        passed=$((passed + 1))
    else
        failed=$((failed + 1))
        echo "saves: $1: $2, and not $3: $(cat "$work/err")"
    fi
}

# What can't be tried for want of a tool has failed; what the system lets nobody try is said on the last line.
lack() {
    failed=$((failed + 1))
    echo "saves: $1 can't be tried: there is no $2"
}
left_out=""
leave_out() {
    left_out="${left_out:+$left_out; }$1"
}

# Whether the last replacement was done, and left nothing beside it.
is_done() {
    is "$1" "$status $(changed d/a.org) $(beside)" "0 $after ${2:-}"
}

# Whether it was refused, with the file as it was, beside which these stand.
is_refused() {
    is "$1" "$status $(cat d/a.org) $(beside)" "${3:-5} $before ${2:-}"
}

# How often the change stands in a file.
stands() {
    if grows; then
        grep -c -x -F -e "$after" "$1"
    elif [ "$(changed "$1")" = "$after" ]; then
        echo 1
    else
        echo 0
    fi
}

echo "saves: modes, links and files that are none of its"
for mode in 600 640 644 755 2664; do
    new
    chmod "$mode" d/a.org
    put d/a.org
    is_done "mode $mode"
    is "mode $mode stays" "$(stat -c %a d/a.org)" "$mode"
done
new
(umask 077 && put d/a.org)
is "a narrow umask" "$(stat -c %a d/a.org)" 644
new
chmod 444 d/a.org
put d/a.org
is_refused "a read-only file"
new
ln d/a.org d/b.org
put d/a.org
is_refused "a second name" "b.org "
new
chmod 711 "$work"
chmod 666 d/a.org
chmod 555 d
if $other test -x "$program" -a -w d/a.org -a ! -w d 2> /dev/null; then
    user=$other
    put d/a.org
    user=
    is_refused "a read-only folder"
elif [ -n "$other" ] && ! command -v setpriv > /dev/null; then
    lack "a read-only folder" setpriv
else
    leave_out "a read-only folder: nobody can be another user here"
fi
chmod 755 d
new
mkdir e
ln -s ../d/a.org e/l.org
put e/l.org
is_done "a symbolic link"
is "the link stays" "$(readlink e/l.org) $(ls -A e)" "../d/a.org l.org"
rm -r e
new
ln -s a.org d/one
ln -s one d/two
put d/two
is_done "a link to a link" "one two "
new
ln -s nowhere d/none
put d/none
is_refused "a link to nothing" "none " "$unread"
if [ "$unread" -eq 5 ]; then
    new
    mkfifo d/pipe
    put d/pipe
    is_refused "a pipe" "pipe "
    put d
    is_refused "a folder" "pipe "
    put /dev/null
    is "a device" "$status" 5
fi
new
put d/none.org
is_refused "no such file" "" "$unread"
if grows; then
    new
    : > d/a.org
    put d/a.org
    is_done "an empty file"
fi
if ! command -v flock > /dev/null; then
    lack "another program's lock" flock
else
    new
    flock d/a.org sleep 3 &
    sleep 0.5
    put d/a.org
    is_refused "another program has the lock"
    wait
    put d/a.org
    is_done "it has the lock no longer"
fi
new
printf 'left' > d/.a.org.orgq
put d/a.org
is_done "what a stopped program left"
new
ln -s 'ann@host.4711:1700000000' 'd/.#a.org'
put d/a.org
is_refused "a lock of Emacs" ".#a.org "
is "its owner is named" "$(grep -c 'ann@host' err)" 1
new
head -c 1008 /dev/zero | tr '\0' 'U' | sed 's/^UU/b0/' > d/.a.org.swp
put d/a.org
is_refused "changes in Vim" ".a.org.swp "
new
{ printf 'b0'; head -c 1006 /dev/zero; } > d/.a.org.swp
put d/a.org
is_done "no changes in Vim" ".a.org.swp "
new
mkfifo d/.a.org.swp d/.a.org.swo 'd/.#a.org'
put d/a.org
is_done "pipes in place of what editors leave" ".#a.org .a.org.swo .a.org.swp "
new
ln d/a.org d/.a.org.orgw
put d/a.org
is_done "a second name that a stopped program left"
new
printf 'other' > d/.a.org.orgw
put d/a.org
is_done "another file of that name"
name=$(head -c 251 /dev/zero | tr '\0' n).o
new
mv d/a.org "d/$name"
put "d/$name"
is "a name without room for a longer one" "$status $(cat "d/$name")" "5 $before"
new
mv d/a.org "d/ä b.org"
put "d/ä b.org"
is "a name with a space" "$status $(changed "d/ä b.org")" "0 $after"

# A file of some length, and what it was and will be.
length=0
long() {
    rm -rf d
    mkdir d
    if [ "$1" -ne "$length" ]; then
        {
            echo "$before"
            head -c "$1" /dev/zero | tr '\0' a
            echo
        } > was
        if grows; then { cat was; echo "$after"; }; else { echo "$after"; tail -n "+$((lines_before + 1))" was; }; fi > will
        length=$1
    fi
    cp was d/a.org
}

# Makes the file as it was where the act can't be done twice.
renew() {
    case $kind in in | out | cancel | switch) cp was d/a.org ;; esac
}

# What the file holds: what it did, what it is to, or neither.
held() {
    if cmp -s d/a.org was; then
        echo old
    elif cmp -s d/a.org will; then
        echo new
    else
        echo torn
    fi
}

long 50000
put d/a.org LD_PRELOAD="$shim" FILE_CALLS="$work/count"
calls=$(cat "$work/count" 2> /dev/null)
[ "${calls:-0}" -gt 10 ] || give_up "no calls were counted"
echo "saves: each of $calls calls on files fails, with four errors, or the program is killed before it"
for error in 5 28 13 4 none; do
    call=0
    while [ "$call" -lt "$calls" ]; do
        call=$((call + 1))
        long 50000
        if [ "$error" = none ]; then
            { put d/a.org LD_PRELOAD="$shim" FILE_FAILS="$call"; } 2> /dev/null
        else
            put d/a.org LD_PRELOAD="$shim" FILE_FAILS="$call" FILE_ERROR="$error"
        fi
        case "$status $(held)" in
            "0 new" | "5 old" | "137 old" | "137 new") passed=$((passed + 1)) ;;
            "3 old" | "6 new")
                if [ "$kind" = append ]; then wanted=done; else wanted=$kind; fi
                is "error $error at call $call is one of an act" "$kind" "$wanted"
                ;;
            # An act on a clock reads first which files there are.
            "2 old") is "error $error at call $call is one of the list of files" "$unread $(grep -c 'the list of files' err)" "3 1" ;;
            *)
                failed=$((failed + 1))
                echo "saves: error $error at call $call: status $status, $(held): $(cat "$work/err")"
                ;;
        esac
        if [ "$status" -ne 137 ] && [ -n "$(beside)" ] && ! grep -q 'left: true\|may be left' err; then
            failed=$((failed + 1))
            echo "saves: error $error at call $call: $(beside)is left, and not said"
        fi
        renew
        put d/a.org
        is_done "error $error at call $call, and then another"
    done
done

echo "saves: another program writes in place before each call"
call=0
rescued=0
refused=0
while [ "$call" -lt "$calls" ]; do
    call=$((call + 1))
    long 50000
    put d/a.org LD_PRELOAD="$shim" FILE_WRITES="$call" FILE_TARGET=d/a.org
    [ "$status" -ne 5 ] || refused=$((refused + 1))
    [ ! -e d/a.org.orgq1 ] || rescued=$((rescued + 1))
    is "foreign line at call $call" "$(cat d/* | grep -c '^foreign$') $(stands d/a.org)" "1 $((status == 0))"
    if [ -e d/a.org.orgq1 ]; then
        # It was written into the file that was there before, or into the one that had its name until that came back.
        case $(wc -c < d/a.org.orgq1) in
            $(($(wc -c < was) + 8)) | $(($(wc -c < will) + 8))) kept=whole ;;
            *) kept=torn ;;
        esac
        is "kept line at call $call" "$(grep -c 'd/a.org.orgq1' err) $kept" "1 whole"
    fi
done
is "some were refused, and some kept" "$((refused > 0)) $((rescued > 0))" "1 1"
echo "saves: of $calls writes of another program $refused were found before the rename and $rescued after it, none was lost"

echo "saves: eight at once, five times"
# With a home, what they change is kept as well, and nothing is said.
mkdir -m 755 "$HOME"
case $kind in
    append | add) echo '* One' > d/b.org ;;
    done | in) seq 40 | sed 's/^/* TODO /' > d/b.org ;;
    *) echo "$before" > d/b.org ;;
esac
for round in 0 1 2 3 4; do
    for each in 1 2 3 4 5 6 7 8; do
        number=$((round * 8 + each))
        if [ "$kind" = append ]; then line="* DONE $number"; else line=$number; fi
        {
            run_alone d/b.org "$line" > /dev/null 2> "err.$number"
            echo "$? $(grep -c ^ "err.$number")" > "status.$number"
        } &
    done
    wait
done
# A lock is waited for one second, so that on a slow device one of eight may be refused; then it says so in a line.
done8=$(cat status.* | grep -c '^0 0$')
cat err.* > err
case $kind in
    append | add | done)
        is "each was done, or refused with a reason" "$(cat status.* | grep -c -v '^0 0$\|^5 1$')" 0
        is "most were done" "$((done8 > 20))" 1
        is "all lines stand" "$(grep -c '^[*] DONE' d/b.org)" "$done8"
        is "none stands twice" "$(sort d/b.org | uniq -d | wc -l)" 0
        ;;
    in) is "one clock runs" "$(grep -c '^[*] TODO' d/b.org) $(grep -c '^CLOCK' d/b.org) $done8" "40 1 1" ;;
    *) is "one did it" "$(cat d/b.org) $done8" "$after 1" ;;
esac
rm -f err.* status.*

if [ "$kind" = add ]; then
    echo "saves: two at once, fifty times"
    echo '* One' > d/c.org
    stood=0
    for number in $(seq 50); do
        { run d/c.org "one $number" > /dev/null 2> err1; } &
        first=$!
        { run d/c.org "two $number" > /dev/null 2> err2; } &
        second=$!
        wait "$first"
        one=$?
        wait "$second"
        two=$?
        is "one of $number" "$one $(grep -c -x -F "* DONE one $number" d/c.org) $(wc -l < err1)" "$one $((one == 0)) $((one != 0))"
        is "two of $number" "$two $(grep -c -x -F "* DONE two $number" d/c.org) $(wc -l < err2)" "$two $((two == 0)) $((two != 0))"
        stood=$((stood + (one == 0) + (two == 0)))
    done
    echo "saves: of 100 headings $stood stand, and the others were refused"
fi

rm -rf "$HOME"

echo "saves: a limit on the size of files"
long 50000
(ulimit -f 16 && put d/a.org) 2> /dev/null
is "a file over the limit" "$(held)" old
put d/a.org
is_done "and then without it"

echo "saves: killed at any time, fifty times"
long 4000000
if grows; then number=x; else number=1; fi
old=0
made=0
left=0
for each in 0 1 2 3 4 5 6 7 8 9 10 11 12 13 14 15 16 17 18 19 20 21 22 23 24 25 26 27 28 29 30 31 32 33 34 35 36 37 38 39 40 41 42 43 44 45 46 47 48 49; do
    cp was d/a.org
    run d/a.org "$number" > /dev/null 2>&1 &
    it=$!
    sleep "0.$(printf %03d $((each * 2)))"
    { kill -9 "$it" && wait "$it"; } 2> /dev/null
    wait "$it" 2> /dev/null
    found=$(beside)
    case $(held) in
        old) old=$((old + 1)) ;;
        new) made=$((made + 1)) ;;
        *)
            failed=$((failed + 1))
            echo "saves: killed, and torn"
            ;;
    esac
    [ -n "$found" ] || continue
    left=$((left + 1))
    cp was d/a.org
    put d/a.org
    is_done "after a kill that left $found"
done
cp was d/a.org
put d/a.org
is_done "after those"
echo "saves: $old times the old text stands, $made times the new one, $left times a file was left, and kept no next act from its work"

mkdir full
if mount -t tmpfs -o size=80k tmpfs full 2> /dev/null; then
    echo "saves: a full device"
    long 50000
    cp was full/a.org
    put full/a.org
    is "a full device" "$status $(cmp full/a.org was && echo same) $(ls -A full)" "5 same a.org"
    umount full
else
    leave_out "a full device: none can be mounted here"
fi
echo "saves: $passed passed${left_out:+ (without $left_out)}, $failed failed"
[ "$failed" -eq 0 ] && [ "$passed" -gt 0 ]
