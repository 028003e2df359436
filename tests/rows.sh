#!/bin/sh
# Runs the worked streams of tests/rows over a program. Those that name nothing but a moment are run with one and with 1,000
# background steps behind each command too, and over a second program, where it is named, that keeps each text in one
# string, as the first keeps it in pieces. NAME is standard input, or NAME.make a script that writes it where it is long;
# NAME.args the arguments, one a line, NAME.files a script that writes files into the folder that the program is then run in,
# NAME.stdout what has to be written, NAME.status the exit status (0 where there is no such file), NAME.stderr what has to
# stand on standard error (anything where there is no such file). All run with a stack of 512 KiB, which is enough as
# docs/stream.md says. Says which differ; the last line counts.
ulimit -s 512 || exit 2
program=$(cd "$(dirname "$1")" && pwd)/$(basename "$1")
if [ ! -x "$program" ]; then
    echo "rows: there is no program $1"
    echo "rows: 0 passed, 1 failed"
    exit 1
fi
strings=""
if [ -n "$2" ]; then
    strings=$(cd "$(dirname "$2")" && pwd)/$(basename "$2")
    if [ ! -x "$strings" ]; then
        echo "rows: there is no program $2"
        echo "rows: 0 passed, 1 failed"
        exit 1
    fi
fi
cd "$(dirname "$0")/rows" || exit 2
passed=0
failed=0
out=$(mktemp) || exit 2
err=$(mktemp) || exit 2
made=$(mktemp) || exit 2
room=$(mktemp -d) || exit 2
rows=$PWD
trap 'rm -rf "$out" "$err" "$made" "$room"' EXIT
for given in *.args; do
    if [ ! -f "${given%.args}.stdout" ]; then
        echo "${given%.args}: it has no .stdout, and is never run"
        failed=$((failed + 1))
    fi
done
for expected in *.stdout; do
    name=${expected%.stdout}
    input=$name
    if [ -f "$name.make" ]; then
        sh "$name.make" > "$made"
        input=$made
    fi
    if [ ! -f "$input" ] || [ ! -f "$name.args" ]; then
        echo "$name: its input or its arguments are missing"
        failed=$((failed + 1))
        continue
    fi
    set --
    while IFS= read -r word || [ -n "$word" ]; do
        set -- "$@" "$word"
    done < "$name.args"
    status=0
    [ -f "$name.status" ] && status=$(cat "$name.status")
    if [ -f "$name.files" ]; then
        (cd "$room" && sh "$rows/$name.files" && "$program" "$@") < "$input" > "$out" 2> "$err"
    else
        "$program" "$@" < "$input" > "$out" 2> "$err"
    fi
    got=$?
    if [ "$got" -ne "$status" ]; then
        echo "$name: status $got, wanted $status"
        failed=$((failed + 1))
    elif ! cmp -s "$out" "$expected"; then
        echo "$name: standard output differs"
        diff "$expected" "$out" | head -n 6
        failed=$((failed + 1))
    elif [ -f "$name.stderr" ] && ! cmp -s "$err" "$name.stderr"; then
        echo "$name: standard error differs"
        diff "$name.stderr" "$err" | head -n 6
        failed=$((failed + 1))
    else
        passed=$((passed + 1))
    fi
    if [ "$#" -ne 2 ] || [ "$1" != --at ] || [ "$status" -eq 2 ]; then
        continue
    fi
    for idle in 1 1000; do
        "$program" "$@" --idle "$idle" < "$input" > "$out" 2> "$err"
        if cmp -s "$out" "$expected"; then
            passed=$((passed + 1))
        else
            echo "$name: standard output differs with --idle $idle"
            diff "$expected" "$out" | head -n 6
            failed=$((failed + 1))
        fi
    done
    if [ -z "$strings" ]; then
        continue
    fi
    "$strings" stream "${2% *}" "${2#* }" < "$input" > "$out" 2> "$err"
    if cmp -s "$out" "$expected"; then
        passed=$((passed + 1))
    else
        echo "$name: standard output differs over texts in one string"
        diff "$expected" "$out" | head -n 6
        failed=$((failed + 1))
    fi
done
echo "rows: $passed passed, $failed failed"
[ "$failed" -eq 0 ] && [ "$passed" -gt 0 ]
