#!/bin/sh
# Runs `orgq` beside `orgviews`, and its own worked cases.
# Each stream of tests/rows that consists of `add`s and then views, with nothing but a moment and a profile among its
# arguments, is asked of both programs: the files that it adds are written into a folder, and what `orgq` prints of each
# must be the view. A case of tests/orgq is NAME.args, the arguments, one a line, NAME.stdout, what has to be written, and where they are
# there NAME.status, the exit status (0 else), NAME.stderr, what has to stand on standard error, NAME.env, settings of the
# environment, one a line, NAME.sh, which is run in the folder first, and NAME.after, which is run there afterwards: what it
# writes, as the bytes of a file that was changed, follows in NAME.stdout. The folder has the files of tests/orgq/files. Where
# NAME.terminal is there the program is run on a terminal, by `script`, and what it writes to either stands in NAME.stdout.
# What the sentences of `orgq check` advise is done by tests/advice.py, and has to help.
# Objects are read back by python3, and held against docs/orgq-rows.schema.json. Then each control character, and marks that turn
# or hide text, in all that a file, a name and an argument hold: none is written in any form but into a pipe, as in the file. Each refused growth of memory gives
# the answer all the same or status 4. Each option of --help has to be offered by bash; what completes and orgq-notify are run.
# What can't be tried for want of python3, script, bash, /dev/full or the shim of tests/faults has failed; only where the system
# has no zones are zones left out, and the last line, which counts, says so.
here=$(cd "$(dirname "$0")" && pwd)
passed=0
failed=0
for program in "$1" "$2"; do
    if [ ! -x "$program" ]; then
        echo "orgq: there is no program $program"
        echo "orgq: 0 passed, 1 failed"
        exit 1
    fi
done
orgq=$(cd "$(dirname "$1")" && pwd)/$(basename "$1")
orgviews=$(cd "$(dirname "$2")" && pwd)/$(basename "$2")
room=$(mktemp -d) || exit 2
trap 'chmod -R u+rwx "$room"; rm -rf "$room"' EXIT
unset ORGQ_FILES NO_COLOR COLUMNS LINES COLORFGBG TZ TZDIR XDG_STATE_HOME
HOME=$room/home
XDG_CONFIG_HOME=$room/config
export HOME XDG_CONFIG_HOME

fail() {
    failed=$((failed + 1))
    echo "orgq: $1"
}

# Cuts a stream that consists of adds and then views: writes the files, their order and the views' lines. Fails on any other.
cut_stream() {
    LC_ALL=C awk -v to="$2" '
        function stop() { bad = 1; exit 1 }
        left > 0 {
            piece = $0 "\n"
            if (length(piece) > left) piece = substr(piece, 1, left)
            printf "%s", piece > path
            if (length(piece) < length($0) + 1) stop()
            left -= length(piece)
            if (left == 0) close(path)
            next
        }
        /^add [^ ]+ [0-9]+$/ && views == 0 {
            if ($2 ~ /^\// || $2 !~ /\.org$/ || ($2 in seen)) stop()
            seen[$2] = 1
            path = to "/files/" $2
            folder = path
            sub(/\/[^\/]*$/, "", folder)
            if (system("mkdir -p \"" folder "\"") != 0) stop()
            left = $3 + 0
            printf "" > path
            if (left == 0) close(path)
            print $2 > (to "/order")
            next
        }
        /^(agenda|match|clock|todo) / || /^todo$/ { views++; print > (to "/views"); next }
        { stop() }
        END { if (bad || views == 0 || left > 0) exit 1 }
    ' "$1"
}

# The words of a clock table for the options of its view; fails where it is over one file, and where a block or a level is
# lacking, for which orgq has one of its own.
table_words() {
    printf '%s\n' "$1" | awk '{
        print "clock"
        count = split($0, words, " ")
        for (i = 1; i <= count; i++) {
            if (words[i] ~ /^file=/) exit 1
            else if (words[i] ~ /^block=/) { print substr(words[i], 7); block = 1 }
            else if (words[i] ~ /^maxlevel=/) { print "--level\n" substr(words[i], 10); level = 1 }
            else if (words[i] ~ /^step=/) print "--step\n" substr(words[i], 6)
            else if (words[i] == "effort") print "--effort"
            else if (words[i] ~ /^match=/) { print "--match\n" substr($0, index($0, "match=") + 6); next }
        }
    }
    END { if (!block || !level) exit 1 }'
}

# The arguments of orgq for a view's line, one a line; fails where it has none.
arguments_of() {
    case $1 in
        "agenda "*)
            [ "$(echo "$1" | wc -w)" -eq 3 ] || return 1
            echo "$1" | awk '{ print "agenda\n" $2 "\n-d\n" $3 }'
            ;;
        todo) echo todo ;;
        "todo file="* | "match file="*) return 1 ;;
        "todo "*)
            echo todo
            echo "${1#todo }" | tr '|' '\n'
            ;;
        "match "*) printf '%s\n' match -- "${1#match }" ;;
        "clock "*) table_words "${1#clock }" ;;
        *) return 1 ;;
    esac
}

# Cuts replies: what answers the Kth view into answer.K, and its refusal into refusal.K.
cut_replies() {
    LC_ALL=C awk -v to="$2" '
        left > 0 {
            piece = $0 "\n"
            printf "%s", piece > path
            left -= length(piece)
            if (left == 0) close(path)
            next
        }
        /^ok / { next }
        /^err / { views++; print > (to "/refusal." views); close(to "/refusal." views); next }
        /^view / {
            views++
            path = to "/answer." views
            left = $2 + 0
            printf "" > path
            if (left == 0) close(path)
            next
        }
        { exit 1 }
        END { if (left != 0) exit 1 }
    ' "$1"
}

# Asks orgq the view of a number and a line, in the stream's folder: it answers what the stream does, or refuses where that
# refuses. Counts those that no arguments ask for: over one of the files, without a table's options, and lines that are too long
# or no command.
ask_view() {
    if ! arguments_of "$2" > "$folder/words" || grep -q -s -e '^err 2 command$' -e '^err 3 long$' "$folder/refusal.$1"; then
        unasked=$((unasked + 1))
        return
    fi
    set -- "$1" --at "$(sed -n 2p "$stream.args")" $(sed -n '3,$p' "$stream.args")
    while IFS= read -r file; do set -- "$@" -f "$file"; done < "$folder/order"
    while IFS= read -r word; do set -- "$@" "$word"; done < "$folder/words"
    view=$1
    shift
    (cd "$folder/files" && "$orgq" "$@") > "$folder/printed" 2> "$folder/said"
    status=$?
    views=$((views + 1))
    if [ -f "$folder/refusal.$view" ]; then
        [ "$status" -eq 2 ] && [ ! -s "$folder/printed" ] && [ -s "$folder/said" ] ||
            wrong="view $view: status $status, wanted a refusal as $(cat "$folder/refusal.$view"): $(cat "$folder/said")"
    elif [ "$status" -gt 1 ]; then
        wrong="view $view: status $status: $(cat "$folder/said")"
    elif ! cmp -s "$folder/printed" "$folder/answer.$view"; then
        wrong="view $view differs: $(diff "$folder/answer.$view" "$folder/printed" | head -n 6)"
    fi
}

# What can't be tried has failed: WHAT TOOL.
lack() {
    fail "$1 can't be tried: there is no $2"
}
has() {
    command -v "$1" > /dev/null 2>&1
}
left_out=""

streams=0
views=0
unasked=0
for expected in "$here"/rows/*.stdout; do
    name=$(basename "$expected" .stdout)
    stream=$here/rows/$name
    [ -f "$stream" ] && [ -f "$stream.args" ] && [ ! -f "$stream.files" ] || continue
    grep -q -x -e --at "$stream.args" && ! grep -q -e --idle "$stream.args" || continue
    folder=$room/stream
    rm -rf "$folder"
    mkdir -p "$folder/files"
    cut_stream "$stream" "$folder" || continue
    # A stream without files is one of a folder without any.
    [ -f "$folder/order" ] || echo . > "$folder/order"
    "$orgviews" --at "$(sed -n 2p "$stream.args")" $(sed -n '3,$p' "$stream.args") < "$stream" > "$folder/replies" 2> "$folder/said"
    streams=$((streams + 1))
    wrong=""
    cut_replies "$folder/replies" "$folder" || wrong="its replies can't be cut"
    number=0
    while IFS= read -r line; do
        number=$((number + 1))
        ask_view "$number" "$line"
        [ -z "$wrong" ] || break
    done < "$folder/views"
    [ -z "$wrong" ] && passed=$((passed + 1)) || fail "$name: $wrong"
done
echo "orgq: $streams streams of adds and views, $views views; $unasked more can be asked of a stream alone"
[ "$streams" -ge 70 ] || fail "only $streams streams of adds and views"

# Runs orgq on a terminal of its own; the carriage return that the terminal puts before a line feed is taken away.
on_terminal() {
    {
        printf '%s' "exec '$orgq'"
        for word in "$@"; do printf " '%s'" "$word"; done
    } > "$room/typed"
    script -q -e -c "sh '$room/typed'" /dev/null < /dev/null > "$room/screen"
    shown=$?
    LC_ALL=C sed 's/\r$//' "$room/screen"
    return "$shown"
}

# Whether the rows that were printed are those of the schema.
follow_schema() {
    if said=$(python3 "$here/schema.py" "$here/../docs/orgq-rows.schema.json" < "$room/out"); then
        passed=$((passed + 1))
    else
        fail "$1: $said"
    fi
}

for given in "$here"/orgq/*.args; do
    [ -f "${given%.args}.stdout" ] || fail "$(basename "$given" .args) has no .stdout, and is never run"
done
for expected in "$here"/orgq/*.stdout; do
    name=$(basename "$expected" .stdout)
    given=$here/orgq/$name
    if [ -f "$given.terminal" ] && ! has script; then
        lack "$name" script
        continue
    fi
    folder=$room/case
    [ ! -d "$folder" ] || chmod -R u+rwx "$folder"
    rm -rf "$folder" "$room/home" "$room/config"
    mkdir -p "$room/home" "$room/config"
    cp -R "$here/orgq/files" "$folder"
    set --
    while IFS= read -r word || [ -n "$word" ]; do set -- "$@" "$word"; done < "$given.args"
    status=0
    [ -f "$given.status" ] && status=$(cat "$given.status")
    (
        cd "$folder" || exit 9
        [ ! -f "$given.sh" ] || . "$given.sh"
        if [ -f "$given.env" ]; then
            while IFS= read -r setting; do export "$setting"; done < "$given.env"
        fi
        if [ -f "$given.terminal" ]; then
            on_terminal "$@"
        else
            "$orgq" "$@"
        fi
    ) > "$room/out" 2> "$room/err"
    got=$?
    [ ! -f "$given.after" ] || (cd "$folder" && . "$given.after") >> "$room/out" 2>> "$room/err"
    if [ "$got" -ne "$status" ]; then
        fail "$name: status $got, wanted $status: $(cat "$room/err")"
    elif ! cmp -s "$room/out" "$expected"; then
        fail "$name: standard output differs"
        diff "$expected" "$room/out" | head -n 6
    elif [ -f "$given.stderr" ] && ! cmp -s "$room/err" "$given.stderr"; then
        fail "$name: standard error differs"
        diff "$given.stderr" "$room/err" | head -n 6
    else
        passed=$((passed + 1))
    fi
    grep -q -x -e --json "$given.args" && [ -s "$room/out" ] || continue
    has python3 || { lack "what $name writes as JSON" python3; continue; }
    if bad=$(python3 -c 'import json, sys
for number, line in enumerate(sys.stdin.buffer, 1):
    try:
        json.loads(line)
    except ValueError as error:
        sys.exit(f"line {number}: {error}")' < "$room/out" 2>&1); then
        passed=$((passed + $(wc -l < "$room/out")))
    else
        fail "$name: no object of JSON: $bad"
    fi
    case $name in
        check-* | keywords-* | tags-* | done-* | set-* | config-* | ical-*) ;;
        *) follow_schema "$name" ;;
    esac
done

# The commands of a view share what standard input says, which can be read once.
mkdir -p "$XDG_CONFIG_HOME/orgq"
printf '[twice]\nshow = todo --title one\nshow = todo --title two\n' > "$XDG_CONFIG_HOME/orgq/views"
echo '* TODO only' | "$orgq" -f - --name a.org view twice > "$room/out" 2> "$room/err"
[ $? -eq 0 ] && [ "$(grep -c 'TODO only' "$room/out")" -eq 2 ] && passed=$((passed + 1)) || fail "a view of standard input: $(cat "$room/out" "$room/err")"
rm "$XDG_CONFIG_HOME/orgq/views"

# The advice of each finding helps.
if said=$(python3 "$here/advice.py" "$orgq" 2>&1); then
    passed=$((passed + $(printf '%s\n' "$said" | sed -n 's/^advice: \([0-9]*\) passed.*/\1/p')))
    printf '%s\n' "$said" | tail -n 1
else
    fail "the advice of findings: $said"
fi

# A closed standard output, and one that takes nothing.
cd "$here/orgq/files" || exit 2
"$orgq" --at "2024-02-28 10:30" -f home.org todo >&- 2> "$room/err"
[ $? -eq 4 ] && passed=$((passed + 1)) || fail "a closed standard output: $(cat "$room/err")"
if [ -c /dev/full ]; then
    "$orgq" --at "2024-02-28 10:30" -f home.org todo > /dev/full 2> "$room/err"
    [ $? -eq 4 ] && passed=$((passed + 1)) || fail "a full device: $(cat "$room/err")"
else
    lack "a full device" /dev/full
fi

# Rows of a year, of lists, of what comes and of tables follow the schema.
if ! has python3; then
    lack "that rows follow the schema" python3
else
    for view in "agenda 2024" "agenda 2024-02 --profile 2" "todo" "match LEVEL>0" "next" "next --since 2024-01-01" "clock 2024 --effort --level 9 --step week" "clocks 2024" "log 2024"; do
        case $view in *--since*) set -- next --since "2024-01-01 0:00" ;; *) set -- $view ;; esac
        "$orgq" --at "2024-02-28 10:30" --json -f . "$@" > "$room/out" 2> "$room/err"
        [ -s "$room/out" ] || fail "$view has no rows: $(cat "$room/err")"
        follow_schema "$view"
    done
fi

# The moment of now, in any zone.
for zone in UTC Asia/Tokyo America/New_York; do
    TZ=$zone "$orgq" -f home.org agenda > "$room/out" 2> "$room/err"
    [ "$(head -c 10 "$room/out")" = "$(TZ=$zone date +%F)" ] && passed=$((passed + 1)) || fail "today in $zone: $(head -n 1 "$room/out")"
done

# Zones in a folder of one's own.
if [ -f /usr/share/zoneinfo/Asia/Tokyo ]; then
    mkdir -p "$room/zones/My"
    cp /usr/share/zoneinfo/Asia/Tokyo "$room/zones/My/Town"
    TZDIR=$room/zones TZ=My/Town "$orgq" -f home.org agenda > "$room/out" 2> "$room/err"
    [ "$(head -c 10 "$room/out")" = "$(TZ=Asia/Tokyo date +%F)" ] && passed=$((passed + 1)) || fail "today by TZDIR: $(cat "$room/err")"
else
    left_out=" (without zones: there is no /usr/share/zoneinfo)"
fi

# Whether no control character stands in a text but line feeds and, where the second argument is there, colours of ours; and,
# where no third argument is there, no mark that turns or hides text.
is_clean() {
    [ -s "$1" ] || return 0
    LC_ALL=C od -An -v -tu1 "$1" | LC_ALL=C tr -s ' ' '\n' | awk -v colors="$2" -v marks="$3" '
        $1 == "" { next }
        colors != "" && escape && $1 == 91 { escape = 0; number = 1; next }
        escape { exit 1 }
        number && $1 == 109 { number = 0; next }
        number && (($1 >= 48 && $1 <= 57) || $1 == 59) { next }
        number { exit 1 }
        colors != "" && $1 == 27 { escape = 1; next }
        ($1 < 32 && $1 != 10) || $1 == 127 || (last == 194 && $1 >= 128 && $1 < 160) { exit 1 }
        marks == "" && before == 226 && last == 128 && $1 >= 170 && $1 < 175 { exit 1 }
        marks == "" && before == 226 && last == 129 && $1 >= 166 && $1 < 170 { exit 1 }
        marks == "" && first == 243 && before == 160 && (last == 128 || last == 129) { exit 1 }
        { first = before; before = last; last = $1 }
    '
}

# Which answers of a file aren't so: behind each a line says whose it is.
unclean() {
    rm -f "$room"/part.*
    LC_ALL=C awk -v to="$room/part." '{ print > (to count + 0) } /^-- / { close(to count + 0); count++ }' "$1"
    for part in "$room"/part.*; do is_clean "$part" "$2" || tail -n 1 "$part"; done
}

# Bytes by their numbers.
bytes() {
    for byte in "$@"; do printf "\\$(printf %03o "$byte")"; done
}

# A character by its number as UTF-8.
character() {
    if [ "$1" -lt 128 ]; then
        bytes "$1"
    elif [ "$1" -lt 2048 ]; then
        bytes $((192 + $1 / 64)) $((128 + $1 % 64))
    elif [ "$1" -lt 65536 ]; then
        bytes $((224 + $1 / 4096)) $((128 + $1 / 64 % 64)) $((128 + $1 % 64))
    else
        bytes $((240 + $1 / 262144)) $((128 + $1 / 4096 % 64)) $((128 + $1 / 64 % 64)) $((128 + $1 % 64))
    fi
}

# Each control character, each mark that turns text around and the ends of the tags, which hide it, in a folder of their own: as
# category, in a title and where a tag and a keyword stand, in a property, in a name, and as argument. A file whose name has a
# control character is left out. A calendar keeps marks.
controls=$room/controls
mkdir -p "$controls"
cd "$controls" || exit 2
count=0
numbers=$(awk 'BEGIN {
    for (n = 1; n < 160; n++) if (n != 10 && (n < 32 || n >= 127)) print n
    for (n = 8234; n < 8239; n++) print n
    for (n = 8294; n < 8298; n++) print n
    print 917504 "\n" 917569 "\n" 917631
}')
for number in $numbers; do
    count=$((count + 1))
    if [ "$number" -lt 160 ]; then
        left=3 found=3 marks=""
    else
        left=0 found=1 marks=stand
    fi
    of=$(character "$number"; echo .)
    of=${of%.}
    {
        printf '#+CATEGORY: c%sc\n#+TODO: TODO K%s | DONE\n#+FILETAGS: :f%s:\n' "$of" "$of" "$of"
        printf '* TODO [#A] a%sb%s c :t%st: <2024-02-28 Wed> :u:\nDEADLINE: <2024-03-01 Fri>\n' "$of" "$of" "$of"
        printf ':PROPERTIES:\n:CATEGORY: p%sp\n:area: q%sq\n:END:\nCLOCK: [2024-02-27 Tue 09:10]--[2024-02-27 Tue 10:40]\n' "$of" "$of"
        printf '* K%s k%sk :v%sv:\n- State "K%s" from "TODO" [2024-02-28 Wed 09:00]\n' "$of" "$of" "$of" "$of"
    } > "$number.org"
    printf '* TODO named\n' > "n${of}n.org"
    : > "$room/plain"
    : > "$room/colored"
    : > "$room/said"
    for form in --json --csv --color=always "-n --color=always" "--format {file}{category}{title}{tags}{keyword}{text}" "--json --properties area"; do
        case $form in *color*) to=$room/colored ;; *) to=$room/plain ;; esac
        for view in "agenda" "agenda --grid" "calendar" "calendar week --columns=120" "todo" "todo K$of" "match LEVEL>0" "clock" "clocks" "log" "next" "keywords" "tags"; do
            case "$form $view" in --format*keywords | --format*tags | *properties*keywords | *properties*tags) continue ;; esac
            # shellcheck disable=SC2086
            "$orgq" --at "2024-02-28 10:30" $form --inherit area -f "$number.org" -f "n${of}n.org" ${view%% *} ${view#"${view%% *}"} >> "$to" 2>> "$room/said"
            [ $? -eq "$left" ] || fail "character $number, $form $view: $(tail -n 1 "$room/said")"
            # (all answers of a form are looked at in one go, so a line behind each says whose it is)
            printf '\n-- %s\n' "$form ${view%% *}" >> "$to"
            printf '\n-- %s\n' "$form ${view%% *}" >> "$room/said"
        done
    done
    is_clean "$room/plain" "" || fail "character $number stands in $(unclean "$room/plain" "")"
    is_clean "$room/colored" colors || fail "character $number stands in $(unclean "$room/colored" colors)"
    is_clean "$room/said" "" || fail "character $number stands in what is said by $(unclean "$room/said" "")"
    "$orgq" --at "2024-02-28 10:30" -f "$number.org" -f "n${of}n.org" ical > "$room/out" 2> "$room/err"
    [ $? -eq "$left" ] && [ -s "$room/out" ] || fail "character $number, ical: $(cat "$room/err")"
    LC_ALL=C sed 's/\r$//' "$room/out" > "$room/lines"
    is_clean "$room/lines" "" "$marks" || fail "character $number stands in ical"
    "$orgq" --at "2024-02-28 10:30" -f "$number.org" -f "n${of}n.org" page > "$room/out" 2> "$room/err"
    [ $? -eq "$left" ] && [ -s "$room/out" ] || fail "character $number, page: $(cat "$room/err")"
    tr -d '\t' < "$room/out" > "$room/lines"
    is_clean "$room/lines" "" || fail "character $number stands in a page"
    printf '* K%s k :v%s:\n\nDEADLINE: <2024-02-30%s>\n=<2024-02-31 %s>=\n' "$of" "$of" "$of" "$of" > "found$number.org"
    for form in "" --json --color=always; do
        # shellcheck disable=SC2086
        "$orgq" --at "2024-02-28 10:30" $form check --all "$number.org" "found$number.org" "n${of}n.org" > "$room/out" 2> "$room/err"
        [ $? -eq "$found" ] && [ -s "$room/out" ] || fail "character $number, check $form: $(cat "$room/err")"
        is_clean "$room/out" "" || fail "character $number stands in what check $form finds"
        is_clean "$room/err" "" || fail "character $number stands in what check $form says"
    done
    : > "$room/said"
    for words in "match -- a${of}(" "clock x${of}" "agenda x${of}" "agenda --tag x${of}" "agenda --match x${of}(" "next --since x${of}" "clock --from x${of}" "--color x${of}" "--at x${of}" "-d x${of}" "x${of}" "--x${of}" "--profile x${of}" "clock --step x${of}" "check --only x${of}" "check --severity x${of}"; do
        # shellcheck disable=SC2086
        (IFS=' '; "$orgq" --at "2024-02-28 10:30" -f 1.org $words) > "$room/out" 2> "$room/err"
        [ $? -eq 2 ] && [ -s "$room/err" ] || fail "character $number in the arguments $words"
        cat "$room/err" >> "$room/said"
        printf '\n-- %s\n' "${words%"$of"*}" >> "$room/said"
    done
    is_clean "$room/said" "" || fail "character $number stands in what is said of the arguments $(unclean "$room/said" "")"
done
[ "$count" -eq 75 ] && passed=$((passed + 1)) || fail "$count control characters and marks, not 75"
echo "orgq: $count control characters and marks in categories, titles, tags, keywords, properties, names and arguments"

# A day in sections on a terminal has none of them: each in the category, in a title of its own and in the one above.
if has script; then
    {
        printf '#+CATEGORY: c'
        for number in $numbers; do character "$number"; done
        printf '\n'
        for number in $numbers; do
            of=$(character "$number"; echo .)
            of=${of%.}
            printf '* up%sper\n** TODO a%sb\nSCHEDULED: <2024-02-28 Wed> DEADLINE: <2024-02-29 Thu>\n' "$of" "$of"
        done
    } > sections.org
    for look in "--color never" "--color always --background dark" "--color always --columns 60" "--color never --columns 132 --ascii"; do
        # shellcheck disable=SC2086
        on_terminal --at "2024-02-28 10:30" $look -f sections.org > "$room/out"
        [ $? -eq 0 ] && grep -q "Planned today.* 75" "$room/out" || fail "a day of control characters and marks, $look: $(head -n 3 "$room/out")"
        case $look in *always*) is_clean "$room/out" colors ;; *) is_clean "$room/out" "" ;; esac && passed=$((passed + 1)) ||
            fail "a control character or a mark stands in a day in sections, $look"
    done
else
    lack "a day in sections" script
fi
cd "$here/orgq/files" || exit 2

# Each growth of memory of a call refused once: the answer is given all the same, or nothing of it with status 4: WORD..
refuse_memory() {
    growth=1
    refused=0
    met=1
    "$orgq" --at "2024-02-28 10:30" "$@" > "$room/wanted"
    answered=$?
    while [ "$met" -gt 0 ] && [ "$growth" -lt 20000 ]; do
        : > "$room/counts"
        REFUSE=$growth FAULTS=$room/counts LD_PRELOAD=$shim "$orgq" --at "2024-02-28 10:30" "$@" > "$room/out" 2> "$room/err"
        status=$?
        met=0
        [ ! -s "$room/counts" ] || read -r growths met rest < "$room/counts"
        if [ "$status" -eq 4 ] && [ ! -s "$room/out" ] && [ -s "$room/err" ]; then
            refused=$((refused + 1))
        elif [ "$status" -ne "$answered" ] || ! cmp -s "$room/out" "$room/wanted"; then
            fail "growth $growth refused, $*: status $status: $(cat "$room/err")"
        fi
        growth=$((growth + 1))
    done
    [ "$refused" -gt 0 ] && [ "$met" -eq 0 ] && passed=$((passed + 1)) || fail "not each growth of memory was refused, $*"
    echo "orgq: $refused refused growths of memory with status 4, $*"
}

# The same of an act on a file: it is done and said as with ample memory, or the file is as it was, with status 4: WORD..
refuse_act() {
    growth=1
    refused=0
    met=1
    folder=$room/acts
    mkdir -p "$folder"
    printf '* TODO One\nSCHEDULED: <2024-02-28 Wed +1w>\n:LOGBOOK:\nCLOCK: [2024-02-28 Wed 09:45]\n:END:\n* TODO Two\n' > "$folder/old.org"
    cp "$folder/old.org" "$folder/a.org"
    "$orgq" --at "2024-02-28 10:30" -f "$folder/a.org" "$@" > "$room/wanted"
    answered=$?
    cp "$folder/a.org" "$folder/new.org"
    while [ "$met" -gt 0 ] && [ "$growth" -lt 20000 ]; do
        : > "$room/counts"
        cp "$folder/old.org" "$folder/a.org"
        REFUSE=$growth FAULTS=$room/counts LD_PRELOAD=$shim "$orgq" --at "2024-02-28 10:30" -f "$folder/a.org" "$@" > "$room/out" 2> "$room/err"
        status=$?
        met=0
        [ ! -s "$room/counts" ] || read -r growths met rest < "$room/counts"
        if [ "$status" -eq 4 ] && [ ! -s "$room/out" ] && [ -s "$room/err" ] && cmp -s "$folder/a.org" "$folder/old.org"; then
            refused=$((refused + 1))
        elif [ "$status" -ne "$answered" ] || ! cmp -s "$room/out" "$room/wanted" || ! cmp -s "$folder/a.org" "$folder/new.org"; then
            fail "growth $growth refused, $*: status $status: $(cat "$room/err")"
        fi
        growth=$((growth + 1))
    done
    [ "$refused" -gt 0 ] && ! cmp -s "$folder/new.org" "$folder/old.org" && passed=$((passed + 1)) || fail "no growth of memory was refused, $*"
    echo "orgq: $refused refused growths of memory with status 4 and the file as it was, $*"
}

if ! shim=$(sh "$here/faults/build.sh" "$room" 2> "$room/err"); then
    lack "each refused growth of memory" "shim of tests/faults: $(tail -n 1 "$room/err")"
else
    refuse_act done "$room/acts/a.org:1"
    refuse_act done "$room/acts/a.org:1" "$room/acts/a.org:6"
    refuse_act set --match LEVEL=1 --all DONE
    refuse_act deadline "$room/acts/a.org:1" +3d
    refuse_act add -t TODO --tag x Three
    refuse_act set "$room/acts/a.org:6" DONE
    refuse_act schedule "$room/acts/a.org:6" fri
    refuse_act clock out
    refuse_act clock cancel
    refuse_act clock in --switch "$room/acts/a.org:6"
    refuse_memory -f home.org -f work.org todo
    refuse_memory -f home.org -f work.org calendar week --columns 100
    refuse_memory -f home.org -f work.org agenda --grid
    refuse_memory -f home.org -f work.org ical
    refuse_memory -f home.org -f work.org page
    refuse_memory --keywords "TODO | DONE" check --all ../../check/kinds.org ../../check/other.org
    refuse_memory --keywords "TODO | DONE" check --all ../../check/near.org
fi

# Reminders: a category that looks like an option, a notifier that reads what it is given, one that fails, and refusals.
mkdir "$room/bin"
ln -s "$orgq" "$room/bin/orgq"
cat > "$room/bin/notifier" <<'END'
#!/bin/sh
cat > /dev/null
printf '%s|%s|%s\n' "$#" "$1" "$2" >> "$TOLD"
[ "$2" != "2024-02-28 fails" ]
END
chmod +x "$room/bin/notifier"
printf '#+CATEGORY: --icon=x\n* a <2024-02-28 Wed 10:35>\n* b <2024-02-28 Wed 10:36>\n' > "$room/soon.org"
printf '#+CATEGORY: fails\n* c <2024-02-28 Wed 10:37>\n' > "$room/fails.org"
notify() {
    : > "$room/told"
    PATH=$room/bin:$PATH XDG_STATE_HOME=$room/state ORGQ_NOTIFY=notifier TOLD=$room/told sh "$here/../contrib/orgq-notify" "$@" > "$room/out" 2> "$room/err"
}
notify 10 --at "2024-02-28 10:30" -f "$room/soon.org"
[ $? -eq 0 ] && [ "$(cat "$room/told")" = "2|10:35 a|2024-02-28 --icon=x
2|10:36 b|2024-02-28 --icon=x" ] && passed=$((passed + 1)) || fail "orgq-notify: $(cat "$room/told" "$room/err")"
notify 10 --at "2024-02-28 10:30" -f "$room/soon.org"
[ $? -eq 0 ] && [ ! -s "$room/told" ] && passed=$((passed + 1)) || fail "orgq-notify tells again: $(cat "$room/told")"
notify 10 --at "2024-02-28 10:20" -f "$room/soon.org"
[ $? -eq 0 ] && [ ! -s "$room/told" ] && passed=$((passed + 1)) || fail "orgq-notify by a clock that went back: $(cat "$room/told")"
notify 10 --at "2024-02-28 10:40" -f "$room/soon.org"
[ $? -eq 0 ] && [ ! -s "$room/told" ] && passed=$((passed + 1)) || fail "orgq-notify where nothing begins"
notify 5 --at "2024-02-28 10:30" -f "$room/soon.org"
notify 5 --at "2024-02-28 10:31" -f "$room/soon.org"
[ "$(cat "$room/told")" = "2|10:36 b|2024-02-28 --icon=x" ] && passed=$((passed + 1)) || fail "orgq-notify a minute later: $(cat "$room/told")"
for state in "$room"/state/orgq/told-*; do touch -d "2 days ago" "$state"; done
notify 5 --at "2024-02-28 10:32" -f "$room/soon.org"
[ "$(wc -l < "$room/told")" -eq 2 ] && passed=$((passed + 1)) || fail "orgq-notify with an old state: $(cat "$room/told")"
for state in "$room"/state/orgq/told-*; do echo nonsense > "$state"; done
notify 5 --at "2024-02-28 10:32" -f "$room/soon.org"
[ "$(wc -l < "$room/told")" -eq 2 ] && passed=$((passed + 1)) || fail "orgq-notify with a state that is none: $(cat "$room/told")"
notify 10 --at nonsense -f "$room/soon.org"
[ $? -eq 2 ] && [ ! -s "$room/told" ] && passed=$((passed + 1)) || fail "orgq-notify with a bad moment"
touch "$room/plain"
XDG_STATE_HOME=$room/plain
export XDG_STATE_HOME
: > "$room/told"
PATH=$room/bin:$PATH ORGQ_NOTIFY=notifier TOLD=$room/told sh "$here/../contrib/orgq-notify" 10 --at "2024-02-28 10:30" -f "$room/soon.org" > "$room/out" 2> "$room/err"
[ $? -eq 4 ] && [ "$(wc -l < "$room/told")" -eq 2 ] && passed=$((passed + 1)) || fail "orgq-notify without a place for its state"
unset XDG_STATE_HOME
notify 10 --at "2024-02-28 10:30" -f "$room/soon.org" -f nowhere.org
[ $? -eq 3 ] && [ "$(wc -l < "$room/told")" -eq 2 ] && passed=$((passed + 1)) || fail "orgq-notify where a file is left out"
notify 10 --at "2024-02-28 10:30" -f "$room/fails.org" -f "$room/soon.org"
[ $? -eq 1 ] && [ "$(wc -l < "$room/told")" -eq 3 ] && passed=$((passed + 1)) || fail "orgq-notify where a notifier fails"
# Where none could be told they are tried again.
notify 9 --at "2024-02-28 10:30" -f "$room/fails.org"
notify 9 --at "2024-02-28 10:31" -f "$room/fails.org"
[ $? -eq 1 ] && [ "$(wc -l < "$room/told")" -eq 1 ] && passed=$((passed + 1)) || fail "orgq-notify where all notices failed"
# Text without stamps and links; in the body what a server could take for markup, or notify-send for a character, is an entity.
printf '#+CATEGORY: R&D <b>\\074i\n* [[https://e.x/?a&b][A <link>]] & [[file:b.org]] [2024-02-27 Tue] <2024-02-28 Wed 10:35-11:00>\n' > "$room/marks.org"
notify 10 --at "2024-02-28 10:30" -f "$room/marks.org"
[ "$(cat "$room/told")" = '2|10:35-11:00 A <link> & file:b.org [2024-02-27 Tue]|2024-02-28 R&amp;D &lt;b&gt;&#92;074i' ] && passed=$((passed + 1)) ||
    fail "orgq-notify with marks: $(cat "$room/told")"
# A pipe without a writer among the files, by an argument, bare, or by the environment: it is left out in time, the others are told.
if mkfifo "$room/pipe" 2> /dev/null && command -v timeout > /dev/null 2>&1; then
    ORGQ_NOTIFY_SECONDS=1
    export ORGQ_NOTIFY_SECONDS
    waits() {
        notify "$@"
        status=$?
        [ $status -eq 3 ] && [ "$(wc -l < "$room/told")" -eq 2 ] && grep -q "^orgq-notify: left out, .*: $room/pipe$" "$room/err" && passed=$((passed + 1)) ||
            fail "orgq-notify with a pipe, $*: $status $(cat "$room/told" "$room/err")"
    }
    waits 10 --at "2024-02-28 10:30" -f "$room/pipe" -f "$room/soon.org"
    waits 10 --at "2024-02-28 10:30" --file="$room/soon.org" --file "$room/pipe"
    waits 10 "$room/pipe" "$room/soon.org" --at "2024-02-28 10:30"
    ORGQ_FILES=$room/soon.org:$room/pipe
    export ORGQ_FILES
    waits 10 --at "2024-02-28 10:30"
    unset ORGQ_FILES
    notify 10 --at "2024-02-28 10:30" -f "$room/pipe"
    [ $? -eq 3 ] && [ ! -s "$room/told" ] && passed=$((passed + 1)) || fail "orgq-notify of a pipe alone"
    # A notifier that doesn't end keeps no other entry.
    printf '#!/bin/sh\nprintf "%%s\\n" "$1" >> "$TOLD"\ncase $1 in *" a") exec sleep 30 ;; esac\n' > "$room/bin/notifier"
    notify 8 --at "2024-02-28 10:30" -f "$room/soon.org"
    [ $? -eq 124 ] && [ "$(wc -l < "$room/told")" -eq 2 ] && passed=$((passed + 1)) || fail "orgq-notify with a notifier that waits"
    unset ORGQ_NOTIFY_SECONDS
    [ -z "$(ls -d "$room"/state/orgq/asked-* 2> /dev/null)" ] && passed=$((passed + 1)) || fail "orgq-notify leaves folders"
else
    lack "reminders over a pipe" "mkfifo and timeout"
fi

# What bash completes: names with spaces, folders, and no command of a word that is an option's value.
if ! has bash; then
    lack "what bash completes" bash
else
    completed() {
        PATH=$room/bin:$PATH bash -c '. "$0"; shift; COMP_WORDS=("$@") COMP_CWORD=$(($# - 1)) COMP_LINE="$*"; COMP_POINT=${#COMP_LINE}
            _orgq orgq "${@: -1}"; printf "%s\n" "${COMPREPLY[@]}"' \
            "$here/../contrib/completions/orgq.bash" "" "$@"
    }
    [ "$(completed orgq -f my)" = "my\\ notes.org" ] && passed=$((passed + 1)) || fail "bash completes a name with a space: $(completed orgq -f my)"
    [ "$(completed orgq my)" = "my\\ notes.org" ] && passed=$((passed + 1)) || fail "bash completes a bare name: $(completed orgq my)"
    [ "$(completed orgq keyw)" = "keywords" ] && passed=$((passed + 1)) || fail "bash completes a folder: $(completed orgq keyw)"
    kind=$(completed orgq check --only no-such-date,stray-pl)
    [ "$kind" = "no-such-date,stray-planning" ] && passed=$((passed + 1)) || fail "bash completes a list of kinds: $kind"
    [ "$(completed orgq --keywords todo ag)" = "agenda" ] && passed=$((passed + 1)) || fail "bash takes an option's value for a command: $(completed orgq --keywords todo ag)"
    # Each option of --help is offered behind its command; tests/completions.sh asks all three shells for everything.
    for command in "" $("$orgq" --help | awk '/^Commands:/ { on = 1; next } /^$/ { on = 0 } on && $1 != "help" { print $1 }'); do
        completed orgq $command - > "$room/offered"
        for option in $("$orgq" $command --help | sed -n 's/^ *\(-[a-zA-Z], \)*\(--[a-z-]*\).*/\2/p'); do
            grep -q -x -e "$option" "$room/offered" && passed=$((passed + 1)) || fail "bash doesn't offer $option behind orgq $command"
        done
    done
fi

# The man page says at its head which commands change a file: those that `--dry-run` is an option of.
sed -n '/^\.SH DESCRIPTION/,/^\.SH /p' "$here/../docs/orgq.1" | tr -d '\\' | tr -s '\n" ,' '    ' > "$room/description"
acts=0
for command in $("$orgq" --help | awk '/^Commands:/ { on = 1; next } /^$/ { on = 0 } on && $1 != "help" { print $1 }') "clock in" "clock out" "clock cancel"; do
    # shellcheck disable=SC2086
    "$orgq" $command --help 2> /dev/null | grep -q -e --dry-run || continue
    acts=$((acts + 1))
    grep -q -w -e "$command" "$room/description" && passed=$((passed + 1)) || fail "the man page doesn't say that $command changes a file"
done
[ "$acts" -ge 8 ] && passed=$((passed + 1)) || fail "only $acts commands have --dry-run"

# What is said of the version: that of VERSION.
said=$("$orgq" --version 2> "$room/err")
[ $? -eq 0 ] && [ "$(printf '%s\n' "$said" | head -n 1)" = "orgq $(cat "$here/../VERSION")" ] && [ ! -s "$room/err" ] && passed=$((passed + 1)) || fail "orgq --version: $said $(cat "$room/err")"
said=$("$orgviews" --version 2>&1 > "$room/out")
[ $? -eq 2 ] && [ "$(printf '%s\n' "$said" | head -n 1)" = "orgviews $(cat "$here/../VERSION")" ] && [ ! -s "$room/out" ] && passed=$((passed + 1)) || fail "orgviews --version: $said"

echo "orgq: $passed passed$left_out, $failed failed"
[ "$failed" -eq 0 ] && [ "$passed" -gt 0 ]
