#!/bin/sh
# Runs the completions of bash, zsh and fish, each in its shell, and compares what they offer with what the program takes: behind
# a minus the options that `--help` of the same command lists, and no others; as words its commands, days, keywords or tags;
# behind an option the values that its line of `--help` names; and files where its arguments or its options take one, and nowhere
# else. Each day that is offered has to be taken by the program. What is missing and what is too much fails. Then lines are typed
# into each shell on a terminal, over files whose keywords, tags and names are made to be run, expanded or written raw: nothing of
# them is, and the word on the line is the one that is meant. What `orgq shell` prints hands a width on. The man page has a section for each command, with each of its
# options. A shell that isn't installed is left out. The last line counts, and names such shells.
#     tests/completions.sh ORGQ [SHELL..]
here=$(cd "$(dirname "$0")" && pwd)
completions=$(cd "$here/../contrib/completions" && pwd)
if [ ! -x "$1" ]; then
    echo "completions: there is no program $1"
    echo "completions: 0 passed, 1 failed"
    exit 1
fi
work=$(mktemp -d) || exit 2
trap 'rm -rf "$work"' EXIT
mkdir "$work/bin" "$work/folder" "$work/home"
ln -s "$(cd "$(dirname "$1")" && pwd)/$(basename "$1")" "$work/bin/orgq"
printf '%s\n' '#+TODO: TODO NEXT | DONE' '* NEXT a :errand:' '* TODO b :home:' > "$work/words.org"
mkdir -p "$work/home/config/orgq"
printf '%s\n' '[morning]' 'about = what $(today) asks' 'show = todo' '[calls]' 'show = match phone' > "$work/home/config/orgq/views"
unset NO_COLOR TZ TZDIR
PATH=$work/bin:$PATH HOME=$work/home XDG_CONFIG_HOME=$work/home/config XDG_DATA_HOME=$work/home/data ORGQ_FILES=$work/words.org LC_ALL=C
export PATH HOME XDG_CONFIG_HOME XDG_DATA_HOME ORGQ_FILES LC_ALL
shift
shells=$*
left_out=""
passed=0
failed=0
tab=$(printf '\t')

# The options and the commands that the help of a command lists, and the values that it names behind an option.
options_of() { orgq $1 --help 2> /dev/null | sed -n 's/^ *\(-[a-zA-Z]\), \(--[a-z-]*\).*/\1 \2/p; s/^ *\(--[a-z-]*\).*/\1/p' | tr '\n' ' '; }
commands_of() { orgq $1 --help 2> /dev/null | awk '/^Commands:/ { on = 1; next } /^$/ { on = 0 } on && /^  [a-z]/ { print $1 }' | tr '\n' ' '; }
values_of() {
    orgq $1 --help 2> /dev/null | sed -n "s/^ .*$2 <[^>]*> *//p" | sed -n 's/.*: \(.* or [a-z]*\)$/\1/p; s/.*, \([0-9]* or [0-9]*\)$/\1/p' | sed 's/,//g; s/ or / /'
}

days="today tomorrow yesterday mon tue wed thu fri sat sun thisweek lastweek nextweek thismonth lastmonth nextmonth thisyear lastyear nextyear"

# A line, and what has to be offered at its end; the same in a folder that has a file.
ask() { printf '%s\t%s\n' "$1" "$2" >> "$work/asked"; }
ask_file() { printf '%s\t%s\n' "$1" "$2" >> "$work/asked-files"; }

# The words that may stand behind a command: commands below it, else what the program takes there.
words_of() {
    below=$(commands_of "$1")
    case $1 in
        # What can be helped with: the commands beside it.
        help | *" help") below=$(commands_of "${1%help}") ;;
        agenda | clock | clocks | log | *" agenda" | *" clock" | *" clocks" | *" log") below="$below $days" ;;
        calendar | *" calendar") below="$below month week year $(taken_by "$1")" ;;
        shell) below="$below bash fish zsh" ;;
        view) below="$below $(orgq views | sed 's/ .*//' | tr '\n' ' ')" ;;
        todo | *" todo") below="$below $(orgq keywords | tr '\n' ' ')" ;;
        # Where a heading is named, the short ids of those that are open.
        done | set | schedule | deadline | tag | priority | property | note | "clock in") below="$below $(orgq todo --format '{id}' | tr '\n' ' ')" ;;
    esac
    echo "$below"
}

# Of the words for days those that a command takes. What is followed takes the same as once.
taken_by() {
    for day in $days; do
        orgq --at "2024-02-28 10:30" ${1#follow } "$day" > /dev/null 2>&1
        [ $? -eq 2 ] || printf '%s ' "$day"
    done
}

# The second words of commands that change a file: keywords, or days, of which no block is one.
ask_second() {
    case $1 in
        done | set) ask "orgq $1 words.org:2 " "$(orgq keywords | tr '\n' ' ')" ;;
        schedule | deadline) ask "orgq $1 words.org:2 " "${days%% thisweek*} none" ;;
    esac
}

# The file where the first argument of a command may be one or its place, and behind its options that take one.
ask_files_of() {
    case $(orgq $1 --help 2> /dev/null | sed -n '/^Arguments:/{ n; p; q; }') in
        *"[PLACE]"* | *"[MORE]"* | *"[FILE]"* | *"[PATH]"*) ask_file "orgq ${1:+$1 }zz" zz.org ;;
        *) ask_file "orgq ${1:+$1 }zz" "" ;;
    esac
    for option in $(options_of "$1"); do
        case $option in -f | --file | -o | --output | --under) ask_file "orgq ${1:+$1 }$option zz" zz.org ;; esac
    done
}

# What stands behind a command on its line, and behind each of its own options with a value that can be known.
of_all=
ask_all_of() {
    ask "orgq ${1:+$1 }" "$(words_of "$1")"
    case $1 in help | *" help") return ;; esac
    ask_files_of "$1"
    options=$(options_of "$1")
    ask "orgq ${1:+$1 }-" "$options"
    for option in $options; do
        case " $of_all " in *" $option "*) continue ;; esac
        case $option in
            --color | --profile | --step | --severity | --group-by | --log-done | --log-repeat) ask "orgq ${1:+$1 }$option " "$(values_of "$1" "$option")" ;;
            --from | --to) ask "orgq ${1:+$1 }$option " "$days" ;;
            --tag) ask "orgq ${1:+$1 }$option " "$(orgq tags | tr '\n' ' ')" ;;
            -t | --todo | --keyword) ask "orgq ${1:+$1 }$option " "$(orgq keywords | tr '\n' ' ')" ;;
            --only | --not) ask "orgq ${1:+$1 }$option " "$(orgq check --only '?' 2>&1 | sed 's/.*there are //; s/,//g')" ;;
            --at | --days | --limit | --match | --sort) ask "orgq ${1:+$1 }$option " "" ;;
        esac
    done
}

: > "$work/asked"
: > "$work/asked-files"
ask_all_of ""
of_all=$(options_of "")
for command in $(commands_of ""); do
    ask_all_of "$command"
    ask_second "$command"
    for below in $(commands_of "$command"); do
        [ "$command" = help ] || ask_all_of "$command $below"
    done
done
cut -f1 "$work/asked" > "$work/lines"
cut -f1 "$work/asked-files" > "$work/lines-files"
count=$(cat "$work/lines" "$work/lines-files" | wc -l)
for day in $days; do
    orgq --at "2024-02-28 10:30" agenda "$day" > /dev/null 2>&1
    [ $? -ne 2 ] && passed=$((passed + 1)) || { failed=$((failed + 1)); echo "completions: orgq agenda $day is refused"; }
done

# Words one a line, each once.
listed() { printf '%s\n' $1 | grep . | sort -u; }

# Compares what a shell offers, line by line, with what is listed: in the empty folder, or with `-files` in the one with a file.
compare() {
    number=0
    while IFS=$tab read -r line wanted; do
        number=$((number + 1))
        listed "$wanted" > "$work/wanted"
        awk -F'\t' -v number="$number" '$1 == number { sub(/ +$/, "", $2); print $2 }' "$work/$1$2" | grep . | sort -u > "$work/offered"
        # Where no word is wanted zsh offers options at once; they are compared behind a minus.
        [ -n "$wanted" ] || { grep -v '^-' "$work/offered" > "$work/words"; mv "$work/words" "$work/offered"; }
        missing=$(comm -23 "$work/wanted" "$work/offered" | tr '\n' ' ')
        extra=$(comm -13 "$work/wanted" "$work/offered" | tr '\n' ' ')
        if [ -z "$missing$extra" ]; then
            passed=$((passed + 1))
        else
            failed=$((failed + 1))
            echo "completions: $1 at '$line':${missing:+ lacks $missing}${extra:+ has too much $extra}"
        fi
    done < "$work/asked$2"
}

# Asks a shell for all lines, in this folder.
ask_shell() {
    case $1 in
        bash) bash "$here/completions/ask.bash" "$here/../contrib/completions/orgq.bash" "$work/lines$2" ;;
        zsh)
            mkdir "$work/inner$2" &&
                zsh -f "$here/completions/ask.zsh" "$here/../contrib/completions/_orgq" "$work/lines$2" "$work/inner$2"
            ;;
        fish) fish --no-config "$here/completions/ask.fish" "$here/../contrib/completions/orgq.fish" "$work/lines$2" ;;
    esac > "$work/$1$2"
}

# Types lines into a shell, and counts what typed.py says of them.
type_into() {
    case $1 in zsh) completion=_orgq ;; *) completion=orgq.$1 ;; esac
    mkdir "$work/typed-$1"
    timeout 600 python3 "$here/completions/typed.py" "$1" "$completions/$completion" "$work/bin/orgq" "$work/typed-$1" > "$work/said"
    counts=$(sed -n 's/^\([0-9]*\) passed, \([0-9]*\) failed$/\1 \2/p' "$work/said")
    sed -n '/ passed, [0-9]* failed$/!s/^/completions: /p' "$work/said"
    [ -n "$counts" ] || { echo "completions: typing into $1 didn't end (it wants python3)"; counts="0 1"; }
    passed=$((passed + ${counts% *}))
    failed=$((failed + ${counts#* }))
}

# What `orgq shell` prints hands the width of its shell on: a month is so wide, and nothing else is said.
hand_on() {
    case $1 in
        bash) bash --norc -c 'eval "$(orgq shell bash)"; COLUMNS=66; orgq calendar --ascii' ;;
        zsh) zsh -f -c 'eval "$(orgq shell zsh)"; COLUMNS=66; orgq calendar --ascii' ;;
        fish) fish --no-config -c 'orgq shell fish | source; set COLUMNS 66; orgq calendar --ascii' ;;
    esac > "$work/month" 2>&1
    widest=$(awk 'length > widest { widest = length } END { print widest + 0 }' "$work/month")
    [ "$widest" -eq 66 ] && passed=$((passed + 1)) || { failed=$((failed + 1)); echo "completions: a month in $1 is $widest wide, not 66"; }
}

mkdir "$work/folder-files" && : > "$work/folder-files/zz.org"
for shell in ${shells:-bash zsh fish}; do
    if ! command -v "$shell" > /dev/null 2>&1; then
        echo "completions: $shell isn't installed, and is left out"
        left_out="${left_out:+$left_out, }$shell"
        continue
    fi
    for with in "" -files; do
        cd "$work/folder$with" || exit 2
        ask_shell "$shell" "$with" || { failed=$((failed + 1)); echo "completions: $shell can't be asked"; continue; }
        compare "$shell" "$with"
    done
    type_into "$shell"
    hand_on "$shell"
done
echo "completions: $count lines were asked of each shell"

# A section of the man page, from its heading to the next one, without backslashes.
section() { sed -n "/^\.S[SH] \"*$1\"*\$/,/^\.S[SH] /p" "$here/../docs/orgq.1" | sed '1d; s/\\//g'; }

# The man page has a section for each command, which names each option that the command has of its own, or the section that has them.
describe() {
    section "$1" > "$work/section"
    for shared in ROWS ORDER; do
        grep -q "$shared" "$work/section" && section "$shared" >> "$work/section"
    done
    [ -s "$work/section" ] || { failed=$((failed + 1)); echo "completions: the man page has no section $1"; return; }
    for option in $(options_of "$1"); do
        case " $of_every " in *" $option "*) continue ;; esac
        if grep -q -e "$option\\b" "$work/section"; then
            passed=$((passed + 1))
        else
            failed=$((failed + 1))
            echo "completions: the man page's section $1 lacks $option"
        fi
    done
}

# Those of all commands stand in a section of their own.
of_every=$(options_of tags)
for option in $of_every; do
    section OPTIONS | grep -q -e "$option\\b" && passed=$((passed + 1)) || { failed=$((failed + 1)); echo "completions: the man page lacks $option"; }
done
for command in $(commands_of ""); do
    [ "$command" = help ] || describe "$command"
    case $command in follow | help) continue ;; esac
    for below in $(commands_of "$command"); do
        describe "$command $below"
    done
done
echo "completions: $passed passed${left_out:+ (without $left_out)}, $failed failed"
[ "$failed" -eq 0 ] && [ "$passed" -gt 0 ]
