#!/bin/sh
# Does what README.md says as a stranger would, who has nothing but the kit: clones the last commit of this folder into an empty
# one, with a home that is empty but for two Org files in ~/org, and runs the commands of the page there, one after the other,
# each as it stands. A command is a line of a block of code whose first line begins with `make` or `orgq`, up to two spaces; a
# block of anything else is what the command before it has to print. Says how many minutes each took; the last line counts.
# Commands that prove everything take hours, and are left out, and so are those of `orgq` where nothing built it; the last line
# names them. WHOLE=yes runs all, and installs from the clone first. BUILT=PROGRAM lets that program answer the commands of `orgq`.
cd "$(dirname "$0")/.." || exit 2
from=$PWD
orgq=${BUILT:+$(cd "$(dirname "$BUILT")" && pwd)/$(basename "$BUILT")}
room=$(mktemp -d) || exit 2
trap 'chmod -R u+rwx "$room"; rm -rf "$room"' EXIT
unset ORGQ_FILES NO_COLOR TZ TZDIR XDG_CONFIG_HOME XDG_STATE_HOME XDG_DATA_HOME MAKEFLAGS MAKELEVEL
HOME=$room/home
mkdir -p "$HOME/org" "$HOME/.local/bin" "$room/wanted"
cp tests/orgq/files/home.org tests/orgq/files/work.org "$HOME/org/"
[ -z "$orgq" ] || ln -s "$orgq" "$HOME/.local/bin/orgq"
PATH=$HOME/.local/bin:$PATH
export HOME PATH
passed=0
failed=0
left_out=""

# Prints the commands of a page, and writes what the one of a number has to print into a file of that name: PAGE FOLDER.
commands_of() {
    awk -v to="$2" '
        function flush(    i, first) {
            if (count == 0) return
            split(block[1], first, " ")
            for (i = 1; i <= count; i++) {
                if (first[1] == "make" || first[1] == "orgq") {
                    sub(/  .*/, "", block[i])
                    print block[i]
                    commands++
                } else print block[i] > (to "/" commands)
            }
            count = 0
        }
        /^```/ { fenced = !fenced; next }
        fenced { next }
        /^    / { block[++count] = substr($0, 5); next }
        { flush() }
        END { flush() }
    ' "$1"
}

# Whether the lines of one file stand in another, one behind the other.
has_lines() {
    awk '
        NR == FNR { wanted[++count] = $0; next }
        { said[FNR] = $0; lines = FNR }
        END {
            for (i = 0; i + count <= lines; i++) {
                for (k = 1; k <= count && said[i + k] == wanted[k]; k++);
                if (k > count) exit 0
            }
            exit 1
        }
    ' "$1" "$2"
}

# Runs a command in the clone, and says what it took: COMMAND WANTED.
run() {
    began=$(date +%s)
    (cd "$room/orgviews" && sh -c "$1") > "$room/said" 2> "$room/err" < /dev/null
    status=$?
    took=$(($(date +%s) - began))
    took=$((took / 60)):$(printf %02d $((took % 60)))
    # Where an answer has no row the status of orgq is 1.
    case $1 in orgq*) most=1 ;; *) most=0 ;; esac
    if [ "$status" -gt "$most" ]; then
        failed=$((failed + 1))
        echo "stranger: $took $1: status $status"
        tail -n 5 "$room/said" "$room/err"
    elif [ -f "$2" ] && ! has_lines "$2" "$room/said"; then
        failed=$((failed + 1))
        echo "stranger: $took $1: it doesn't print what README shows"
        diff "$2" "$room/said"
    else
        passed=$((passed + 1))
        echo "stranger: $took $1"
    fi
}

# Whether a command can be run here: by what is there, and in minutes.
can_run() {
    case $1 in
        orgq*) [ -x "$HOME/.local/bin/orgq" ] ;;
        "make try"*) ;;
        *) [ "$WHOLE" = yes ] ;;
    esac
}

if ! git clone -q "$from" "$room/orgviews" 2> "$room/err"; then
    echo "stranger: no clone: $(cat "$room/err")"
    echo "stranger: 0 passed, 1 failed"
    exit 1
fi
commands_of "$room/orgviews/README.md" "$room/wanted" > "$room/commands"
install=$(sed -n '/^    make install /{ s/^    //; p; q; }' "$room/orgviews/docs/building.md")
if [ "$WHOLE" = yes ]; then run "$install" ""; else left_out=$install; fi
number=0
while IFS= read -r command <&3; do
    number=$((number + 1))
    if can_run "$command"; then
        run "$command" "$room/wanted/$number"
    else
        left_out="${left_out:+$left_out; }$command"
    fi
done 3< "$room/commands"
echo "stranger: $passed passed${left_out:+ (left out: $left_out)}, $failed failed"
[ "$failed" -eq 0 ] && [ "$passed" -gt 0 ]
