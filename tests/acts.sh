#!/bin/sh
# Does the same acts to the same made files in Emacs and by `orgq`, and compares the files byte for byte: each difference has to
# be of a kind that has its row in docs/org.md. The files are made from a seed, some 3,500 acts to 330 of them with all logging
# of Org off, some 1,900 to 520 more with logging of every kind, as Org itself and the file have it, and 3,500 to parts of
# headings of 500 more: tags, priorities, properties, notes, and keywords that go. Where Emacs or python3 isn't there all is left
# out, which the last line says, and the status is 0. Else the last line counts.
#     tests/acts.sh ORGQ [SEED [COUNT [LOGS [PARTS]]]]
here=$(cd "$(dirname "$0")" && pwd)
emacs=${EMACS:-emacs}
for needed in "$emacs" python3; do
    if ! command -v "$needed" > /dev/null 2>&1; then
        echo "acts: left out, $needed is not installed (on Debian: apt-get install emacs-nox python3)"
        exit 0
    fi
done
if [ ! -x "$1" ]; then
    echo "acts: there is no program $1"
    echo "acts: 0 passed, 1 failed"
    exit 1
fi
orgq=$(cd "$(dirname "$1")" && pwd)/$(basename "$1")
work=$(mktemp -d) || exit 2
trap 'rm -rf "$work"' EXIT
unset ORGQ_FILES NO_COLOR TZ TZDIR XDG_STATE_HOME
HOME=$work/home XDG_CONFIG_HOME=$work/home/config LC_ALL=C.UTF-8
export HOME XDG_CONFIG_HOME LC_ALL
mkdir -p "$HOME" "$work/orgq"
python3 "$here/acts/make.py" "${2:-7}" "${3:-330}" "$work" || exit 2
python3 "$here/acts/logs.py" "${2:-7}" "${4:-520}" "$work" || exit 2
python3 "$here/acts/parts.py" "${2:-7}" "${5:-500}" "$work" || exit 2
if ! "$emacs" -Q --batch -l "$here/acts/acts.el" "$work" < /dev/null > "$work/said" 2>&1; then
    tail -5 "$work/said"
    echo "acts: Emacs ended with an error"
    echo "acts: 0 passed, 1 failed"
    exit 1
fi

# Does an act by `orgq` to a file in the present folder. Those that begin with `log-` log as Org itself does where the file doesn't
# say; the others log nothing.
act() {
    case $3 in
        log-set) "$orgq" --at "2024-02-28 10:30" set "$1:$2" "$4" --note="$(printf '%b' "$5")" ;;
        log-none) "$orgq" --at "2024-02-28 10:30" set "$1:$2" none ;;
        log-note) "$orgq" --at "2024-02-28 10:30" note "$1:$2" "$(printf '%b' "$4")" ;;
        priority | property) "$orgq" --at "2024-02-28 10:30" "$3" "$1:$2" "$4" ;;
        log-*) "$orgq" --at "2024-02-28 10:30" "${3#log-}" "$1:$2" $4 ;;
        in) "$orgq" --at "2024-02-28 10:30" -f "$1" clock in "$1:$2" ;;
        out | cancel) "$orgq" --at "2024-02-28 10:30" -f "$1" clock "$3" ;;
        done) "$orgq" --at "2024-02-28 10:30" --log-repeat no done "$1:$2" DONE ;;
        # A date and a time are two words.
        *) "$orgq" --at "2024-02-28 10:30" "$3" "$1:$2" $4 ;;
    esac
}

# Whether this program has an act.
has() {
    case $1 in
        in | out | cancel) "$orgq" clock --help | grep -q "^  $1 " ;;
        log-none) "$orgq" set --help | grep -q none ;;
        *) "$orgq" --help | grep -q "^  ${1#log-} " ;;
    esac
}

acts=
for name in schedule deadline in out cancel done log-set log-schedule log-deadline tag priority property log-none log-note; do
    if ! has "$name"; then
        echo "acts: this orgq hasn't $name"
        echo "acts: 0 passed, 1 failed"
        exit 1
    fi
    acts="$acts $name "
done
cd "$work/orgq" || exit 2
while IFS="$(printf '\t')" read -r case file line name date note; do
    case $acts in *" $name "*) ;; *) continue ;; esac
    cp "$work/files/$file" "$case.org"
    act "$case.org" "$line" "$name" "$date" "$note" > "$case.said" 2>&1 < /dev/null
    echo $? > "$case.status"
done < "$work/acts"
python3 "$here/acts/compare.py" "$work" "$here/../docs/org.md"
