#!/bin/sh
# Asks Org itself (`org-habit-build-graph`, in Emacs) and `orgq habits` for the graphs of habits that tests/habits/make.py makes by
# chance, the same each time, and compares them day by day. Where Emacs or python3 isn't there all is left out, and the status is 0. The
# last line counts.
#     tests/habits.sh ORGQ
here=$(cd "$(dirname "$0")" && pwd)
emacs=${EMACS:-emacs}
day=2024-02-28
for needed in "$emacs" python3; do
    if ! command -v "$needed" > /dev/null 2>&1; then
        echo "habits: left out, $needed is not installed (on Debian: apt-get install emacs-nox python3)"
        exit 0
    fi
done
if [ ! -x "$1" ]; then
    echo "habits: there is no program $1"
    echo "habits: 0 passed, 1 failed"
    exit 1
fi
orgq=$(cd "$(dirname "$1")" && pwd)/$(basename "$1")
work=$(mktemp -d) || exit 2
trap 'rm -rf "$work"' EXIT
unset ORGQ_FILES NO_COLOR TZ TZDIR
HOME=$work/home XDG_CONFIG_HOME=$work/home/config LC_ALL=C.UTF-8
export HOME XDG_CONFIG_HOME LC_ALL
mkdir -p "$HOME" && python3 "$here/habits/make.py" "$work/habits.org" && cd "$work" || exit 2
if ! "$emacs" -Q --batch -l "$here/habits/habits.el" "$day" habits.org < /dev/null > emacs.graphs 2> said; then
    tail -5 said
    echo "habits: Emacs ended with an error"
    echo "habits: 0 passed, 1 failed"
    exit 1
fi
python3 "$here/habits/compare.py" emacs.graphs "$orgq" "$day" habits.org
