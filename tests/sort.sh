#!/bin/sh
# Asks Org's own list of open entries, in Emacs, and `orgq todo --sort` for the same order of the three files of tests/agenda-csv,
# key by key, upward and downward, and compares them (tests/sort/compare.py). Where Emacs or python3 isn't there all is left out,
# and the status is 0. The last line counts.
#     tests/sort.sh ORGQ
here=$(cd "$(dirname "$0")" && pwd)
emacs=${EMACS:-emacs}
for needed in "$emacs" python3; do
    if ! command -v "$needed" > /dev/null 2>&1; then
        echo "sort: left out, $needed is not installed (on Debian: apt-get install emacs-nox python3)"
        exit 0
    fi
done
if [ ! -x "$1" ]; then
    echo "sort: there is no program $1"
    echo "sort: 0 passed, 1 failed"
    exit 1
fi
orgq=$(cd "$(dirname "$1")" && pwd)/$(basename "$1")
work=$(mktemp -d) || exit 2
trap 'rm -rf "$work"' EXIT
unset ORGQ_FILES NO_COLOR TZ TZDIR
HOME=$work/home XDG_CONFIG_HOME=$work/home/config LC_ALL=C.UTF-8
export HOME XDG_CONFIG_HOME LC_ALL
mkdir -p "$HOME"
cp "$here"/agenda-csv/*.org "$work" && cd "$work" || exit 2
# Emacs takes no category of such a line; that is a row of docs/org.md.
sed -i '/^#+PROPERTY: CATEGORY/d' club.org
for given in 'home.org:[#C] :1:30' 'work.org::0:05' 'club.org:[#B] :10:00' 'home.org::0:30'; do
    rest=${given#*:}
    effort=${rest#*:}
    printf '* TODO %sEffort of %s\n:PROPERTIES:\n:Effort: %s\n:END:\n' "${rest%%:*}" "$effort" "$effort" >> "${given%%:*}"
done
pairs='
deadline deadline-up
-deadline deadline-down
scheduled scheduled-up
-scheduled scheduled-down
priority priority-down
-priority priority-up
effort effort-up
-effort effort-down
keyword todo-state-up
-keyword todo-state-down
title alpha-up
-title alpha-down
category category-up
-category category-down
'
# The strategies are one word each.
if ! "$emacs" -Q --batch -l "$here/sort/todo.el" home.org work.org club.org -- $(printf '%s' "$pairs" | sed '/^$/d; s/.* //') \
    < /dev/null > emacs.txt 2> said; then
    tail -5 said
    echo "sort: Emacs ended with an error"
    echo "sort: 0 passed, 1 failed"
    exit 1
fi
ask() { "$orgq" --at "2024-02-28 10:30" -f home.org -f work.org -f club.org --json todo "$@" || exit 2; }
{
    printf '%s' "$pairs" | sed '/^$/d' | while read -r key strategy; do
        echo "== $key $strategy"
        ask "--sort=$key"
    done
} > orgq.txt
python3 "$here/sort/compare.py" emacs.txt orgq.txt
