#!/bin/sh
# Asks Org's log mode (`org-batch-agenda-csv` with closed, clock and state entries, in Emacs) and `orgq --csv log` for the same days
# of made files, at the same moment, and compares them row by row and in their order. Where Emacs or python3 isn't there all is left
# out, and the status is 0. The last line counts.
#     tests/log.sh ORGQ
here=$(cd "$(dirname "$0")" && pwd)
emacs=${EMACS:-emacs}
for needed in "$emacs" python3; do
    if ! command -v "$needed" > /dev/null 2>&1; then
        echo "log: left out, $needed is not installed (on Debian: apt-get install emacs-nox python3)"
        exit 0
    fi
done
if [ ! -x "$1" ]; then
    echo "log: there is no program $1"
    echo "log: 0 passed, 1 failed"
    exit 1
fi
orgq=$(cd "$(dirname "$1")" && pwd)/$(basename "$1")
work=$(mktemp -d) || exit 2
trap 'rm -rf "$work"' EXIT
unset ORGQ_FILES NO_COLOR TZ TZDIR
HOME=$work/home XDG_CONFIG_HOME=$work/home/config LC_ALL=C.UTF-8
export HOME XDG_CONFIG_HOME LC_ALL
mkdir -p "$HOME"
cd "$work" || exit 2
python3 "$here/log/made.py" . 250 || exit 2
if ! "$emacs" -Q --batch -l "$here/log/log.el" 2024-02-28 10:30 2024-02-19 23 made0.org made1.org made2.org < /dev/null > emacs.csv 2> said; then
    tail -5 said
    echo "log: Emacs ended with an error"
    echo "log: 0 passed, 1 failed"
    exit 1
fi
"$orgq" --at "2024-02-28 10:30" -f made0.org -f made1.org -f made2.org --csv log --from 2024-02-19 --to 2024-03-12 > orgq.csv || exit 2
python3 "$here/log/compare.py" emacs.csv orgq.csv
