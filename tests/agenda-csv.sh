#!/bin/sh
# Asks Org's own batch agenda (`org-batch-agenda-csv`, in Emacs) and `orgq --csv agenda` for the same days of the three files of
# tests/agenda-csv, at the same moment, and compares them row by row and field by field: each difference has to be of a kind that
# has its row in docs/org.md, and each kind has to be seen. The order of rows within a day isn't compared. Where Emacs or
# python3 isn't there all is left out, and the status is 0. The last line counts.
#     tests/agenda-csv.sh ORGQ
here=$(cd "$(dirname "$0")" && pwd)
emacs=${EMACS:-emacs}
for needed in "$emacs" python3; do
    if ! command -v "$needed" > /dev/null 2>&1; then
        echo "agenda-csv: left out, $needed is not installed (on Debian: apt-get install emacs-nox python3)"
        exit 0
    fi
done
if [ ! -x "$1" ]; then
    echo "agenda-csv: there is no program $1"
    echo "agenda-csv: 0 passed, 1 failed"
    exit 1
fi
orgq=$(cd "$(dirname "$1")" && pwd)/$(basename "$1")
work=$(mktemp -d) || exit 2
trap 'rm -rf "$work"' EXIT
unset ORGQ_FILES NO_COLOR TZ TZDIR
HOME=$work/home XDG_CONFIG_HOME=$work/home/config LC_ALL=C.UTF-8
export HOME XDG_CONFIG_HOME LC_ALL
mkdir -p "$HOME"
cp "$here"/agenda-csv/*.org "$work" && cd "$work" || exit 2
if ! "$emacs" -Q --batch -l "$here/agenda-csv/agenda.el" 2024-02-28 10:30 2024-02-19 24 home.org work.org club.org \
    < /dev/null > emacs.csv 2> said; then
    tail -5 said
    echo "agenda-csv: Emacs ended with an error"
    echo "agenda-csv: 0 passed, 1 failed"
    exit 1
fi
"$orgq" --at "2024-02-28 10:30" -f home.org -f work.org -f club.org --csv agenda 2024-02-19 -d 24 > orgq.csv || exit 2
python3 "$here/agenda-csv/compare.py" emacs.csv orgq.csv 2024-02-28 "$here/../docs/org.md" home.org work.org club.org
