#!/bin/sh
# Asks Org's own search view (`org-search-view`, in Emacs) and `orgq -n search` for the same words over the four files of
# tests/agenda-csv and tests/search-view, and compares which headings they find. A line of tests/search-view/queries has what
# Emacs is asked, the words of orgq, and nothing where both have to find the same; else the kind of the difference, which has to
# be seen, and its row in docs/using.md. The order of rows isn't compared. Where Emacs or python3 isn't there all is left out,
# and the status is 0. The last line counts.
#     tests/search-view.sh ORGQ
here=$(cd "$(dirname "$0")" && pwd)
emacs=${EMACS:-emacs}
for needed in "$emacs" python3; do
    if ! command -v "$needed" > /dev/null 2>&1; then
        echo "search-view: left out, $needed is not installed (on Debian: apt-get install emacs-nox python3)"
        exit 0
    fi
done
if [ ! -x "$1" ]; then
    echo "search-view: there is no program $1"
    echo "search-view: 0 passed, 1 failed"
    exit 1
fi
orgq=$(cd "$(dirname "$1")" && pwd)/$(basename "$1")
work=$(mktemp -d) || exit 2
trap 'rm -rf "$work"' EXIT
unset ORGQ_FILES NO_COLOR TZ TZDIR
HOME=$work/home XDG_CONFIG_HOME=$work/home/config LC_ALL=C.UTF-8
export HOME XDG_CONFIG_HOME LC_ALL
mkdir -p "$HOME"
cp "$here"/agenda-csv/*.org "$here"/search-view/*.org "$work" && cd "$work" || exit 2
if ! "$emacs" -Q --batch -l "$here/search-view/search.el" "$here/search-view/queries" notes.org home.org work.org club.org \
    < /dev/null > emacs.found 2> said; then
    tail -5 said
    echo "search-view: Emacs ended with an error"
    echo "search-view: 0 passed, 1 failed"
    exit 1
fi
python3 "$here/search-view/compare.py" emacs.found "$orgq" "$here/search-view/queries" "$here/../docs/using.md" \
    notes.org home.org work.org club.org
