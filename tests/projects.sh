#!/bin/sh
# Asks Org itself (`org-stuck-projects` and `org-entry-blocked-p`, in Emacs) and `orgq projects` which projects are stuck and which
# tasks are blocked, over outlines that tests/projects/make.py makes by chance, the same each time. A line of tests/projects/settings
# has a value of `org-stuck-projects`, and the expressions of `--project` and `--next-action` that say the same. Where Emacs or python3
# isn't there all is left out, and the status is 0. The last line counts.
#     tests/projects.sh ORGQ
here=$(cd "$(dirname "$0")" && pwd)
emacs=${EMACS:-emacs}
for needed in "$emacs" python3; do
    if ! command -v "$needed" > /dev/null 2>&1; then
        echo "projects: left out, $needed is not installed (on Debian: apt-get install emacs-nox python3)"
        exit 0
    fi
done
if [ ! -x "$1" ]; then
    echo "projects: there is no program $1"
    echo "projects: 0 passed, 1 failed"
    exit 1
fi
orgq=$(cd "$(dirname "$1")" && pwd)/$(basename "$1")
work=$(mktemp -d) || exit 2
trap 'rm -rf "$work"' EXIT
unset ORGQ_FILES NO_COLOR TZ TZDIR
HOME=$work/home XDG_CONFIG_HOME=$work/home/config LC_ALL=C.UTF-8
export HOME XDG_CONFIG_HOME LC_ALL
mkdir -p "$HOME" && python3 "$here/projects/make.py" "$work" && cd "$work" || exit 2
if ! "$emacs" -Q --batch -l "$here/projects/projects.el" "$here/projects/settings" made1.org made2.org made3.org \
    < /dev/null > emacs.found 2> said; then
    tail -5 said
    echo "projects: Emacs ended with an error"
    echo "projects: 0 passed, 1 failed"
    exit 1
fi
python3 "$here/projects/compare.py" emacs.found "$orgq" "$here/projects/settings" "$here/../docs/using.md" made1.org made2.org made3.org
