#!/bin/sh
# SPDX-License-Identifier: Apache-2.0 OR MIT
# Org's agenda in a real Emacs, with `org-views-agenda-mode` over the program ORGVIEWS (the one that was built last where none is
# named) and by Org alone: views of realistic files, odd headings, keys in batch and in a terminal of tmux. ORG names the folder of
# another Org than Emacs' own. What isn't installed is left out. The last line counts.
cd "$(dirname "$0")/.." || exit 2
program=${1:-crates/orgviews/out/orgviews}
emacs=${EMACS:-emacs}
if ! "$emacs" -Q --batch --eval '(or (>= emacs-major-version 28) (kill-emacs 1))' > /dev/null 2>&1; then
    echo "org-agenda: left out, the client needs Emacs 28 or later (on Debian: apt-get install emacs-nox)"
    exit 0
fi
if [ ! -x "$program" ]; then
    echo "org-agenda: there is no program $program"
    echo "org-agenda: 0 passed, 1 failed"
    exit 1
fi
ORG_VIEWS_PROGRAM=$(cd "$(dirname "$program")" && pwd)/$(basename "$program")
export ORG_VIEWS_PROGRAM
work=$(mktemp -d) || exit 2
session=org-agenda-$$
trap 'tmux -L "$session" kill-server 2> /dev/null; rm -rf "$work"' EXIT
cp clients/emacs/*.el clients/emacs/test/org-views-agenda-*.el "$work/"
cd "$work" || exit 2
set -- -Q ${ORG:+-L "$ORG"} -L .
passed=0
failed=0
"$emacs" "$@" --batch -f batch-byte-compile ./*.el > compiled 2>&1
"$emacs" "$@" --batch --eval "(progn (require 'org) (princ (format \"org-agenda: Org %s in Emacs %s\n\" org-version emacs-version)))"

"$emacs" "$@" --batch -l org-views-agenda-tests -l org-views-agenda-odd-tests -l org-views-agenda-keys-tests \
    -f ert-run-tests-batch-and-exit > tests 2>&1
counts=$(sed -n 's/^Ran [0-9]* tests, \([0-9]*\) results as expected, \([0-9]*\) unexpected.*/\1 \2/p' tests)
[ -n "$counts" ] && [ "${counts#* }" -eq 0 ] || grep -v '^$' tests
counts=${counts:-0 1}
passed=$((passed + ${counts% *}))
failed=$((failed + ${counts#* }))

# The pane shows PATTERN within a minute; else what it shows is a fault, under NAME.
shown() {
    name=$1 pattern=$2 left=300
    until tmux -L "$session" capture-pane -p 2> /dev/null | grep -q "$pattern"; do
        left=$((left - 1))
        if [ "$left" -eq 0 ]; then
            echo "$name: the terminal shows"
            tmux -L "$session" capture-pane -p
            failed=$((failed + 1))
            return 1
        fi
        sleep 0.2
    done
    passed=$((passed + 1))
}

# Types KEYS, as tmux names them, and waits for PATTERN: NAME PATTERN KEYS..
typed() {
    name=$1 pattern=$2
    shift 2
    tmux -L "$session" send-keys "$@"
    shown "$name" "$pattern"
}

if command -v tmux > /dev/null 2>&1; then
    TERM=screen
    export TERM
    SAID=$work/said
    export SAID
    # All keys of the tests, in a terminal.
    tmux -L "$session" new-session -d -x 150 -y 50 "$emacs" -nw "$@" -l org-views-agenda-keys-tests \
        -f org-views-agenda-keys-tests-in-terminal
    left=1800
    while [ ! -s "$SAID" ] && [ "$left" -gt 0 ]; do
        left=$((left - 1))
        sleep 1
    done
    if grep -q ' 0 wrong$' "$SAID" 2> /dev/null; then
        passed=$((passed + 1))
    else
        echo "keys in a terminal:"
        cat "$SAID"
        failed=$((failed + 1))
    fi
    # And some that are typed, in a server of their own.
    tmux -L "$session" kill-server 2> /dev/null
    session=$session-typed
    tmux -L "$session" new-session -d -x 150 -y 50 "$emacs" -nw "$@" -l org-views-agenda-keys-tests \
        --eval '(org-views-agenda-keys-tests-be-ready (expand-file-name "typed"))'
    shown "a file" "home.org" &&
        typed "C-c a a" "Org-Agenda Week" C-c a a &&
        typed "v d" "Org-Agenda Day" v d &&
        typed "v w" "Org-Agenda Week" v w &&
        typed "t d" "DONE \[#A\] Write the importer" v d C-s Write Space the Space importer Enter t d &&
        typed "C-_" "NEXT \[#A\] Write the importer" C-_ &&
        typed "l" "Org-Agenda.*Log" l &&
        typed "C-c a t" "Global list of TODO" C-c a t
else
    echo "org-agenda: keys in a terminal are left out, tmux is not installed"
fi
echo "org-agenda: $passed passed, $failed failed"
[ "$failed" -eq 0 ]
