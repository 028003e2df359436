#!/bin/sh
# SPDX-License-Identifier: Apache-2.0 OR MIT
# What Org's agenda costs over a large set of files, with `org-views-agenda-mode` over the program ORGVIEWS and by Org alone, in
# seconds of processor: a line for each view. HEADINGS is how many headings there are (100000), OWN=no leaves Org alone out, which
# takes minutes, and ORG names the folder of another Org than Emacs' own.
cd "$(dirname "$0")/.." || exit 2
program=${1:-crates/orgviews/out/orgviews}
emacs=${EMACS:-emacs}
[ -x "$program" ] || { echo "org-agenda: there is no program $program" >&2; exit 1; }
ORG_VIEWS_PROGRAM=$(cd "$(dirname "$program")" && pwd)/$(basename "$program")
export ORG_VIEWS_PROGRAM
work=$(mktemp -d) || exit 2
trap 'rm -rf "$work"' EXIT
cp clients/emacs/org-views-*.el clients/emacs/test/org-views-agenda-s*.el "$work/"
cd "$work" || exit 2
"$emacs" -Q ${ORG:+-L "$ORG"} --batch -L . -f batch-byte-compile ./*.el > /dev/null 2>&1
"$emacs" -Q ${ORG:+-L "$ORG"} --batch -L . -l org-views-agenda-speed -f org-views-agenda-speed 2>&1 | grep -v '^$'
