#!/bin/sh
# Checks in seconds what people read: that each crate's first page shows lines that are compiled (tests/doors.py), that pictures
# and tables are those of the sources (tests/pictures.py) or of worked cases (tests/screens.py), and so are the laws on the page
# of promises (tests/promises.py) and the kinds of findings in the manual (tests/findings.py), that man pages, manual and
# completions have the options that the programs take (tests/options.py), that each crate has its row on the page of costs
# (tests/costs.py), that sentences and clauses aren't too long and links lead somewhere (tests/prose.py), that what stands in
# backticks is there (tests/mentions.py), that functions and labels are no bare participles (tests/names.py), that members of
# rows as JSON have all their places (tests/members.py), and that the reading copy holds what the headline reaches
# (tests/reading.py). All want python3: without it each has failed. The last line counts.
cd "$(dirname "$0")/.." || exit 2
command -v python3 > /dev/null || echo "pages: there is no python3, and nothing can be tried"
passed=0
failed=0
for part in "doors" "pictures check" "screens check" "promises check" "findings check" "options" "costs check" "prose" "mentions" "names" "members" "reading check"; do
    said=$(python3 "tests/${part%% *}.py" ${part#"${part%% *}"} 2>&1)
    status=$?
    printf '%s\n' "$said"
    counts=$(printf '%s\n' "$said" | sed -n "s/^${part%% *}: \([0-9]*\) passed, \([0-9]*\) failed$/\1 \2/p")
    [ -n "$counts" ] || counts="0 1"
    [ "$status" -eq 0 ] || [ "${counts#* }" -gt 0 ] || counts="${counts% *} 1"
    passed=$((passed + ${counts% *}))
    failed=$((failed + ${counts#* }))
done
echo "pages: $passed passed, $failed failed"
[ "$failed" -eq 0 ]
