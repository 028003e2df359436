#!/bin/sh
# Checks in the code that the number of a rule stands once, as a constant, and that no function has more than five parameters,
# `self` counted. Says where it is otherwise; the last line counts.
#
# In definitions such a number stands where a law says it in the rule's own words, so these files may have it besides.
cd "$(dirname "$0")/.." || exit 2
passed=0
failed=0

# A number, the file with its constant, and words that have to stand in a line for it to be meant, if it may mean something else.
rules='
14	crates/org_index/src/delays.rs	delay_or|today \+|WARNING
4_194_304	crates/org_index/src/keys.rt	.
366	crates/org_base/src/limits.rt	.
256	crates/org_base/src/limits.rt	files|FILES
67_108_864	crates/org_text/src/text.rt	.
3_652_059	crates/org_cal/src/day.rt	.
1_099_511_627_776	crates/org_wire/src/input.rt	.
30_000_000	crates/org_index/src/delays.rt	.
'
# Files in which laws say numbers in words of their own.
laws='specs/(Laws|Limits|Examples|Reasons|Refusals|Rest|Framing|Spelled|Rules)\.antt$'

code() {
    find crates -name out -prune -o -type f \( -path '*/src/*.rt' -o -path '*/specs/*.antt' \) -print |
        grep -v -E "^crates/(org_tests|org_measure)/|$laws" | sort
}

code > /dev/null || exit 2
printf '%s\n' "$rules" | grep -v '^$' | sed 's/\.rs\t/.rt\t/' > "${TMPDIR:-/tmp}/rules.$$"
trap 'rm -f "${TMPDIR:-/tmp}/rules.$$"' EXIT
while IFS='	' read -r number home words; do
    # Comments may say a number, and so may a text that is printed, as a line of options is.
    found=$(code | xargs grep -n -w -F -- "$number" /dev/null |
        sed -E 's/^([^:]*:[0-9]+:)(.*)$/\1\t\2/' |
        awk -F '\t' -v words="$words" '{
            line = $2
            sub(/(^|[ \t])(\/\/|--).*$/, "", line)
            gsub(/"[^"]*"/, "", line)
            if (line ~ /[0-9]/ && line ~ words && line !~ /^[a-z]?;[a-z-]+;/) print $1
        }' | grep -v -F "$home:")
    if ! grep -q -E "const [A-Z_]+: [a-z0-9]+ = $number;" "$home"; then
        failed=$((failed + 1))
        echo "rules: $number is no constant of $home"
    elif [ -n "$found" ] && printf '%s\n' "$found" | xargs -n 1 sh -c 'file=${1%%:*}; rest=${1#*:}; sed -n "${rest%%:*}p" "$file"' - | grep -q -w -F -- "$number"; then
        failed=$((failed + 1))
        printf '%s\n' "$found" | sed "s/^/rules: $number stands besides in /; s/:\$//"
    else
        passed=$((passed + 1))
    fi
done < "${TMPDIR:-/tmp}/rules.$$"

# Functions that may have more: their parameters are the words of a command, or those of a trait.
wide='org_engine::edit org_engine::complete org_engine::complete_and_tell org_engine::add org_engine::complete_heading
org_engine::dated_text org_engine::days_text org_engine::todo_text org_engine::match_text org_engine::matching_text
org_engine::view_text org_engine::render_over org_agenda::near org_near::near org_complete::complete org_complete::complete_entry'
for file in $(find crates -name out -prune -o -type f -path '*/src/*.rt' -print | sort); do
    crate=${file#crates/}
    crate=${crate%%/*}
    awk -v crate="$crate" '
        { sub(/\/\/.*$/, ""); text = text $0 "\n" }
        END {
            while (match(text, /(^|[^A-Za-z0-9_])fn [a-z_0-9]+/)) {
                name = substr(text, RSTART, RLENGTH)
                sub(/^.*fn /, "", name)
                text = substr(text, RSTART + RLENGTH)
                depth = 0
                # Parameters of types stand before those of values.
                for (i = 1; i <= length(text); i++) {
                    c = substr(text, i, 1)
                    if (c == "<") depth++
                    else if (c == ">" && substr(text, i - 1, 1) != "-") depth--
                    else if (c == "(" && depth == 0) break
                }
                depth = 0
                count = 0
                filled = 0
                for (i++; i <= length(text); i++) {
                    c = substr(text, i, 1)
                    if (c == ")" && depth == 0) break
                    if (c ~ /[(<[{]/) depth++
                    else if (c ~ /[]})]/ || (c == ">" && substr(text, i - 1, 1) != "-")) depth--
                    if (c == "," && depth == 0) { if (filled) count++; filled = 0 }
                    else if (c !~ /[ \t\n]/) filled = 1
                }
                if (filled) count++
                if (count > 5) print crate "::" name, count
            }
        }' "$file"
done | sort -u > "${TMPDIR:-/tmp}/rules.$$"
while read -r name count; do
    if printf '%s\n' $wide | grep -q -x -F "$name"; then
        passed=$((passed + 1))
    else
        failed=$((failed + 1))
        echo "rules: $name has $count parameters"
    fi
done < "${TMPDIR:-/tmp}/rules.$$"
echo "rules: $passed passed, $failed failed"
[ "$failed" -eq 0 ]
