#!/bin/sh
# Checks tests/shown/definitions.md, a row for the definitions of a rule: their names, their files, the functions whose contracts
# cite them, and what else shows them. Each file must be there and hold the definitions; each of these functions must stand in
# its file, with one of the definitions in a clause there; and each law, worked example, must-fail edit, test and worked stream
# must exist. An example is a field of the record `ExamplesHold` in its crate's specs/Examples.antt, or `ExamplesHold` itself
# where a crate has only one. Each example and each edit must be in some row. Checks the page of rules, docs/definitions.md, in
# the same way: the definitions, what ties them and the stream of each row. Says what is missing, how many rows have neither law
# nor example nor edit, and how many nothing shows; the last line counts.
cd "$(dirname "$0")/.." || exit 2
table=tests/shown/definitions.md
page=docs/definitions.md
work=$(mktemp -d) || exit 2
trap 'rm -rf "$work"' EXIT
named=$work/named
needed=$work/needed
shown=$work/shown

# The names in a cell, for both tables.
cells='
    function names(cell, into,    count, i, parts) {
        count = split(cell, parts, "`")
        for (i = 2; i <= count; i += 2) into[i / 2] = parts[i]
        return int(count / 2)
    }
'

# One line for each name: what it is, the name, and for a definition the row's files.
awk -F'|' "$cells"'
    /^\| `/ {
        if (NF != 6) { print "row", NR; next }
        count = names($3, files)
        folder = files[1]
        sub(/[^\/]*$/, "", folder)
        list = ""
        for (i = 1; i <= count; i++) {
            path = "crates/" (files[i] ~ /\// ? files[i] : folder files[i])
            print "file", path
            list = list " " path
        }
        said = ""
        defined = names($2, words)
        for (i = 1; i <= defined; i++) { print "definition", words[i] list; said = said " " words[i] }
        many = names($4, found)
        for (i = 1; i <= many; i++) print "contract", found[i] said
        if ($5 ~ /^ *- *$/) { print (many ? "bare" : "nothing"), words[1]; next }
        if ($5 !~ /(^|;) *(law|example|edit) /) print "bare", words[1]
        count = split($5, kinds, ";")
        for (i = 1; i <= count; i++) {
            split(kinds[i], first, " ")
            many = names(kinds[i], found)
            if (many == 0) print "row", NR
            for (k = 1; k <= many; k++) print first[1], found[k]
        }
    }
' "$table" > "$named"

# The same of the page of rules: definitions, their file as CRATE/FILE.antt, the rule, its tie, a stream.
awk -F'|' "$cells"'
    /^\| `/ {
        if (NF != 7) { print "row", NR; next }
        names($3, files)
        crate = file = files[1]
        sub(/\/.*/, "", crate)
        sub(/.*\//, "", file)
        path = "crates/" crate "/specs/" file
        count = names($2, words)
        for (i = 1; i <= count; i++) print "definition", words[i], path
        split($5, first, " ")
        if (first[1] != "none") {
            count = names($5, found)
            if (count == 0) print "row", NR
            for (i = 1; i <= count; i++) {
                if (first[1] == "edit") print "edit", (found[i] ~ /\// ? "" : crate "/") found[i]
                else print (first[1] == "example" ? "example" : "law"), (found[i] ~ /::/ ? "" : crate "::") found[i]
            }
        }
        count = names($6, found)
        for (i = 1; i <= count; i++) print "stream", found[i]
    }
' "$page" > "$work/rules"
grep -q '^definition' "$work/rules" || echo "row 0" >> "$work/rules"

# The names of the worked examples in a file.
examples_of() {
    sed -n '/^pub record ExamplesHold /,$s/^  pub \([a-z_0-9]*\) : .*/\1/p; s/^abbrev pub \(ExamplesHold\) : .*/\1/p' "$1"
}

# Each example and each edit, as a row names it.
for file in crates/*/specs/Examples.antt crates/*/must-fail/*.edit; do
    [ -f "$file" ] || continue
    crate=${file#crates/}
    crate=${crate%%/*}
    case $file in
        *.antt) examples_of "$file" | sed "s/^/example $crate::/" ;;
        *) echo "edit $crate/$(basename "$file" .edit)" ;;
    esac
done > "$needed"
grep '^example \|^edit ' "$named" | sed 's/^\([a-z]* [^ ]*\).*/\1/' > "$shown"

passed=0
failed=0
nothing=0
bare=0
while read -r kind name; do
    if grep -q -x -F "$kind $name" "$shown"; then
        passed=$((passed + 1))
    else
        echo "$table: no row names the $kind $name"
        failed=$((failed + 1))
    fi
done < "$needed"

# Looks for each name of a list that was made of a file.
look() {
    while read -r kind name files; do
        case $kind in
            file) [ -f "$name" ] ;;
            definition) grep -qw -- "$name" $files 2>/dev/null ;;
            contract)
                crate=${name%%::*}
                function=${name##*::}
                module=${name#*::}
                source=crates/$crate/src/${module%%::*}.rt
                grep -q "fn $function[<(]" "$source" 2>/dev/null && for word in $files; do grep -w -- "$word" "$source"; done | grep -qv '^ghost use '
                ;;
            law) grep -q "^pub fn ${name##*::}()" "crates/${name%%::*}"/src/*.rt 2>/dev/null ;;
            example) examples_of "crates/${name%%::*}/specs/Examples.antt" 2>/dev/null | grep -q -x -F "${name##*::}" ;;
            edit) [ -f "crates/${name%%/*}/must-fail/${name#*/}.edit" ] ;;
            test) grep -h -A1 '^#\[test\]' "crates/org_tests/src/${name%%::*}.rt" 2>/dev/null | grep -q "^fn ${name##*::}(" ;;
            stream) [ -f "tests/rows/$name.stdout" ] ;;
            bare) bare=$((bare + 1)) && continue ;;
            nothing) nothing=$((nothing + 1)) ;;
            *) false ;;
        esac
        if [ $? -eq 0 ]; then
            passed=$((passed + 1))
        else
            echo "$2: $kind $name is missing"
            failed=$((failed + 1))
        fi
    done < "$1"
}
look "$named" "$table"
look "$work/rules" "$page"
echo "shown: $bare rows by a contract, a test or a stream alone, without law, example or edit"
echo "shown: $nothing rows that nothing shows"
echo "shown: $passed passed, $failed failed"
[ "$failed" -eq 0 ] && [ "$passed" -gt 0 ]
