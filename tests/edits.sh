#!/bin/sh
# Checks in a second, before anything is proved, that each must-fail edit can be applied: that the text that it takes away
# stands exactly once in the file that it names; and that a line 'only:' says of which function a clause refuses it
# (MODULE::FUNCTION or MODULE::TYPE::METHOD, as a check prints it): tests/ci.py tries it on that alone. Says which don't; the
# last line counts.
cd "$(dirname "$0")/.." || exit 2
passed=0
failed=0

# Whether a crate's sources have the function that a path names: the file of its module, in it the type of a method, and
# somewhere a function of that name. A method of a trait has its type and its trait as one word: PiecesText.
has_function() {
    crate=$1
    file=$1/src
    name=${2##*::}
    word=""
    for part in $(printf '%s\n' "${2%"$name"}" | sed 's/::/ /g'); do
        case $part in
            [A-Z]*) word=$part ;;
            *) file=$file/$part ;;
        esac
    done
    if [ "$file" = "$crate/src" ]; then
        file=$crate/src/lib
        [ -f "$file.rt" ] || file=$crate/src/main
    fi
    [ -f "$file.rt" ] || return 1
    if [ -n "$word" ]; then
        sed -n 's/^ *\(pub\([(][a-z]*[)]\)\{0,1\} \)\{0,1\}\(struct\|enum\|trait\) \([A-Za-z0-9_]*\).*/\4/p' "$file.rt" | while read -r type; do
            case $word in "$type"*) echo "$type" ;; esac
        done | grep -q . || return 1
    fi
    grep -r -q -E "^ *(pub(\([a-z]+\))? )?(unsafe )?fn $name\b" "$crate/src"
}

# Whether an edit names functions, and each is there.
names_functions() {
    paths=$(sed -n 's/^only: //p' "$1")
    [ -n "$paths" ] || return 1
    for path in $paths; do
        has_function "${1%%/must-fail/*}" "$path" || return 1
    done
}

for edit in crates/*/must-fail/*.edit; do
    if ! names_functions "$edit"; then
        echo "$edit: no line 'only:', or a function that it names isn't there"
        failed=$((failed + 1))
        continue
    fi
    if awk -v crate="${edit%%/must-fail/*}" '
        /^file: / {
            text = ""
            path = crate "/" substr($0, 7)
            while ((getline line < path) > 0) text = text line "\n"
            close(path)
        }
        /^old: / { old = substr($0, 6); pairs++ }
        /^new:/ {
            new = substr($0, 6)
            at = index(text, old)
            behind = substr(text, at + length(old))
            if (old == "" || at == 0 || index(behind, old) > 0) exit 1
            text = substr(text, 1, at - 1) new behind
            changed++
        }
        END { if (pairs == 0 || changed != pairs) exit 1 }
    ' "$edit"; then
        passed=$((passed + 1))
    else
        echo "$edit: what it takes away doesn't stand exactly once"
        failed=$((failed + 1))
    fi
done
echo "edits: $passed passed, $failed failed"
[ "$failed" -eq 0 ] && [ "$passed" -gt 0 ]
