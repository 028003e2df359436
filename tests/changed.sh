#!/bin/sh
# For daily work: checks what differs from a commit (the first argument; by default origin/main). It proves the crates whose
# code differs, with their worked examples, and those above them, over what earlier checks kept; runs their tests; tries the
# must-fail edits of the crates that differ, but where only worked examples do, of which no edit knows; and runs the worked
# streams over the program, and the faults. It says what it left out: only `make test` is the gate.
cd "$(dirname "$0")/.." || exit 2
base=$1
if [ -z "$base" ]; then
    base=origin/main
    if ! git rev-parse --verify --quiet "$base" > /dev/null; then
        echo "changed: there is no origin/main; name the commit to compare with, as in: make changed BASE=HEAD~1"
        exit 2
    fi
fi
if ! git rev-parse --verify --quiet "$base^{commit}" > /dev/null; then
    echo "changed: there is no commit $base"
    exit 2
fi
work=$(mktemp -d) || exit 2
trap 'rm -rf "$work"' EXIT

{
    git diff --name-only "$base" -- crates
    git ls-files --others --exclude-standard -- crates
} | sort -u > "$work/files"
# A line `NAME: DEP DEP ..` for each crate, lowest first.
sed 's/#.*//; /^ *$/d' crates.txt > "$work/crates"
git show "$base:crates.txt" 2> /dev/null | sed 's/#.*//; /^ *$/d' > "$work/crates-before"
all=$(sed 's/:.*//' "$work/crates")

# Whether a file of a crate differs in one of these folders.
differs() {
    grep -q -E "^crates/$1/($2)/" "$work/files"
}
# The same, of more than its worked examples.
differs_beyond_examples() {
    grep -E "^crates/$1/(src|specs|proofs|must-fail)/" "$work/files" | grep -q -v -E "^crates/$1/(specs/Examples\.antt|proofs/laws/examples_hold/.*)$"
}
code=""
edited=""
for crate in $all; do
    line=$(grep "^$crate:" "$work/crates")
    if ! grep -q -x -F "$line" "$work/crates-before"; then
        code="$code $crate"
        edited="$edited $crate"
        continue
    fi
    differs "$crate" 'src|specs|proofs' && code="$code $crate"
    differs_beyond_examples "$crate" && edited="$edited $crate"
done
# Those whose code differs, and those above them. A crate stands behind those that it names.
affected=" $code "
for round in $all; do
    before=$affected
    for crate in $all; do
        case "$affected" in *" $crate "*) continue ;; esac
        for dep in $(grep "^$crate:" "$work/crates" | sed 's/.*://'); do
            case "$affected" in *" $dep "*) affected="$affected$crate "; break ;; esac
        done
    done
    [ "$affected" = "$before" ] && break
done

passed=0
failed=0
# Runs a step in a folder, and counts it.
step() {
    name=$1
    folder=$2
    shift 2
    start=$(date +%s)
    if (cd "$folder" && "$@") > "$work/out" 2>&1; then
        passed=$((passed + 1))
        echo "changed: $name: $(($(date +%s) - start)) s"
    else
        failed=$((failed + 1))
        cat "$work/out"
        echo "changed: $name FAILED"
        return 1
    fi
}

echo "changed: against $base:${code:- no code differs}"
step "whether each must-fail edit can be applied" . sh tests/edits.sh
step "the layers of crates" . sh tests/layers.sh
step "numbers of rules, and parameters" . sh tests/rules.sh
[ -z "$code" ] || step "the layout of the crates that differ" . sh tests/layout.sh $code
left=""
stopped=""
for crate in $all; do
    case "$affected" in
    *" $crate "*)
        examples=""
        [ ! -f "crates/$crate/specs/Examples.antt" ] || examples=", its worked examples too"
        [ -n "$stopped" ] || step "$crate is proved$examples" "crates/$crate" rt check || stopped=$crate
        ;;
    *) left="$left $crate" ;;
    esac
done
if [ -z "$stopped" ]; then
    for crate in $all; do
        case "$affected" in *" $crate "*) ;; *) continue ;; esac
        grep -r -q -F '#[test]' "crates/$crate/src" || continue
        step "the tests of $crate" "crates/$crate" rt test
    done
    for crate in $edited; do
        [ -n "$(ls "crates/$crate/must-fail" 2> /dev/null)" ] || continue
        step "the must-fail edits of $crate" . python3 tests/ci.py must-fail "$crate"
    done
    step "what the tables of definitions name" . sh tests/shown.sh
    step "what the pages say of the sources" . sh tests/pages.sh
    step "the worked streams" . make --no-print-directory rows
    step "orgq beside orgviews" . make --no-print-directory orgq-test
    step "refused memory, and reads and writes that fail" . make --no-print-directory faults
fi

echo "changed: left out: proofs from nothing, the program as Rattle's own compiler builds it, and of these crates everything:${left:- none}"
[ -z "$stopped" ] || echo "changed: nothing was tried behind $stopped, which is not proved"
echo "$passed passed, $failed failed"
[ "$failed" -eq 0 ]
