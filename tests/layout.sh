#!/bin/sh
# Checks in some seconds, before anything is proved, that every file of a crate is in the formatter's layout; the gate
# would refuse its crate at the end. Of all crates, or of those that are named. Says which files aren't (`rt fmt` in their
# crate mends them); the last line counts crates.
cd "$(dirname "$0")/.." || exit 2
work=$(mktemp -d) || exit 2
trap 'rm -rf "$work"' EXIT
mkdir "$work/crates"
cp crates.txt "$work/"
passed=0
failed=0
for crate in ${*:-$(ls crates)}; do
    copy=$work/crates/$crate
    mkdir "$copy"
    for folder in src specs proofs; do
        [ ! -d "crates/$crate/$folder" ] || cp -R "crates/$crate/$folder" "$copy/"
    done
    if (cd "$copy" && rt fmt) > "$work/said" 2>&1 && ! grep -q '^rt: formatted' "$work/said"; then
        passed=$((passed + 1))
    else
        sed "s|^rt: formatted |crates/$crate: not in the formatter's layout: |" "$work/said"
        failed=$((failed + 1))
    fi
done
echo "layout: $passed passed, $failed failed"
[ "$failed" -eq 0 ] && [ "$passed" -gt 0 ]
