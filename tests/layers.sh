#!/bin/sh
# Checks the layers of crates.txt: no crate of the store of files stands on one of views or of patterns, straight or through
# others. Says which does; and prints the longest chain of crates. And that the crates of over 2,500 lines are those of which
# docs/architecture.md says why. The last line counts.
cd "$(dirname "$0")/.." || exit 2
large=$(for crate in crates/*/; do
    lines=$(find "$crate/src" -name '*.rt' -exec cat {} + | wc -l)
    [ "$lines" -le 2500 ] || basename "$crate"
done | sort)
said=$(sed -n '/^### Crates of over/,/^##* [^C]/s/^| `\([a-z_0-9]*\)` |.*/\1/p' docs/architecture.md | sort)
[ "$large" = "$said" ] || echo "layers: over 2,500 lines are" $large "and the page says" $said
store="org_text org_sequence org_pieces org_lines org_settings org_class org_head org_entry org_outline org_inherit org_index org_stamp_index org_store"
above="org_expression org_match org_agenda org_near org_clocktable org_layout regex"
sed 's/#.*//; /^ *$/d' crates.txt | awk -v store="$store" -v above="$above" -v is_said="$([ "$large" = "$said" ] && echo 1 || echo 0)" '
    {
        name = $1
        sub(/:.*/, "", name)
        own[name] = 1
        for (i = 2; i <= NF; i++) stands[name, $i] = 1
        line[name] = $0
        sub(/^[^:]*:/, "", line[name])
    }
    # How many crates of ours stand one on another, up to this one.
    function depth(name,    count, i, deps, most, n) {
        if (name in known) return known[name]
        most = 0
        count = split(line[name], deps, " ")
        for (i = 1; i <= count; i++) if (deps[i] in own) { n = depth(deps[i]); if (n > most) most = n }
        return known[name] = most + 1
    }
    # Whether one stands on another, straight or through others.
    function reaches(name, other,    count, i, deps, key) {
        key = name SUBSEP other
        if (key in found) return found[key]
        count = split(line[name], deps, " ")
        found[key] = 0
        for (i = 1; i <= count; i++) {
            if (deps[i] == other || ((deps[i] in own) && reaches(deps[i], other))) { found[key] = 1; break }
        }
        return found[key]
    }
    END {
        many = split(store, low, " ")
        most = split(above, high, " ")
        for (i = 1; i <= many; i++) {
            if (!(low[i] in own)) { print "layers: there is no crate " low[i]; failed++; continue }
            bad = 0
            for (j = 1; j <= most; j++) if (reaches(low[i], high[j])) { print "layers: " low[i] " stands on " high[j]; bad = 1 }
            if (bad) failed++; else passed++
        }
        if (is_said) passed++; else failed++
        longest = 0
        for (name in own) if (depth(name) > longest) longest = depth(name)
        print "layers: the longest chain has " longest " crates"
        printf "layers: %d passed, %d failed\n", passed, failed
        exit failed > 0
    }'
