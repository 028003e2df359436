#!/bin/sh
# SPDX-License-Identifier: Apache-2.0 OR MIT
# Tries tests/kept.py and tests/ci.py with a stand-in for the prover, in a minute: what a gate over kept proofs takes, what it
# proves anew, and what it does where kept work, the folder or `rt` isn't as it should be. Wants the kit, whose `rt` it runs, and
# proves nothing. The last line counts. No part of the gate.
here=$(cd "$(dirname "$0")/.." && pwd -P) || exit 2
command -v rt > /dev/null || { echo "kept: there is no rt"; echo "kept: 0 passed, 0 failed"; exit 0; }
real=$(dirname "$(dirname "$(realpath "$(command -v rt)")")")
work=$(mktemp -d) || exit 2
trap 'rm -rf "$work"' EXIT
passed=0
failed=0

# A kit as the real one, but for the prover, the linker and what runs tests: a program is `cat`.
mkdir -p "$work/kit/bin" "$work/cache"
chmod 755 "$work"
chmod 700 "$work/cache"
for part in "$real"/*; do
    [ "${part##*/}" = bin ] || ln -s "$part" "$work/kit/"
done
cp "$real/bin/rt" "$real/bin/rtlib.py" "$here/tests/kept/rattle" "$work/kit/bin/"
"$real/bin/rattle" check --help > "$work/kit/help" 2>&1
printf '#!/bin/sh\nwhile [ $# -gt 0 ]; do [ "$1" != -o ] || cp /bin/cat "$2"; shift; done\n' > "$work/kit/bin/rattle-link"
printf '#!/bin/sh\necho test\n' > "$work/kit/bin/rattle-test"
chmod 755 "$work/kit/bin"/*
PATH=$work/kit/bin:$PATH XDG_CACHE_HOME=$work/cache
export PATH XDG_CACHE_HOME
unset WHOLE MINUTES FIRST RT_JOBS
again=""

# Three crates, one above the other; the lowest has a test and edits, the topmost is a program.
mkdir -p "$work/tree/tests"
cp "$here/tests/ci.py" "$here/tests/kept.py" "$work/tree/tests/"
cd "$work/tree" && mkdir -p crates/low/src crates/low/must-fail crates/mid/src crates/top/src || exit 2
printf '#![tactic(auto)]\n\npub fn one(x: u32) -> u32 {\n    x + 1\n}\n\nfn two(x: u32) -> u32 {\n    x + 2\n}\n\n#[test]\nfn counts() {}\n' > crates/low/src/lib.rt
printf 'only: one\nfile: src/lib.rt\nold: x + 1\nnew: wrong\n' > crates/low/must-fail/one.edit
printf 'only: one\nfile: src/lib.rt\nold: x + 2\nnew: wrong\n' > crates/low/must-fail/other.edit
printf '#![tactic(auto)]\n\npub fn three() {}\n' > crates/mid/src/lib.rt
printf '#![tactic(auto)]\n\nfn main() {}\n' > crates/top/src/main.rt
echo words | tee crates/top/stdin > crates/top/stdout
printf 'low:\nmid: low\ntop: mid\n' > crates.txt
echo 'Handles allowed: none.' > HANDLES
git init -q . && git add crates crates.txt HANDLES && git -c user.name=nobody -c user.email=nobody@example.org commit -q -m "The tree" || exit 2

# gate NAME STATUS LINE..: runs the gate, wants that status and, for each LINE, one that it fits; for each !LINE, none.
gate() {
    name=$1
    wanted=$2
    shift 2
    # (what `rt ci` keeps itself is beside the kit; it is taken where a case wants that)
    [ -n "$again" ] || rm -rf "$work/rattle-kept"
    python3 tests/kept.py gate "$work/end" > "$work/said" 2>&1
    status=$?
    is_so=yes
    [ "$status" -eq "$wanted" ] || is_so="status $status"
    for line in "$@"; do
        case $line in
            !*) ! grep -q -e "${line#!}" "$work/said" || is_so="it says ${line#!}" ;;
            *) grep -q -e "$line" "$work/said" || is_so="it doesn't say $line" ;;
        esac
    done
    if [ "$is_so" = yes ]; then
        passed=$((passed + 1))
    else
        failed=$((failed + 1))
        echo "kept: $name: $is_so"
        tail -n 12 "$work/said" | sed "s/^/    /"
    fi
}
# A kept file, once there is one.
file() {
    ls "$work/cache/orgviews/kept"/*/low/one/low.two.oantt
}
# Writes into the sums of the lowest crate what its files have now.
right_sums() {
    low=$(dirname "$(dirname "$(file)")")
    (cd "$low" && python3 -c 'import glob, hashlib, json
print(json.dumps({it: hashlib.sha256(open(it, "rb").read()).hexdigest() for it in glob.glob("**", recursive=True) if it.endswith("antt")}))') > "$low.sums"
}

gate "nothing is kept" 0 "from nothing: nothing is kept" "low: modules loaded=0 checked=3" "^5 passed, 0 failed$" \
    "one.edit: refused, as it must be (of one 0 of 1 proved)" "other.edit isn't refused in a clause of one" "other.edit: refused, as it must be: note"
grep -q -x "kept: everything was proved from nothing" "$work/end" || { echo "kept: the end doesn't say that all was proved"; failed=$((failed + 1)); }
for crate in low mid; do
    (cd crates/$crate && rattle check --crate-name $crate --incremental out/incremental > /dev/null)
done
python3 tests/kept.py fill > "$work/said" && grep -q "the proofs of 2 crates" "$work/said" || { echo "kept: fill: $(cat "$work/said")"; failed=$((failed + 1)); }
MINUTES=0 && export MINUTES
gate "kept work, and no time" 0 "low: modules loaded=3 checked=0" "mid: modules loaded=1 checked=0" "of one 0 of 1 proved" \
    "^kept: 2 of 4 proofs were made from nothing by this run: low with its tests, top$" "^kept: low rests on kept work; from nothing: never$"
MINUTES=5
gate "kept work, and time" 0 "^kept: low proved from nothing$" "^kept: 4 of 4 proofs were made from nothing by this run: low, low with its tests, mid, top$"
MINUTES=0
sed -i 's/x + 2/x + 3/' crates/low/src/lib.rt && sed -i 's/x + 2/x + 3/' crates/low/must-fail/other.edit
gate "one function differs" 0 "low: modules loaded=2 checked=1" "mid: modules loaded=1 checked=0" "^kept: low rests on kept work; from nothing: 20.*, of other texts$"
git checkout -q crates
gate "kept work of other texts" 0 "low: modules loaded=2 checked=1"
sed -i 's/proof of two/proof of Two/' "$(file)"
gate "a kept file was changed" 0 "what was kept of low isn't as the last check left it" "low: modules loaded=0 checked=3"
sed -i 's/proof of two/proof of Two/' "$(file)" && right_sums
gate "a kept file was changed, and its sum" 0 "low: modules loaded=3 checked=0" "!what was kept of low isn't"
MINUTES=5 FIRST=low && export FIRST
gate "the same, proved from nothing" 1 "1 kept files aren't what this proof gives, as low.two.oantt" "^kept: FAILED: low$" "^0 passed, 1 failed$"
MINUTES=0
unset FIRST
gate "behind it" 0 "low: modules loaded=0 checked=3"
sed -i 's/x + 1/wrong/' crates/low/src/lib.rt
gate "a wrong body" 1 "low NOT PROVED" "that was over kept work; WHOLE=1" "!from nothing by this run"
git checkout -q crates
WHOLE=1 && export WHOLE
gate "WHOLE=1" 0 "from nothing: WHOLE is set" "low: modules loaded=0 checked=3" "!incremental=trusted" "^kept: everything was proved from nothing$"
again=yes
gate "WHOLE=1, where rt itself keeps all" 0 "low: modules loaded=0 checked=3" "^kept: everything was proved from nothing$"
unset WHOLE
gate "kept work, where rt itself keeps all" 0 "rt: low is kept: an earlier run" "^kept: 0 of 4 proofs were made from nothing by this run: none$" \
    "^kept: low was proved from nothing by an earlier run, of the same files: 20" "2 of its 2 must-fail edits were tried by an earlier run" "!modules loaded"
sed -i '1i // more' crates/mid/src/lib.rt
gate "kept work of one, where rt keeps another" 0 "rt: low is kept: an earlier run" "mid: modules loaded=1 checked=0" "^kept: mid rests on kept work"
gate "what was proved over kept work rt itself doesn't keep" 0 "mid: modules loaded=1 checked=0" "!rt: mid is kept"
git checkout -q crates
mv "$work/cache/orgviews/kept" "$work/cache/orgviews/away"
gate "nothing is kept but what rt itself keeps" 0 "from nothing: nothing is kept" "^kept: 0 of 4 proofs were made from nothing by this run: none$" "^kept: top was proved from nothing by an earlier run"
mv "$work/cache/orgviews/away" "$work/cache/orgviews/kept"
again=""
chmod 777 "$work/cache/orgviews/kept"
gate "others can write to the folder" 0 "from nothing: others can write to" "!incremental=trusted"
chmod 700 "$work/cache/orgviews/kept"
chmod 755 "$work/cache/orgviews/kept"/*/
gate "others get into the toolchain's folder" 0 "from nothing: others can get into" "!incremental=trusted"
chmod 700 "$work/cache/orgviews/kept"/*/
flock "$work/cache/orgviews/kept"/*/lock sleep 60 &
holder=$!
sleep 1
gate "another run holds the folder" 0 "from nothing: .* Resource temporarily unavailable" "!incremental=trusted"
kill "$holder"
sed -i 's/^def checked(crate, texts, flags, kept)/def checked(crate, texts, flags, kept, more=None)/' "$work/kit/bin/rt"
gate "an rt with another inside" 0 "this rt has no checked as it is expected, so each edit is tried on its whole crate" "^5 passed, 0 failed$" "!incremental=trusted"
mv "$work/kit/bin/rt" "$work/kit/bin/rt.own"
printf '#!/bin/sh\nexec "%s.own" "$@"\n' "$work/kit/bin/rt" > "$work/kit/bin/rt"
chmod 755 "$work/kit/bin/rt"
gate "an rt that is no Python" 0 "can't be read as a module" "^5 passed, 0 failed$" "!incremental=trusted"
echo "kept: $passed passed, $failed failed"
[ "$failed" -eq 0 ]
