#!/bin/sh
# Runs the tests of the clients for Vim and Neovim over the programs ORGQ and ORGVIEWS (those that were built last where none is
# named): the quickfix commands in both editors, the views of the stream in Neovim. They run without a display and without a
# person's settings. An editor that isn't installed, or is too old, is left out, which the last line says; where both are the
# status is 0. The last line counts.
cd "$(dirname "$0")/.." || exit 2
whole() { echo "$(cd "$(dirname "$1")" 2> /dev/null && pwd)/$(basename "$1")"; }
ORGQ=$(whole "${1:-crates/orgq/out/orgq}")
ORGVIEWS=$(whole "${2:-crates/orgviews/out/orgviews}")
export ORGQ ORGVIEWS
unset ORGQ_FILES
for program in "$ORGQ" "$ORGVIEWS"; do
    if [ ! -x "$program" ]; then
        echo "vim: there is no program $program"
        echo "vim: 0 passed, 1 failed"
        exit 1
    fi
done
said=$(mktemp) || exit 2
trap 'rm -f "$said"' EXIT
passed=0
failed=0
left_out=""

# Runs the tests of a file in an editor, which prints its failures and then `N passed, N failed`: NAME COMMAND..
try() {
    name=$1
    shift
    timeout 300 "$@" > "$said" 2> /dev/null < /dev/null
    counts=$(sed -n 's/^\([0-9]*\) passed, \([0-9]*\) failed$/\1 \2/p' "$said")
    grep -v ' passed, [0-9]* failed$' "$said" | sed "s/^/$name: /"
    if [ -z "$counts" ]; then
        echo "$name: it didn't end"
        counts="0 1"
    fi
    passed=$((passed + ${counts% *}))
    failed=$((failed + ${counts#* }))
}

tests=clients/vim/tests
if vim -es -u NONE -i NONE -c 'if has("job") && has("patch-8.2.869") | qall | endif' -c cquit > /dev/null 2>&1 < /dev/null; then
    try "Vim, orgq" vim -es -u NONE -i NONE -S $tests/quickfix.vim
else
    echo "vim: Vim is left out, it is not installed, or older than 8.2.869 (on Debian: apt-get install vim)"
    left_out=Vim
fi
if nvim --headless -u NONE -i NONE -c 'if has("nvim-0.7") | qall | endif' -c cquit > /dev/null 2>&1 < /dev/null; then
    try "Neovim, orgq" nvim --headless -u NONE -i NONE -S $tests/quickfix.vim
    try "Neovim, orgviews" nvim --headless -u NONE -i NONE -S $tests/stream.lua
else
    echo "vim: Neovim is left out, it is not installed, or older than 0.7 (on Debian: apt-get install neovim)"
    left_out="${left_out:+$left_out, }Neovim"
fi
echo "vim: $passed passed${left_out:+ (without $left_out)}, $failed failed"
[ "$failed" -eq 0 ]
