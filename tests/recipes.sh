#!/bin/sh
# Runs the recipes of contrib/recipes over the program ORGQ, as it was last built where none is named: each whose programs are
# installed, over titles that are made to be run, taken for markup or written raw. What isn't installed is left out, and that is said.
# The last line counts.
#     tests/recipes.sh [ORGQ]
here=$(cd "$(dirname "$0")/.." && pwd)
orgq=${1:-$here/crates/orgq/out/orgq}
if [ ! -x "$orgq" ]; then
    echo "recipes: there is no program $orgq"
    echo "recipes: 0 passed, 1 failed"
    exit 1
fi
work=$(mktemp -d) || exit 2
trap 'rm -rf "$work"' EXIT
mkdir "$work/bin" "$work/home" "$work/room"
ln -s "$(cd "$(dirname "$orgq")" && pwd)/$(basename "$orgq")" "$work/bin/orgq"
unset ORGQ_FILES ORGQ_MENU ORGQ_OPEN ORGQ_SEVERITY SENDMAIL VISUAL NO_COLOR XDG_STATE_HOME
PATH=$work/bin:$here/contrib/recipes:$PATH HOME=$work/home XDG_CONFIG_HOME=$work/home LC_ALL=C.UTF-8
export PATH HOME XDG_CONFIG_HOME LC_ALL
cd "$work/room" || exit 2
passed=0
failed=0
at="2024-02-28 10:30"

# check NAME CMD..: whether it answers 0, and nothing was run meanwhile.
check() {
    name=$1
    shift
    if "$@" > "$work/said" 2>&1 && [ ! -e canary ]; then
        passed=$((passed + 1))
    else
        failed=$((failed + 1))
        echo "recipes: $name"
        sed 's/^/    /' "$work/said" | cat -v
        rm -f canary
    fi
}
is_here() {
    for program in "$@"; do
        command -v "$program" > /dev/null 2>&1 || { echo "recipes: $program isn't installed, and $recipe is left out"; return 1; }
    done
}
# A title with all that a shell, a bar or a terminal could take for more than text; and one that is plain.
title='a $(touch canary) `touch canary` "q" '\''r'\'' \n & <b> #[fg=red] %H'
printf '* TODO %s \033]0;own\007 <2024-02-28 Wed 10:35>\nbody $(touch canary) \033]0;own\007\n* TODO plain\n' "$title" > 'a file.org'

# The menu: the line that is chosen leads to its heading.
printf '#!/bin/sh\nprintf "%%s|" "$@" > "%s/opened"\n' "$work" > "$work/bin/opener"
printf '#!/bin/sh\ntee "%s/shown" | sed -n "$1p"\n' "$work" > "$work/bin/chooser"
chmod +x "$work/bin/opener" "$work/bin/chooser"
menu() {
    ORGQ_MENU="chooser $1" ORGQ_OPEN=opener orgq-menu -f 'a file.org' todo && cat "$work/opened" && [ "$(cat "$work/opened")" = "+$2|a file.org|" ]
}
check "the menu leads to a heading" menu 2 3
check "the menu leads to the first heading" menu 1 1
raw() { ! LC_ALL=C grep -q "$(printf '[\001-\010\013-\037]')" "$work/shown"; }
check "the menu is given no control character" raw
nothing() { rm -f "$work/opened"; ! ORGQ_MENU="chooser 9" ORGQ_OPEN=opener orgq-menu -f 'a file.org' todo && [ ! -e "$work/opened" ]; }
check "the menu without a choice opens nothing" nothing

# Presses keys in a program on a terminal.
press() { python3 "$here/tests/recipes/pick.py" "$work/screen" "$@"; }

# The bars.
waybar() {
    orgq-waybar --at "$at" -f 'a file.org' | TITLE=$title python3 -c '
import html, json, os, sys
row = json.load(sys.stdin)
print(row)
text = html.unescape(row["text"])
assert text == "10:35 " + os.environ["TITLE"] + " ^[]0;own^G", text
assert "<b>" not in row["text"] + row["tooltip"] and row["class"] == "next"
assert html.unescape(row["tooltip"]).startswith("10:35 a ")'
}
waybar_none() { [ "$(orgq-waybar --at "2024-02-28 12:00" -f 'a file.org')" != "" ] && orgq-waybar --at "2024-03-01 12:00" -f 'a file.org' | grep -F '"text": "", ' | grep -q '"class": "none"'; }
recipe=orgq-waybar
if is_here python3; then
    check "waybar is given an object with text alone" waybar
    check "waybar where nothing comes" waybar_none
fi
recipe=orgq-tmux
if is_here tmux python3; then
    bar() {
        printf 'set -g status-right-length 150\nset -g status-interval 1\nset -g status-right "#(orgq-tmux --at \\"%s\\" -f \\"a file.org\\")"\n' "$at" > "$work/tmux.conf"
        press '10:35' '' -- tmux -L "orgq-$$" -f "$work/tmux.conf" new-session 'stty cols 200; sleep 5'
        cat "$work/tmux.conf" "$work/screen"
        grep -qF '#[fg=red]' "$work/screen" && grep -qF '$(touch canary)' "$work/screen"
    }
    check "tmux shows the row as text" bar
fi

# The mail: the page, whole.
mail() {
    SENDMAIL="tee $work/mail" orgq-mail ann@example.org --at "$at" -f 'a file.org' > /dev/null || return 1
    sed '/^$/,$d' "$work/mail"
    grep -qx 'To: ann@example.org' "$work/mail" && orgq --at "$at" -f 'a file.org' page > "$work/page" &&
        sed '1,/^$/d' "$work/mail" | base64 -d | cmp - "$work/page"
}
check "the mail holds the page" mail
no_address() { for to in '' -x "$(printf 'a@b\nBcc: c@d')"; do ! SENDMAIL="touch canary" orgq-mail "$to" -f 'a file.org' || return 1; done; }
check "no address, no mail" no_address
no_page() { ! SENDMAIL="touch canary" orgq-mail a@b --at nonsense -f 'a file.org'; }
check "no page, no mail" no_page

# The hook: what would be committed counts.
recipe=pre-commit
if is_here git; then
    git init -q repo && cp "$here/contrib/recipes/pre-commit" repo/.git/hooks/pre-commit
    commit() { git -C repo -c user.name=a -c user.email=a@b commit -q -m x; }
    bad='* a\n\nDEADLINE: <2024-02-28 Wed>\n'
    hook() {
        printf "$bad" > 'repo/1:a $(touch canary).org' && git -C repo add -A && ! commit && printf '* a\n' > 'repo/1:a $(touch canary).org' && ! commit &&
            git -C repo add -A && commit && printf "$bad" > 'repo/1:a $(touch canary).org' && printf '* b\n' > repo/b.org && git -C repo add b.org && commit
    }
    check "the hook looks at what would be committed" hook
    names() { printf "$bad" > repo/b.org && git -C repo add b.org && ! commit 2> "$work/hook" && cat "$work/hook" && grep -q '^b.org:3:1: error: ' "$work/hook"; }
    check "the hook says what and where" names
fi

# The list in fzf: keys on a terminal.
recipe=orgq-pick
if is_here fzf python3; then
    opens() {
        printf '#!/bin/sh\nprintf "%%s|" "$@" > "%s/opened"\n' "$work" > "$work/bin/editor"
        chmod +x "$work/bin/editor"
        EDITOR=editor press 'plain' 'plain' '1/2' '\r' -- orgq-pick --at "$at" -f 'a file.org' todo && cat "$work/opened" && [ "$(cat "$work/opened")" = '+3|a file.org|' ]
    }
    check "enter opens the heading" opens
    shows() {
        press 'body' '\033' -- orgq-pick -f 'a file.org' todo
        grep -qF 'body $(touch canary)' "$work/screen" && ! grep -q "$(printf '\033]0;own')" "$work/screen"
    }
    check "the heading is shown as text" shows
    completes() {
        press 'plain' 'plain' '1/2' '\x04' -- orgq-pick -f 'a file.org' todo && sed -n 3p 'a file.org' && [ "$(sed -n 3p 'a file.org')" = '* DONE plain' ]
    }
    check "ctrl-d completes it" completes
    schedules() {
        press 'touch' '\x13' 'scheduled for' '2024-03-01\n' -- orgq-pick -f 'a file.org' todo && sed -n 2p 'a file.org' | grep -qx 'SCHEDULED: <2024-03-01 Fri>'
    }
    check "ctrl-s schedules it" schedules
    stale() {
        printf '* TODO one\n* TODO two\n' > b.org
        press '2/2' '' -- sh -c 'printf "#!/bin/sh\ncat > /dev/null; printf \"* TODO other\\n* TODO two\\n\" > b.org; printf \"ctrl-d\\n1\\tx\\n\"\n" > "$0/fzf"; chmod +x "$0/fzf"; orgq-pick -f b.org todo' "$work/bin"
        status=$?
        rm "$work/bin/fzf"
        cat b.org
        [ $status -eq 5 ] && [ "$(cat b.org)" = "$(printf '* TODO other\n* TODO two')" ]
    }
    check "a row that has changed is left alone" stale
fi
listed() {
    for file in "$here"/contrib/recipes/*; do
        name=$(basename "$file")
        [ "$name" = README.md ] || grep -qF "[\`$name\`]($name)" "$here/contrib/recipes/README.md" || { echo "$name"; return 1; }
    done
}
check "the page lists each recipe" listed
echo "recipes: $passed passed, $failed failed"
[ "$failed" -eq 0 ] && [ "$passed" -gt 0 ]
