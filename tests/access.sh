#!/bin/sh
# Tries what a program that changes files, ORGQ, leaves to others: who could not read or write a person's file can't after an
# act, and who could still can. With access lists on the file and on its folder, as root and as another user; with attributes;
# with pages that are made of files. With `all` also where each call on files fails, the program is killed before it, or another
# program writes then. It is tried by a user whom a list names, one of the file's group and one who is none of them. It wants to
# run as root, and setfacl, getfacl, setfattr, getfattr and setpriv: where one of these isn't to be had nothing is tried, and the
# last line, which counts, names it.
#     tests/access.sh ORGQ [all]
# To see it bite, let `give_owner_to` of org_save keep all bits of the mode.
here=$(cd "$(dirname "$0")" && pwd)
work=$(mktemp -d) || exit 2
trap 'rm -rf "$work"' EXIT
passed=0
failed=0
give_up() {
    echo "access: 0 passed, 1 failed: $1"
    exit 1
}
[ -x "$1" ] || give_up "there is no program $1"
missing=
for tool in setfacl getfacl setfattr getfattr setpriv; do
    command -v "$tool" > /dev/null || missing="$missing $tool"
done
[ "$(id -u)" -eq 0 ] || missing="$missing root"
if [ -n "$missing" ]; then
    echo "access: 0 passed (without$missing), 0 failed"
    exit 0
fi
cp "$1" "$work/orgq" && chmod 755 "$work" "$work/orgq"
shim=$(sh "$here/save/build.sh" "$work") || give_up "the shim of tests/save can't be built here"
chmod 755 "$shim"
cd "$work" || exit 2
unset ORGQ_FILES NO_COLOR TZ TZDIR XDG_STATE_HOME
HOME=$work/home XDG_CONFIG_HOME=$work/home/config
export HOME XDG_CONFIG_HOME
umask 022

# The person whose file it is, one whom a list lets in, one of the file's group, and one who is none of them.
person="setpriv --reuid 4001 --regid 4001 --clear-groups"
friend="setpriv --reuid 4002 --regid 4002 --clear-groups"
member="setpriv --reuid 4003 --regid 4001 --clear-groups"
stranger="setpriv --reuid 65534 --regid 65534 --clear-groups"

is() {
    if [ "$2" = "$3" ]; then
        passed=$((passed + 1))
    else
        failed=$((failed + 1))
        echo "access: $1: $2, and not $3: $(cat err 2> /dev/null)"
    fi
}

# Who may read, and who may write a file.
may() {
    for who in person friend member stranger; do
        eval "as=\$$who"
        $as sh -c 'if [ -r "$1" ]; then printf "%s " "$2"; fi; if [ -w "$1" ]; then printf "%s+ " "$2"; fi' sh "$1" "$who"
    done
}

# A folder of the person's with a file of a mode.
new() {
    rm -rf d
    mkdir d
    printf '* TODO One\nsecret\n' > d/a.org
    chown -R 4001:4001 d
    chmod 755 d
    chmod "$1" d/a.org
}

# What lists, attributes, owner, mode and number a file has.
state() {
    getfacl -cp "$1"
    getfattr -dm - "$1" 2> /dev/null
    stat -c '%u %g %a %i' "$1"
}

# Lets a file be done by root or by the person, with what is set before it.
put() {
    as=
    [ "$1" = root ] || as=$person
    shift
    (
        [ $# -eq 0 ] || export "$@"
        exec $as ./orgq --no-config --at "2024-02-28 10:30" done d/a.org:1
    ) > out 2> err
    status=$?
}

# Gives a file what it is to have, by the name of a case.
prepare() {
    case $1 in
        private) new 600 ;;
        shared) new 664 ;;
        open) new 644 ;;
        group) new 640 ;;
        friend)
            new 600
            setfacl -m u:4002:rw d/a.org
            ;;
        denied)
            new 644
            setfacl -m u:65534:- d/a.org
            ;;
        folder)
            new 640
            setfacl -m d:u:4002:r,d:u:65534:rw d
            ;;
        both)
            new 640
            setfacl -m d:u:65534:rw d
            setfacl -m u:4002:r,g::- d/a.org
            ;;
        named)
            new 600
            setfattr -n user.note -v kept d/a.org
            ;;
    esac
}

cases="private shared open group friend denied folder both named"
echo "access: an act that is done leaves all that lets others in, and nobody else"
for case in $cases; do
    for who in root person; do
        prepare "$case"
        before="$(state d/a.org) $(may d/a.org)"
        put "$who"
        is "$case by $who" "$status $(head -n 1 d/a.org) $(ls -A d)" "0 * DONE One a.org"
        is "$case by $who: what it has" "$(state d/a.org) $(may d/a.org)" "$before"
    done
done

# Whoever may read or write a file of the folder could read or write the one that was there.
opens_to_none() {
    for file in d/a.org d/.a.org.orgq d/.a.org.orgw d/a.org.orgq1; do
        [ -e "$file" ] || continue
        for can in $(may "$file"); do
            case " $before" in
                *" $can "*) ;;
                *)
                    is "$1: $file is open to $can" more "no more"
                    return
                    ;;
            esac
        done
    done
    passed=$((passed + 1))
}

echo "access: files that can't stay what they are are refused"
new 664
chown 4002:4001 d/a.org
before="$(state d/a.org)"
put person
is "a file of another owner" "$status $(state d/a.org) $(ls -A d) $(grep -c 'its owner is another one.*nothing was written' err)" "5 $before a.org 1"
for mode in 600 644; do
    new "$mode"
    cp -p d/a.org kept
    if mount --bind kept d/a.org 2> /dev/null; then
        put root
        is "a file of mode $mode that is mounted on its own" "$status $(head -n 1 kept) $(ls -A d) $(grep -c 'mounted on its own.*nothing was written' err)" "5 * TODO One a.org 1"
        umount d/a.org
    else
        echo "access: a file that is mounted on its own is left out, none can be made here"
    fi
done

if [ "$2" = all ]; then
    prepare both
    put root LD_PRELOAD="$shim" FILE_CALLS="$work/count"
    calls=$(cat count 2> /dev/null)
    [ "${calls:-0}" -gt 10 ] || give_up "no calls were counted"
    echo "access: each of $calls calls fails, or the program is killed before it, or another program writes then"
    for case in friend folder; do
        for how in fails killed writes; do
            call=0
            while [ "$call" -lt "$calls" ]; do
                call=$((call + 1))
                prepare "$case"
                before=$(may d/a.org)
                case $how in
                    fails) put root LD_PRELOAD="$shim" FILE_FAILS="$call" FILE_ERROR=5 ;;
                    killed) { put root LD_PRELOAD="$shim" FILE_FAILS="$call"; } 2> /dev/null ;;
                    writes) put root LD_PRELOAD="$shim" FILE_WRITES="$call" FILE_TARGET=d/a.org ;;
                esac
                opens_to_none "$case, call $call $how"
                # Where it is done and not said that others were shut out, they still can.
                if [ "$status" -eq 0 ] && ! grep -q 'its owner alone' err; then
                    is "$case, call $call $how: all that could still can" "$(may d/a.org)" "$before"
                fi
                # Root reads it still, and the next act finds nothing in its way.
                case $(head -n 1 d/a.org) in
                    '* TODO One' | '* DONE One') passed=$((passed + 1)) ;;
                    *) is "$case, call $call $how" "$(head -n 1 d/a.org)" "one of both" ;;
                esac
                put root
                is "$case, call $call $how, and then another" "$status" 0
                opens_to_none "$case, call $call $how, and then another"
            done
        done
    done

else
    echo "access: failing calls are left to: tests/access.sh ORGQ all"
fi

echo "access: pages are no more open than the most private file"
page() {
    "$@" ./orgq --no-config --at "2024-02-28 10:30" -f d page -o d/page.html > out 2> err
    status=$?
}
for case in "600 600" "640 600" "644 644" "664 644" "606 600" "666 644"; do
    new "${case% *}"
    page $person
    is "a page of ${case% *}" "$status $(stat -c %a d/page.html) $(ls -A d)" "0 ${case#* } a.org
page.html"
done
new 644
printf '* Two\n' > d/b.org
chown 4001:4001 d/b.org
chmod 600 d/b.org
page $person
is "a page of an open file and a private one" "$status $(stat -c %a d/page.html)" "0 600"
chmod 644 d/page.html
page $person
is "an open page gets a private text" "$status $(stat -c %a d/page.html)" "0 600"
chmod 644 d/b.org
page $person
is "a private page stays private" "$status $(stat -c %a d/page.html)" "0 600"
chmod 644 d/page.html
page $person
is "an open page of open files stays open" "$status $(stat -c %a d/page.html)" "0 644"
prepare folder
page $person
is "a folder's list lets nobody into a page" "$status $(may d/page.html)" "0 person person+ "
prepare friend
page $person
is "a file's list lets no group into a page" "$status $(may d/page.html)" "0 person person+ "
new 644
$person ./orgq --no-config --at "2024-02-28 10:30" -f - page -o d/page.html < d/a.org > out 2> err
is "a page of standard input" "$? $(stat -c %a d/page.html)" "0 600"

echo "access: $passed passed, $failed failed"
[ "$failed" -eq 0 ] && [ "$passed" -gt 0 ]
