#!/bin/sh
# SPDX-License-Identifier: Apache-2.0 OR MIT
# install.sh add ROOT     puts the files of contrib/files.sh under ROOT, in place of those that an earlier call put there. What it
#                         put and which folders it made stands in ROOT/share/orgviews/installed; with KEEP=no that isn't written,
#                         for a tree that is packed.
# install.sh remove ROOT  takes away what stands in that list, a folder only if nothing else is in it.
here=$(dirname "$0")
root=${2:?install.sh add or remove, and a folder}
kept=share/orgviews/installed

# Makes a folder of ROOT and those above it that aren't there, and notes each.
folder() {
    if [ ! -d "$root/$1" ]; then
        case $1 in */*) folder "${1%/*}" || return 1 ;; esac
        mkdir "$root/$1" && echo "folder $1" >> "$work/noted"
    fi
}

put_all() {
    while read -r mode from to; do
        folder "${to%/*}" && install -m "$mode" "$here/../$from" "$root/$to" || return 1
        echo "file $to" >> "$work/noted"
    done < "$work/files"
}

add() {
    sh "$here/files.sh" > "$work/files" && mkdir -p "$root" || return 1
    [ "$KEEP" = no ] || [ ! -f "$root/$kept" ] || remove || return 1
    : > "$work/noted"
    put_all
    status=$?
    # Also where a file couldn't be put, so that what was put can be taken away.
    [ "$KEEP" = no ] || { folder "${kept%/*}" && cp "$work/noted" "$root/$kept"; } || return 1
    return $status
}

remove() {
    if [ ! -f "$root/$kept" ]; then
        echo "orgviews: nothing that make install put there stands under $root" >&2
        return 1
    fi
    # Names in falling order: what is in a folder goes before it.
    LC_ALL=C sort -r "$root/$kept" | grep -v -e '\.\.' -e '^[a-z]* /' > "$work/list"
    while read -r kind name; do
        [ "$kind" != file ] || rm -f "$root/$name" || return 1
    done < "$work/list"
    rm -f "$root/$kept" || return 1
    while read -r kind name; do
        [ "$kind" != folder ] || rmdir "$root/$name" 2> /dev/null
    done < "$work/list"
    return 0
}

umask 022
work=$(mktemp -d) || exit 2
trap 'rm -rf "$work"' EXIT
case $1 in
    add | remove) "$1" ;;
    *) echo "install.sh add or remove, and a folder" >&2; exit 2 ;;
esac
