#!/bin/sh
# SPDX-License-Identifier: Apache-2.0 OR MIT
# Packs what is installed into orgviews-VERSION-x86_64-linux.tar.xz, in this folder. What goes in is the same, so the archive
# is the same to the byte: names are sorted, times are the commit's, owner and modes are fixed. No file in it may hold the path
# of this folder.
cd "$(dirname "$0")/.." || exit 2
name=orgviews-$(cat VERSION)-x86_64-linux
time=${SOURCE_DATE_EPOCH:-$(git log -1 --format=%ct)}
if [ -z "$time" ]; then
    echo "orgviews: no commit says of when the archive is: set SOURCE_DATE_EPOCH" >&2
    exit 1
fi
work=$(mktemp -d) || exit 2
trap 'rm -rf "$work"' EXIT
LC_ALL=C
export LC_ALL
KEEP=no PROOF=yes sh contrib/install.sh add "$work/$name" || exit 1
install -m 644 README.md LICENSE "$work/$name/" || exit 1
found=$(grep -rlF "$(pwd -P)" "$work/$name")
if [ -n "$found" ]; then
    echo "orgviews: these hold the path of this folder:" >&2
    echo "$found" | sed "s,^$work/,," >&2
    exit 1
fi
(cd "$work/$name" && find . -type f ! -name SHA256SUMS | sed 's,^\./,,' | sort | xargs sha256sum > SHA256SUMS) || exit 1
tar -C "$work" --format=ustar --sort=name --mtime="@$time" --owner=0 --group=0 --numeric-owner --mode=u=rwX,go=rX \
    -cf "$work/$name.tar" "$name" || exit 1
xz --best --threads=1 "$work/$name.tar" && mv "$work/$name.tar.xz" . && sha256sum "$name.tar.xz"
