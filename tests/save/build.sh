#!/bin/sh
# Builds the shim into a folder, with the kit's own compiler, and prints where it stands. It wants Linux and glibc, as the
# program does; where it can't be built this fails.
here=$(cd "$(dirname "$0")" && pwd)
clang=$(dirname "$(rt doc)")/toolchain/bin/clang
"$clang" -shared -fPIC -O1 -Wall -Werror -fuse-ld=lld -o "$1/shim.so" "$here/shim.c" >&2 && echo "$1/shim.so"
