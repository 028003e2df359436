#!/bin/sh
# SPDX-License-Identifier: Apache-2.0 OR MIT
# Prints one sum of all that a proof is of: the toolchain, the list of crates, the handles, and each file of a crate that is no
# output. The gate writes it, and contrib/proof.sh holds it beside what is packed.
cd "$(dirname "$0")/.." || exit 2
{
    rt version
    cat crates.txt HANDLES
    find crates -name out -prune -o -type f -print | LC_ALL=C sort | xargs sha256sum
} | sha256sum | cut -d ' ' -f 1
