#!/bin/sh
# Measures a program beside the same work in plain Rust, parts of the engine on their own, and both programs beside the limit.
# Prints the machine, its load, the commit and the kit first.
program=$(cd "$(dirname "$1")" && pwd)/$(basename "$1")
parts=$(cd "$(dirname "$2")" && pwd)/$(basename "$2")
orgq=$(cd "$(dirname "$3")" && pwd)/$(basename "$3")
cd "$(dirname "$0")/.." || exit 2
if ! command -v rustc > /dev/null; then
    echo "bench: rustc is needed for the program that orgviews is compared with"
    exit 2
fi
mkdir -p bench/out
rustc -O -o bench/out/bench bench/bench.rs && rustc -O -o bench/out/limit bench/limit.rs || exit 2
echo "machine: $(nproc) processors, $(sed -n 's/^model name.*: //p' /proc/cpuinfo | head -n 1), load $(cut -d' ' -f1 /proc/loadavg)"
echo "commit: $(git rev-parse --short HEAD 2>/dev/null), kit: $(rt version 2>/dev/null)"
bench/out/bench measure "$program" && bench/out/bench sizes "$program" && bench/out/bench memory "$program" && bench/out/bench kept "$program" && bench/out/bench days "$program" && bench/out/bench parts "$parts" "$program" && sh bench/limit.sh "$orgq" "$program" && sh bench/cold.sh "$orgq"
