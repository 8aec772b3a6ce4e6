#!/bin/sh
# Instructions for 4,096 pushes and then 4,096 pops: the proved pairing heap against the standard library's binary heap, on the
# same numbers. Not counted are the memory for either: a local array that is set to 0 (memset), and a vector made before.
# Needs rustc and valgrind. Nothing here is part of the gate.
set -e
cd "$(dirname "$0")/.."
mkdir -p target
(cd crates/bench_heap && rt lib) > target/bench-heap.log 2>&1
rustc --edition 2024 -O -L native=crates/bench_heap/out -l static=bench_heap bench/heap.rs -o target/bench-heap
counted() {
    valgrind --tool=callgrind --callgrind-out-file=target/bench-heap.out --collect-atstart=no --toggle-collect="measured_$1" \
        target/bench-heap "$1" "$2" > /dev/null 2>&1
    callgrind_annotate --threshold=100 target/bench-heap.out |
        awk '/file:function/ { on = 1 } on && / [^ ]*:[^ ]/ && !/memset/ { gsub(",", "", $1); sum += $1 } END { print sum }'
}
printf '%-12s %12s %12s %8s\n' order pairing binary ratio
for order in ascending descending random; do
    p=$(counted pairing "$order")
    b=$(counted binary "$order")
    printf '%-12s %12s %12s %8s\n' "$order" "$p" "$b" "$(awk "BEGIN { printf \"%.2f\", $p / $b }")"
done
