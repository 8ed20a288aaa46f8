#!/usr/bin/env bash
# A million adds and a million draws: crates/bench_queue beside the same work in plain Rust. Prints the processor seconds of each (the least of nine runs) and
# their ratio. Run it at the top of the repository, after `rt run` in crates/bench_queue.
set -euo pipefail
cd "$(dirname "$0")/.."
rust=$(mktemp)
trap 'rm -f "$rust"' EXIT
rustc --edition 2024 -O bench/queue.rs -o "$rust"
(cd crates/bench_queue && rt run >/dev/null 2>&1)
ours=crates/bench_queue/out/bench_queue
cmp <("$ours") <("$rust")
least() {
    for _ in 1 2 3 4 5 6 7 8 9; do
        (TIMEFORMAT=%U; time "$1" >/dev/null) 2>&1
    done | sort -n | head -1
}
a=$(least "$ours")
b=$(least "$rust")
echo "uc_queue $a s, BinaryHeap pair $b s, ratio $(awk -v a="$a" -v b="$b" 'BEGIN { printf "%.2f", a / b }')"
