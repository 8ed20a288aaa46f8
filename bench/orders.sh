#!/usr/bin/env bash
# Ten million comparisons under either order of the pairs of terms that completing the axioms of groups meets
# (crates/bench_orders/data/group_pairs, made by bench/pairs.py): crates/bench_orders beside the same algorithms in plain Rust
# (bench/orders_plain). Prints the processor seconds of each, the least of nine runs, and their ratio. Then deep terms of both orders, of
# so many levels and of twice as many, and combs with a variable of its own in each level. Run it at the top of the repository, after
# `rt run` in crates/bench_orders.
set -euo pipefail
cd "$(dirname "$0")/.."
target=$(mktemp -d)
trap 'rm -rf "$target"' EXIT
(cd bench/orders_plain && CARGO_TARGET_DIR="$target" cargo build --release --offline --quiet)
plain=$target/release/orders_plain
(cd crates/bench_orders && rt run >/dev/null 2>&1) || true
ours=$PWD/crates/bench_orders/out/bench_orders
cd crates/bench_orders/data
cmp <(python3 ../../../bench/pairs.py) group_pairs
cmp <("$ours" 1 1) <("$plain" 1 1)
once() {
    (TIMEFORMAT=%U; time "$@" >/dev/null) 2>&1
}
ratio() {
    awk -v a="$1" -v b="$2" 'BEGIN { printf "%.2f", a / b }'
}
# the least of nine runs of two programs, turn by turn, since the machine may be busy
beside() {
    local mine other a=999 b=999 t
    read -r -a mine <<<"$2"
    read -r -a other <<<"$4"
    for _ in 1 2 3 4 5 6 7 8 9; do
        t=$(once "${mine[@]}")
        a=$(printf '%s\n' "$a" "$t" | sort -g | head -1)
        t=$(once "${other[@]}")
        b=$(printf '%s\n' "$b" "$t" | sort -g | head -1)
    done
    echo "$1 $a s, $3 $b s, ratio $(ratio "$a" "$b")"
}
beside "uc_kbo" "$ours 31250 0" "plain Rust" "$plain 31250 0"
beside "uc_lpo" "$ours 0 31250" "plain Rust" "$plain 0 31250"
beside "uc_kbo, 400,000 levels" "$ours 0 0 400000 0" "half as many" "$ours 0 0 200000 0"
beside "uc_kbo, 2,000 variables" "$ours 0 0 0 0 2000" "half as many" "$ours 0 0 0 0 1000"
beside "uc_lpo, 400,000 levels" "$ours 0 0 0 400000" "half as many" "$ours 0 0 0 200000"
beside "uc_lpo, 2,000 variables" "$ours 0 0 0 0 0 2000" "half as many" "$ours 0 0 0 0 0 1000"
# the largest terms that are compared, 16,777,216 nodes, with a stack of 256 kB
(ulimit -s 256 && "$ours" 0 0 0 8388607 >/dev/null)
echo "uc_lpo, 8,388,607 levels, 256 kB of stack: ended"
