#!/usr/bin/env bash
# How long it takes to find a fact for a term: crates/bench_shelf beside the same tree, in the same segments, in plain Rust
# (bench/shelf_plain), over 100, 1,000 and 10,000 facts by chance. Prints the processor seconds to publish the facts, and the
# microseconds a term for the first fact of which it is an instance, and for all that is found made and then the first; the least of
# seven runs of each, turn by turn, less the same over no facts. Then the nanoseconds to tell that a front is the same as its copy.
# Run it at the top of the repository, after `rt run` in crates/bench_shelf.
set -euo pipefail
cd "$(dirname "$0")/.."
target=$(mktemp -d)
trap 'rm -rf "$target"' EXIT
(cd bench/shelf_plain && CARGO_TARGET_DIR="$target" cargo build --release --offline --quiet)
plain=$target/release/shelf_plain
ours=$PWD/crates/bench_shelf/out/bench_shelf
cmp <("$ours" 1000 500 500) <("$plain" 1000 500 500)
once() {
    (TIMEFORMAT=%U; time "$@" >/dev/null) 2>&1
}
# the least of seven runs of both, turn by turn
both() {
    local a=999 b=999 t
    for _ in 1 2 3 4 5 6 7; do
        t=$(once "$ours" "$@")
        a=$(printf '%s\n' "$a" "$t" | sort -g | head -1)
        t=$(once "$plain" "$@")
        b=$(printf '%s\n' "$b" "$t" | sort -g | head -1)
    done
    echo "$a $b"
}
read -r first_ours first_plain < <(both 0 0 400000)
read -r all_ours all_plain < <(both 0 40000 0)
for facts in 100 1000 10000; do
    echo "$facts $(both "$facts" 0 0) $(both "$facts" 0 400000) $(both "$facts" 40000 0)" |
        awk -v fo="$first_ours" -v fp="$first_plain" -v ao="$all_ours" -v ap="$all_plain" '{
            a = ($4 - $2 - fo) / 0.4; b = ($5 - $3 - fp) / 0.4; c = ($6 - $2 - ao) / 0.04; d = ($7 - $3 - ap) / 0.04
            printf "%d facts: published in %.3f s, plain %.3f s; the first %.2f us, plain %.2f us, ratio %.2f; all %.1f us, plain %.1f us, ratio %.2f\n", $1, $2, $3, a, b, a / b, c, d, c / d }'
done
for facts in 100 1000 10000; do
    echo "$facts $(once "$ours" "$facts" 0 0 0) $(once "$ours" "$facts" 0 0 20000000)" |
        awk '{ printf "%d facts: the same as a copy in %.1f ns\n", $1, ($3 - $2) * 50 }'
done
