#!/usr/bin/env bash
# Ground joinability over an associative and commutative symbol: the 120 arrangements of five variables, for each of which both sides
# are normalised under all 541 orders of the variables (crates/bench_ground). Prints the pairs a second, by the least processor
# seconds of five runs. Run it at the top of the repository, after `rt run` in crates/bench_ground.
set -euo pipefail
cd "$(dirname "$0")/.."
(cd crates/bench_ground && rt run >/dev/null 2>&1) || true
ours=$PWD/crates/bench_ground/out/bench_ground
test "$("$ours" 120)" = "120 of 120"
once() {
    (TIMEFORMAT=%U; time "$@" >/dev/null) 2>&1
}
least=999
for _ in 1 2 3 4 5; do
    t=$(once "$ours" 120)
    least=$(printf '%s\n' "$least" "$t" | sort -g | head -1)
done
awk -v t="$least" 'BEGIN { printf "uc_ground: 120 pairs of five variables in %s s, %.0f pairs a second\n", t, 120 / t }'
