#!/usr/bin/env bash
# Rewriting steps a second over the axioms of addition and multiplication, on products of two numerals: `normalise` in a loop
# (crates/bench_rewrite) beside Debian's Maude, which reduces the same term by the same rules in a loop (bench/peano.maude). Prints the
# steps of one round, the processor seconds of so many rounds of each, the least of five runs, turn by turn, and the ratio. Then, where the
# built program has it, the command `rewrite`, which prints each step's whole term. Run it at the top of the repository, after `rt run`
# in crates/bench_rewrite; it needs Debian's package maude.
set -euo pipefail
cd "$(dirname "$0")/.."
folder=$(mktemp -d)
trap 'rm -rf "$folder"' EXIT
(cd crates/bench_rewrite && rt run >/dev/null 2>&1) || true
ours=$PWD/crates/bench_rewrite/out/bench_rewrite
numeral() {
    awk -v n="$1" 'BEGIN { for (i = 0; i < n; i++) printf "s("; printf "zero"; for (i = 0; i < n; i++) printf ")" }'
}
seconds() {
    (TIMEFORMAT='%U %S'; time "$@" >"$folder/answer" 2>&1) 2>&1 | awk '{ printf "%.3f\n", $1 + $2 }'
}
least() {
    sort -g "$1" | head -1
}
# a product by Maude, a hundred times so often: its rewrites of one round, and its processor seconds
maude_of() {
    echo "red in AGAIN : many($(numeral 100), $(numeral "$3"), $(numeral "$1"), $(numeral "$2")) ." |
        cat bench/peano.maude - | maude -no-banner -no-advise 2>&1 |
        awk -v n="$3" '/^rewrites:/ { sub(/ms$/, "", $4); printf "%d %.3f\n", (($2 - 1) / 100 - 2 * n - 3) / n, $4 / 1000 }'
}
product() {
    local a=$1 b=$2 rounds=$3 theirs=$4 steps
    rm -f "$folder/ours" "$folder/maude"
    for _ in 1 2 3 4 5; do
        seconds "$ours" "$rounds" "$a" "$b" >>"$folder/ours"
        maude_of "$a" "$b" "$theirs" >"$folder/one"
        cut -d' ' -f2 "$folder/one" >>"$folder/maude"
    done
    steps=$(cut -d' ' -f1 "$folder/one")
    test "$(cut -d' ' -f1 "$folder/answer")" = "$steps"
    awk -v a="$a" -v b="$b" -v n="$steps" -v r="$rounds" -v x="$(least "$folder/ours")" -v q="$((theirs * 100))" -v y="$(least "$folder/maude")" 'BEGIN {
        u = n * r / x; m = n * q / y
        printf "%d by %d, %d steps: uc %d rounds in %.2f s, %.0f steps a second; Maude %d rounds in %.3f s, %.0f; ratio %.0f\n", a, b, n, r, x, u, q, y, m, m / u
    }'
}
product 5 5 10000 500
product 16 16 100 50
product 60 60 1 5
program=$PWD/crates/uc_main/out/uc_main
test -x "$program" || exit 0
options=(--order lpo --precedence 'zero<s<plus<times' --limit 1000000)
term="times($(numeral 60), $(numeral 60))"
term=${term// /}
for _ in 1 2 3; do
    seconds "$program" rewrite "${options[@]}" bench/peano.p "$term"
done >"$folder/program"
if test "$(tail -1 "$folder/answer")" = normal; then
    echo "uc rewrite of the last one: $(least "$folder/program") s for $(wc -c <"$folder/answer") bytes and $(($(wc -l <"$folder/answer") - 2)) steps"
else
    echo "the command rewrite isn't there: $(head -1 "$folder/answer" | cut -c1-80)"
fi
