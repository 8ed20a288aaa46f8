#!/usr/bin/env bash
# `uc show` of a problem of 10,000 clauses and 15 MB, and of one of half as many, beside `eprover --cnf -s --tstp-format`, which reads and prints the same
# clauses. Prints the processor seconds of each (the least of seven runs, in turn) and their ratio. Run it at the top of the repository, after `rt run` in
# crates/uc_main; it needs Debian's package eprover.
set -euo pipefail
cd "$(dirname "$0")/.."
folder=$(mktemp -d)
trap 'rm -rf "$folder"' EXIT
(cd crates/uc_main && rt run -- check data/r1.p data/r1.s >/dev/null 2>&1)
ours=crates/uc_main/out/uc_main
seconds() {
    (TIMEFORMAT='%U %S'; time "$@" >/dev/null 2>&1) 2>&1 | awk '{ printf "%.3f\n", $1 + $2 }'
}
for clauses in 5000 10000; do
    problem=$folder/$clauses.p
    awk -v n="$clauses" -f bench/problem.awk >"$problem"
    test "$("$ours" show "$problem" | wc -l)" = "$clauses"
    for _ in 1 2 3 4 5 6 7; do
        seconds "$ours" show "$problem" >>"$problem.ours"
        seconds eprover --cnf -s --tstp-format "$problem" >>"$problem.eprover"
    done
    a=$(sort -n "$problem.ours" | head -1)
    b=$(sort -n "$problem.eprover" | head -1)
    echo "$clauses clauses, $(wc -c <"$problem") bytes: uc $a s, eprover $b s, ratio $(awk -v a="$a" -v b="$b" 'BEGIN { printf "%.2f", a / b }')"
done
