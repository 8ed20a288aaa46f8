#!/usr/bin/env bash
# `uc check` of a proof of 100,000 chain lines and about 200 MB, and of one of half as many. Prints the processor seconds of each (the least of three runs), and
# how much longer a byte of the longer one takes. Run it at the top of the repository, after `rt run` in crates/uc_main.
set -euo pipefail
cd "$(dirname "$0")/.."
folder=$(mktemp -d)
trap 'rm -rf "$folder"' EXIT
(cd crates/uc_main && rt run -- check data/r1.p data/r1.s >/dev/null 2>&1)
ours=$PWD/crates/uc_main/out/uc_main
cp crates/uc_main/data/r1.p "$folder"
cd "$folder"
seconds() {
    (TIMEFORMAT='%U %S'; time "$@" >/dev/null 2>&1) 2>&1 | awk '{ printf "%.3f\n", $1 + $2 }'
}
for lines in 50000 100000; do
    awk -v n="$lines" -f "$OLDPWD/bench/proof.awk" >"$lines.s"
    test "$("$ours" check r1.p "$lines.s")" = accepted
    for _ in 1 2 3; do
        seconds "$ours" check r1.p "$lines.s"
    done | sort -n | head -1 >"$lines.least"
    echo "$lines lines, $(wc -c <"$lines.s") bytes: $(cat "$lines.least") s"
done
awk -v a="$(cat 100000.least)" -v b="$(cat 50000.least)" -v c="$(wc -c <100000.s)" -v d="$(wc -c <50000.s)" 'BEGIN { printf "a byte of the longer one takes %.2f times as long\n", a / c / (b / d) }'
