#!/usr/bin/env bash
# How fast `prove` searches beside a plain program that makes the same search: bench/beside.sh UC PLAIN [SECONDS [BUDGET..]]. Both run
# on eight problems with a budget of 1,000, 5,000 and 20,000 joins, or of BUDGET.., three times in turn, and a line each tells the joins
# that were made, how many joins and pairs each of them makes a second in processor seconds, its memory in MB, and by how much UC is
# slower; of the three times the least counts. A run of UC that takes more than SECONDS (300) is left out, and so are the larger budgets
# of that problem. The joins and pairs are counted in the history that PLAIN tells; `cmp` on small budgets shows that UC tells the same.
# Wants GNU time. Run it at the top of the repository.
set -euo pipefail
cd "$(dirname "$0")/.."
if [ $# -lt 2 ]; then
    sed -n '2s/^# //p' "$0"
    exit 1
fi
uc=$1
plain=$2
most=${3:-300}
budgets=("${@:4}")
[ $# -gt 3 ] || budgets=(1000 5000 20000)
folder=$(mktemp -d)
trap 'rm -rf "$folder"' EXIT
awk -v n=4000 -f bench/ground.awk >"$folder/ground.p"
limits="--pairs 8000000"
# seconds for each of so many runs, and MB: timed RUNS PROGRAM BUDGET FILE
timed() {
    local runs=$1 program=$2 budget=$3 file=$4
    # shellcheck disable=SC2016,SC2086
    /usr/bin/time -f '%U %S %M' -o "$folder/time" timeout "$most" bash -c '
        for _ in $(seq "$1"); do "$2" prove $5 --budget "$3" "$4" >/dev/null || [ $? -lt 3 ] || exit 1; done' _ \
        "$runs" "$program" "$budget" "$file" "$limits" 2>/dev/null || return 1
    tail -1 "$folder/time" | awk -v runs="$runs" '{ printf "%.5f %.0f\n", ($1 + $2) / runs, $3 / 1024 }'
}
# the joins and the pairs of a search
counted() {
    # shellcheck disable=SC2086
    { "$plain" prove --trace $limits --budget "$1" "$2" || true; } | awk '
        / commit join [0-9]+ / { joins++ }
        / commit meet [0-9]+ pairs [0-9]+ / { for (i = 1; i < NF; i++) if ($i == "pairs") pairs += $(i + 1) }
        END { print joins + 0, pairs + 0 }'
}
printf '%-14s %7s %7s %9s | %9s %9s %5s | %9s %9s %5s | %6s\n' problem budget joins pairs "joins/s" "pairs/s" MB "joins/s" "pairs/s" MB slower
while read -r name file; do
    for budget in "${budgets[@]}"; do
        read -r joins pairs < <(counted "$budget" "$file")
        rm -f "$folder/ours" "$folder/theirs"
        for _ in 1 2 3; do
            timed 1 "$uc" "$budget" "$file" >>"$folder/ours" || break
            timed 5 "$plain" "$budget" "$file" >>"$folder/theirs"
        done
        [ -s "$folder/ours" ] || { printf '%-14s %7d   more than %s s\n' "$name" "$budget" "$most"; break; }
        echo "$name $budget $joins $pairs $(sort -g "$folder/ours" | head -1) $(sort -g "$folder/theirs" | head -1)" | awk '{
            t = $5 > 0 ? $5 : 0.001; u = $7 > 0 ? $7 : 0.001
            printf "%-14s %7d %7d %9d | %9.0f %9.0f %5d | %9.0f %9.0f %5d | %6.1f\n", $1, $2, $3, $4, $3 / t, $4 / t, $6, $3 / u, $4 / u, $8, t / u }'
        [ "$joins" -ge "$((budget * 9 / 10))" ] || break
    done
done <<END
groups examples/group-not-commutative.p
rings examples/harder/ring-derivation.p
lattices examples/harder/lattice-median.p
boolean bench/beside/robbins.p
combinators bench/beside/combinators.p
ac bench/beside/ac.p
words examples/harder/words-heisenberg.p
ground $folder/ground.p
END
