#!/usr/bin/env bash
# How fast `prove` searches, on three problems of examples/: joins and formed pairs a second, from the history that --trace tells and the
# processor seconds of as many runs without it as are said, the least of five times. Then, where Debian's perf (linux-perf) is there, the
# share of the processor's time that goes into each phase, by the crate that a function is of. Run it at the top of the repository, after
# the gate, which leaves the program in crates/uc_main/out, or with another program as its first argument.
set -euo pipefail
cd "$(dirname "$0")/.."
program=${1:-$PWD/crates/uc_main/out/uc_main}
folder=$(mktemp -d)
trap 'rm -rf "$folder"' EXIT
seconds() {
    (TIMEFORMAT='%U %S'; time "$@" >"$folder/answer" 2>&1) 2>&1 | awk '{ printf "%.3f\n", $1 + $2 }'
}
# which phase the functions of a crate belong to
phases() {
    awk '{
        share = $1; sub(/%/, "", share); name = $0
        phase = "the rest"
        if (name ~ /uc_kbo|uc_lpo|uc_ordering|uc_order/) phase = "comparing"
        else if (name ~ /uc_unify::(unification|closure|sizes|solution)/) phase = "unifying"
        else if (name ~ /uc_unify|uc_fact/) phase = "matching"
        else if (name ~ /uc_rewrite/) phase = "normalising"
        else if (name ~ /uc_pair|uc_task/) phase = "overlaps"
        else if (name ~ /uc_ground/) phase = "ground joinability"
        else if (name ~ /uc_ac/) phase = "brackets and order"
        else if (name ~ /uc_shelf|uc_disc|boxcar/) phase = "fronts"
        else if (name ~ /uc_book|uc_rows|uc_queue|uc_ledger|uc_machine|uc_search/) phase = "the book"
        else if (name ~ /std_alloc|std_heap|malloc|free|realloc|libc::heap/) phase = "memory"
        else if (name ~ /memmove|memset|memcpy|memcmp/) phase = "copying and clearing"
        else if (name ~ /uc_term/) phase = "terms"
        sum[phase] += share
    } END { for (phase in sum) printf "  %5.1f %%  %s\n", sum[phase], phase }' | sort -rn
}
runs_of() {
    local runs=$1
    shift
    for _ in $(seq "$runs"); do
        "$program" prove "$@" || true
    done
}
search() {
    local runs=$1 problem=$2
    shift 2
    rm -f "$folder/times"
    for _ in 1 2 3 4 5; do
        seconds runs_of "$runs" "$@" "examples/$problem" >>"$folder/times"
    done
    "$program" prove --trace "$@" "examples/$problem" >"$folder/trace" || true
    awk -v problem="$problem" -v options="$*" -v runs="$runs" -v all="$(sort -g "$folder/times" | head -1)" '
        / commit join [0-9]+ / { joins++ }
        / commit meet [0-9]+ pairs [0-9]+ / { for (i = 1; i < NF; i++) if ($i == "pairs") pairs += $(i + 1) }
        / kept [0-9]+$/ { facts++ }
        NR == 1 { status = $4 }
        END { t = all / runs; printf "%s %s: %s, %d joins, %d facts, %d pairs in %.3f s: %.0f joins and %.0f pairs a second\n", problem, options, status, joins, facts, pairs, t, joins / t, pairs / t }' "$folder/trace"
    if command -v perf >/dev/null; then
        export -f runs_of
        program=$program perf record -q -F 5000 -o "$folder/perf" bash -c 'runs_of "$@"' _ "$runs" "$@" "examples/$problem" >/dev/null 2>&1 || true
        perf report -q -i "$folder/perf" --comms "$(basename "$program" | cut -c1-15)" --stdio --sort symbol 2>/dev/null | grep '%' | phases
    fi
}
search 20 boolean-double-complement.p
search 2 ring-zero.p
search 1 group-not-commutative.p --budget 1000
