#!/usr/bin/env bash
# `uc certify` beside `uc prove --certificate` on three problems: the bytes of the certificate and its joins, the processor seconds of
# each (the least of three runs), and how many bytes a second are checked. Run it at the top of the repository, after the gate, which
# leaves the program in crates/uc_main/out, or with another program as its first argument.
set -euo pipefail
cd "$(dirname "$0")/.."
program=$(realpath "${1:-crates/uc_main/out/uc_main}")
folder=$(mktemp -d)
trap 'rm -rf "$folder"' EXIT
seconds() {
    for _ in 1 2 3; do
        (TIMEFORMAT='%U %S'; time "$@" >/dev/null 2>&1) 2>&1 | awk '{ printf "%.3f\n", $1 + $2 }'
    done | sort -n | head -1
}
for problem in examples/harder/group-alternating-four.p examples/harder/group-quaternion.p examples/semilattice-not-equal.p; do
    read -ra options < <(sed -n 's/^% Options: //p' "$problem"; echo)
    "$program" prove --certificate "${options[@]}" "$problem" >"$folder/cert" || [ $? -eq 1 ]
    test "$("$program" certify "$problem" "$folder/cert")" = certified
    sed -i -n '/^% certificate /,$p' "$folder/cert"
    awk -v problem="$problem" -v bytes="$(wc -c <"$folder/cert")" -v joins="$(grep -c '^join(' "$folder/cert")" \
        -v prove="$(seconds "$program" prove "${options[@]}" "$problem")" \
        -v both="$(seconds "$program" prove --certificate "${options[@]}" "$problem")" \
        -v certify="$(seconds "$program" certify "$problem" "$folder/cert")" '
        BEGIN { printf "%s: %d bytes, %d joins; prove %.2f s, with the certificate %.2f s, certify %.2f s, %.1f MB a second\n", problem, bytes, joins, prove, both, certify, bytes / certify / 1e6 }'
done
