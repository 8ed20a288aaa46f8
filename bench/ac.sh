#!/usr/bin/env bash
# `uc prove` on four problems with associative and commutative symbols: an abelian group, a Boolean ring, a distributive lattice, and a
# ring, where the search finds the third equation by itself. A line for each and for each program tells how the search ends, its joins,
# the facts and pairs that came of them, and its processor seconds (the least of three runs): bench/ac.sh [PROGRAM..]. A search ends at
# the latest after 3,000 joins. Then `uc certify` on certificates whose axioms are joined by brackets and order: always 1,024,000
# occurrences of variables, in more and more of them a side, once as a list in another order under one symbol, once with two symbols that
# nest in turn, the arguments of each the other way round. Run it at the top of the repository, after the gate, which leaves the program
# in crates/uc_main/out, or with other programs as arguments.
set -euo pipefail
cd "$(dirname "$0")/.."
programs=("${@:-crates/uc_main/out/uc_main}")
top=$PWD
program_at() { (cd "$top" && realpath "$1"); }
folder=$(mktemp -d)
trap 'rm -rf "$folder"' EXIT
seconds() {
    for _ in 1 2 3; do
        (TIMEFORMAT='%U %S'; time "$@" >/dev/null 2>&1) 2>&1 | awk '{ printf "%.3f\n", $1 + $2 }'
    done | sort -g | head -1
}
for problem in bench/ac/abelian-four-elements.p bench/ac/ring-boolean-apart.p examples/lattice-distributive-cancels.p \
    examples/harder/ring-sums-of-squares.p; do
    read -ra options < <(sed -n 's/^% Options: //p' "$problem")
    for program in "${programs[@]}"; do
        "$program" prove --budget 3000 --trace "${options[@]}" "$problem" >"$folder/answer" || [ $? -le 2 ]
        awk -v problem="$problem" -v program="$program" -v t="$(seconds "$program" prove --budget 3000 "${options[@]}" "$problem")" '
            NR == 1 { status = $4 }
            / commit join [0-9]+ / { joins++ }
            / commit join [0-9]+ kept / { kept++ }
            / commit meet [0-9]+ pairs / { for (i = 1; i < NF; i++) if ($i == "pairs") pairs += $(i + 1) }
            END { printf "%s by %s: %s, %d joins, %d facts, %d pairs, %.2f s\n", problem, program, status, joins, kept, pairs, t }' "$folder/answer"
    done
done

# laws SYMBOL..: the three equations that make each symbol associative and commutative
laws() {
    for s; do
        printf 'cnf(%sc, axiom, %s(X,Y) = %s(Y,X)).\n' "$s" "$s" "$s"
        printf 'cnf(%sa, axiom, %s(%s(X,Y),Z) = %s(X,%s(Y,Z))).\n' "$s" "$s" "$s" "$s" "$s"
        printf 'cnf(%se, axiom, %s(X,%s(Y,Z)) = %s(Y,%s(X,Z))).\n' "$s" "$s" "$s" "$s" "$s"
    done
}
# large SHAPE VARIABLES: so many axioms with so many variables on each side that these occur 1,024,000 times in all
large() {
    awk -v shape="$1" -v n="$2" '
        function swap(i, j, x) { x = at[i]; at[i] = at[j]; at[j] = x }
        function side(turned, t, k, s) {
            t = "X" at[n]
            for (k = n - 1; k > 0; k--) {
                s = shape == "turns" ? substr("fg", k % 2 + 1, 1) : "f"
                t = turned && shape == "turns" ? s "(" t ",X" at[k] ")" : s "(X" at[k] "," t ")"
            }
            return t
        }
        BEGIN {
            for (a = 0; a < 512000 / n; a++) {
                for (k = 1; k <= n; k++) at[k] = k
                left = side(0)
                if (shape == "list") for (k = n; k > 1; k--) { x = (x * 1366 + 150889) % 714025; swap(k, 1 + x % k) }
                print "cnf(large, axiom, " left " = " side(1) ")."
            }
        }'
}
# what is certified of a small axiom is so of each: the lines of the certificate name the axioms by their numbers
for shape in list turns; do
    read -ra heads < <([ "$shape" = list ] && echo f || echo f g)
    first=$((3 * ${#heads[@]}))
    { laws "${heads[@]}"; large "$shape" 64 | sed -n 1p; } >"$folder/large.p"
    (cd "$folder" && "$(program_at "${programs[0]}")" prove --certificate large.p >first.c || [ $? -eq 1 ])
    for variables in 64 512 2000; do
        large "$shape" "$variables" >"$folder/axioms"
        awk -v first="$first" -v axioms="$(wc -l <"$folder/axioms")" '
            index($0, "join(axiom(" first ")") == 1 {
                behind = substr($0, length("join(axiom(" first ")") + 1)
                for (a = first; a < first + axioms; a++) print "join(axiom(" a ")" behind
                next
            }
            { print }' "$folder/first.c" >"$folder/large.c"
        { laws "${heads[@]}"; cat "$folder/axioms"; } >"$folder/large.p"
        for program in "${programs[@]}"; do
            answer=$(cd "$folder" && "$(program_at "$program")" certify large.p large.c)
            taken=$(cd "$folder" && seconds "$(program_at "$program")" certify large.p large.c)
            echo "$shape, $(wc -l <"$folder/axioms") axioms with $variables variables a side, by $program: $answer, $taken s"
        done
    done
done
