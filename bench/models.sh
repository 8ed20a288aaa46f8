#!/usr/bin/env bash
# How many prefixes `model` visits a second: the axioms of groups with a goal that no table of size 5 is against
# (bench/models/group-commutative.p), at size 5. Beside it run two programs that follow the definition to the letter and try each prefix
# anew on every assignment of every clause: bench/models_plain, compiled Rust, over the same prefixes, and bench/models.py, interpreted
# Python, over the first 20,000 of them. Prints processor seconds, the least of five runs turn by turn (of the last, one run), the paces
# and their ratios. That all three visit the same number of prefixes of each smaller size is compared first. Run it at the top of the
# repository, after `rt run` in crates/uc_main.
set -euo pipefail
cd "$(dirname "$0")/.."
target=$(mktemp -d)
trap 'rm -rf "$target"' EXIT
(cd bench/models_plain && CARGO_TARGET_DIR="$target" cargo build --release --offline --quiet)
plain=$target/release/models_plain
ours=$PWD/crates/uc_main/out/uc_main
problem=bench/models/group-commutative.p
# the prefixes of the sizes up to 4, and so many more of size 5
first=159597
more=1000000
cmp <("$plain" "$problem" 3) <(python3 bench/models.py "$problem" 3 2>/dev/null)
"$plain" "$problem" 4 "$first" | grep -qx none
[ "$("$ours" model --budget "$first" "$problem")" = "% none up to 4" ]
once() {
    (TIMEFORMAT=%U; time "$@" >/dev/null 2>&1 || true) 2>&1
}
least() {
    printf '%s\n' "$@" | sort -g | head -1
}
a=999 b=999 c=999 d=999
for _ in 1 2 3 4 5; do
    a=$(least "$a" "$(once "$ours" model --size 5 --budget "$first" "$problem")")
    b=$(least "$b" "$(once "$ours" model --size 5 --budget "$((first + more))" "$problem")")
    c=$(least "$c" "$(once "$plain" "$problem" 5 "$first")")
    d=$(least "$d" "$(once "$plain" "$problem" 5 "$((first + more))")")
done
e=$(once python3 bench/models.py "$problem" 5 20000 5)
echo "$a $b $c $d $e" | awk -v n="$more" '{
    x = n / ($2 - $1); y = n / ($4 - $3); z = 20000 / $5
    printf "model %.3f s, %d prefixes a second\n", $2 - $1, x
    printf "plain Rust %.3f s, %d prefixes a second, ratio %.1f\n", $4 - $3, y, x / y
    printf "plain Python, 20000 prefixes, %.3f s, %d a second, ratio %.0f\n", $5, z, x / z }'
