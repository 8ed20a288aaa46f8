#!/usr/bin/env bash
# 10,000 questions by one certificate, `decide --system`, read from the command line: with 1, 2 and 4 workers in turn, the seconds of the
# clock (the least of three turns) and how many processors the run had, which tells what the ratio is worth where other work uses the
# machine. Beside it stand, which other work hardly changes, the processor seconds of the thread that took most, looked at each hundredth
# of a second: the first one, which reads and writes alone and answers a share of the questions. It is done for two sets of questions, half
# of each equal: whether two words of a group are equal, and whether a product of sums of natural numbers is a sum of products. Then four
# commands at once, each with a quarter of the questions and one worker: what the machine gives to four at once that share nothing. Last,
# for the words, the same without a step, which is what is done before and after the questions by one thread; the check of the certificate
# alone; and the same questions by `xargs`, by as many commands as it takes, and by a command for each of the first hundred.
# Run it at the top of the repository, after the gate, which leaves the program in crates/uc_main/out, or with another program as its
# first argument.
set -euo pipefail
cd "$(dirname "$0")/.."
program=$(realpath "${1:-crates/uc_main/out/uc_main}")
folder=$(mktemp -d)
trap 'rm -rf "$folder"' EXIT
# each second question is one whose sides are equal in the free group, by a pair of inverse letters
words_of_a_group() {
    awk -v questions=10000 -v letters=12 '
    function letter() { x = (x * 1366 + 150889) % 714025; return int(4 * x / 714025) }
    function spelled(k) { return k == 0 ? "a" : k == 1 ? "b" : k == 2 ? "i(a)" : "i(b)" }
    function comb(word, n, k, text) {
        text = spelled(word[1])
        for (k = 2; k <= n; k++) text = "m(" text "," spelled(word[k]) ")"
        return text
    }
    BEGIN {
        for (q = 0; q < questions; q++) {
            place = 2 + 3 * letter(); pair = letter(); n = 0
            for (k = 1; k <= letters; k++) {
                if (k == place) { other[++n] = pair; other[++n] = (pair + 2) % 4 }
                other[++n] = word[k] = letter()
            }
            if (q % 2) other[n] = (other[n] + 1) % 4
            print comb(word, letters) " = " comb(other, n)
        }
    }'
}
# each second question is one whose right side is larger by one product's factor
products_of_sums() {
    awk -v questions=10000 '
    function digit() { x = (x * 1366 + 150889) % 714025; return 2 + int(5 * x / 714025) }
    function number(n, k, text) {
        text = "zero"
        for (k = 0; k < n; k++) text = "s(" text ")"
        return text
    }
    BEGIN {
        for (q = 0; q < questions; q++) {
            a = number(digit()); b = number(digit()); n = digit()
            print "mul(" a ",add(" b "," number(n) ")) = add(mul(" a "," b "),mul(" a "," number(n + q % 2) "))"
        }
    }'
}
# the least seconds of the clock of three turns, and the processor seconds of that turn
timed() {
    for _ in 1 2 3; do
        (TIMEFORMAT='%R %U %S'; time "$@" >"$folder/answers" 2>"$folder/told") 2>&1 | awk '{ print $1, $2 + $3 }'
    done | sort -n | head -1
}
# the processor seconds of the thread that took most
longest() {
    python3 - "$@" <<'END'
import os, subprocess, sys, time

run = subprocess.Popen(sys.argv[1:], stdout=subprocess.DEVNULL)
took = {}
while run.poll() is None:
    for thread in os.listdir(f"/proc/{run.pid}/task"):
        try:
            with open(f"/proc/{run.pid}/task/{thread}/schedstat") as stat:
                took[int(thread)] = int(stat.read().split()[0]) / 1e9
        except OSError:
            pass
    time.sleep(0.01)
print(f"{max(took.values(), default=0):.3f}")
END
}
# four commands at once, each with every fourth question and one worker
quarters() {
    local k
    for k in 0 1 2 3; do
        local share=()
        local place
        for ((place = k; place < ${#questions[@]}; place += 4)); do share+=("${questions[place]}"); done
        "$program" decide --system "$folder/cert" "$problem" "${share[@]}" &
    done
    wait
}
# the questions of a set by 1, 2 and 4 workers
with_workers() {
    local one='' whole='' workers seconds used way
    problem=$2
    "$1" >"$folder/questions"
    mapfile -t questions <"$folder/questions"
    read -ra options < <(sed -n 's/^% Options: //p' "$problem"; echo)
    "$program" prove --certificate "${options[@]}" "$problem" >"$folder/cert" || [ $? -eq 1 ]
    echo "$1: ${#questions[@]} questions, $(wc -c <"$folder/questions") bytes, by a certificate of $(wc -c <"$folder/cert") bytes"
    for workers in 1 2 4; do
        read -r seconds used < <(timed "$program" decide --workers "$workers" --system "$folder/cert" "$problem" "${questions[@]}")
        test "$(cut -d ' ' -f 1 "$folder/answers" | uniq -c | awk '$1 != 1' | wc -l) $(grep -c '^equal' "$folder/answers") $(grep -c '^different' "$folder/answers")" = '0 5000 5000'
        one=${one:-$seconds}
        read -r way < <(longest "$program" decide --workers "$workers" --system "$folder/cert" "$problem" "${questions[@]}")
        whole=${whole:-$way}
        awk -v workers="$workers" -v t="$seconds" -v used="$used" -v one="$one" -v way="$way" -v whole="$whole" 'BEGIN {
            printf "%d workers: %.2f s, %.2f times as fast, with %.2f processors, %.2f processor seconds; ", workers, t, one / t, used / t, used
            printf "the thread that took most %.2f, %.2f times less\n", way, whole / way
        }'
    done
    read -r seconds used < <(timed quarters)
    awk -v t="$seconds" -v used="$used" -v one="$one" 'BEGIN {
        printf "four commands at once: %.2f s, %.2f times as fast, %.2f processor seconds\n", t, one / t, used
    }'
}
with_workers products_of_sums examples/arithmetic-times-not-five.p
with_workers words_of_a_group examples/group-not-commutative.p
read -r seconds used < <(timed "$program" decide --steps 0 --system "$folder/cert" "$problem" "${questions[@]}" || true)
echo "without a step: $seconds s"
read -r seconds used < <(timed "$program" certify "$problem" "$folder/cert")
echo "the certificate alone: $seconds s"
read -r seconds used < <(timed xargs -a "$folder/questions" -d '\n' "$program" decide --workers 4 --system "$folder/cert" "$problem")
echo "by xargs, 4 workers: $seconds s"
head -100 "$folder/questions" >"$folder/hundred"
read -r seconds used < <(timed xargs -a "$folder/hundred" -d '\n' -n 1 "$program" decide --system "$folder/cert" "$problem")
awk -v t="$seconds" 'BEGIN { printf "by a command a question: %.1f ms each, %.0f s for all\n", 10 * t, 100 * t }'
