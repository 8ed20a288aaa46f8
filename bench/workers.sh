#!/usr/bin/env bash
# How much faster `prove` ends with more workers: four problems, each three times with 1, 2 and 4 workers in turn, in seconds of the
# clock, the middle of the three, and how many times faster that is than with one worker. The ratios mean something only where nothing
# else uses the processors: beside each time stands how many processors the run had (its processor seconds for each second of the
# clock), and processor seconds themselves, which tell what more workers cost in all. Then, looked at each fiftieth of a second, how
# many of the workers could run and how many waited, which other work on the machine doesn't change. Where Debian's perf (linux-perf)
# is there, the share of the processor's time under the lock and in waiting for it follows. Run it at the top of the repository, after
# the gate, which leaves the program in crates/uc_main/out, or with another program as its first argument.
set -euo pipefail
cd "$(dirname "$0")/.."
program=${1:-$PWD/crates/uc_main/out/uc_main}
folder=$(mktemp -d)
trap 'rm -rf "$folder"' EXIT
# seconds of the clock, and of processors
timed() {
    (TIMEFORMAT='%R %U %S'; time "$@" >"$folder/answer" 2>"$folder/told") 2>&1 | awk '{ print $1, $2 + $3 }'
}
# the line in the middle of three
middle() {
    sort -g "$1" | sed -n 2p
}
search() {
    local problem=$1 one='' seconds used
    shift
    rm -f "$folder"/times-*
    for _ in 1 2 3; do
        for workers in 1 2 4; do
            timed "$program" prove --workers "$workers" "$@" "$problem" >>"$folder/times-$workers" || true
        done
    done
    for workers in 1 2 4; do
        read -r seconds used < <(middle "$folder/times-$workers")
        one=${one:-$seconds}
        awk -v problem="$problem" -v options="$*" -v workers="$workers" -v t="$seconds" -v used="$used" -v one="$one" -v all="$(awk '{ printf "%s%.1f", (NR > 1 ? ", " : ""), $1 }' "$folder/times-$workers")" -v status="$(awk 'NR == 1 { print $4 }' "$folder/answer")" '
            BEGIN { sub(".*/tmp[^/]*/", "", problem); printf "%s %s, %d workers: %s in %.1f s (%s), %.2f times as fast, with %.2f processors, %.1f processor seconds\n", problem, options, workers, status, t, all, one / t, used / t, used }'
    done
}
python3 bench/dihedral.py 24 >"$folder/dihedral-24.p"
at_once() {
    for _ in $(seq "$1"); do
        "$program" prove --budget 1000000 --pairs 8000000 "$folder/dihedral-24.p" >/dev/null &
    done
    wait
}
for commands in 1 2 4; do
    read -r seconds used < <(timed at_once "$commands")
    alone=${alone:-$seconds}
    awk -v n="$commands" -v t="$seconds" -v used="$used" -v one="$alone" 'BEGIN { printf "%d commands at once: %.1f s, %.2f times the work of one, %.1f processor seconds each\n", n, t, n * one / t, used / n }'
done
search examples/group-not-commutative.p --budget 180000
search examples/harder/ring-jacobi.p --budget 20000 --pairs 8000000
search bench/beside/ac.p --budget 25000 --pairs 8000000
python3 bench/dihedral.py 40 >"$folder/dihedral-40.p"
search "$folder/dihedral-40.p" --budget 1000000 --pairs 8000000
runnable() {
    python3 - "$@" <<'END'
import collections, os, subprocess, sys, time

search = subprocess.Popen(sys.argv[1:], stdout=subprocess.DEVNULL)
looks = collections.Counter()
while search.poll() is None:
    states = []
    for thread in os.listdir(f"/proc/{search.pid}/task"):
        try:
            with open(f"/proc/{search.pid}/task/{thread}/stat") as stat:
                states.append(stat.read().rsplit(")", 1)[1].split()[0])
        except OSError:
            pass
    looks[states.count("R")] += 1
    time.sleep(0.02)
total = sum(looks.values())
shares = ", ".join(f"{n} in {100 * looks[n] / total:.0f} %" for n in sorted(looks, reverse=True))
print(" ".join(sys.argv[2:]), f"- threads that could run: {shares} of {total} looks")
END
}
for workers in 2 4; do
    runnable "$program" prove --workers "$workers" --budget 6000 examples/harder/ring-jacobi.p
done
if command -v perf >/dev/null; then
    perf record -q -F 2000 --call-graph dwarf,8192 -o "$folder/perf" "$program" prove --workers 4 --budget 4000 examples/harder/loop-moufang.p >/dev/null 2>&1 || true
    perf report -q -i "$folder/perf" --children --stdio -g none 2>/dev/null | awk '
        /uc_book::book::Book::(draw|commit|reclaim)/ { sub(/%/, "", $1); locked += $1 }
        /sys_futex$/ { sub(/%/, "", $1); waits += $1 }
        END { printf "under the lock %.1f %% of the processor'"'"'s time, calls of the system to wait and to wake %.1f %%\n", locked, waits }'
fi
