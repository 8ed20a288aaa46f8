# Prints a problem of N ground equations by chance over a binary symbol, a unary one and constants, and a goal: awk -v n=N -f ground.awk
function below(m) { state = (state * 1103515245 + 12345) % 2147483648; return int(state / 65536) % m }
function term(depth) {
    if (depth == 0 || below(4) == 0) return "c" below(constants)
    if (below(3) == 0) return "g(" term(depth - 1) ")"
    return "f(" term(depth - 1) ", " term(depth - 1) ")"
}
BEGIN {
    state = 1; constants = 40
    for (i = 1; i <= n; i++) printf "cnf(e%d, axiom, %s = %s).\n", i, term(3), term(2)
    print "cnf(goal, negated_conjecture, c0 != k)."
}
