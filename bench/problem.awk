# A problem of n clauses, each of two terms of 75 symbols and variables, drawn by numbers that are the same in each run. Three of four clauses are axioms,
# the others goals.
function draw(bound) {
    x = x * 16807 % 2147483647
    return x % bound
}
function term(size,    part) {
    if (size <= 1)
        return draw(3) ? "constant_" draw(200) : "X" draw(9)
    if (size == 2)
        return "inverse(" term(1) ")"
    if (draw(3) == 0) {
        part = int((size - 1) / 3)
        return "select(" term(part) "," term(part) "," term(size - 1 - 2 * part) ")"
    }
    part = 1 + draw(size - 2)
    return "multiply(" term(part) "," term(size - 1 - part) ")"
}
BEGIN {
    x = 1
    for (k = 1; k <= n; k++)
        printf "cnf(clause_%d,%s,\n    ( %s\n    %s %s )).\n", k, k % 4 ? "axiom" : "negated_conjecture", term(75), k % 4 ? "=" : "!=", term(75)
}
