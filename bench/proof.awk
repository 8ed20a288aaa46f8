# A proof of n chain lines of about 2,000 bytes each, every one a replacement of `f(a)` by `b` under 66 functors, and a refutation of the problem's goal.
BEGIN {
    before = "f(a)"
    after = "b"
    for (k = 1; k <= 66; k++) {
        before = "g(" before ",c" k ")"
        after = "g(" after ",c" k ")"
        path = path (k > 1 ? "," : "") "1"
    }
    print "% SZS output start CNFRefutation for r1.p"
    print "cnf(ax, axiom, f(a) = b, file('r1.p', ax))."
    print "cnf(goal, negated_conjecture, f(a) != b, file('r1.p', g))."
    for (k = 1; k <= n; k++)
        printf "cnf(p%d, plain, %s = %s, inference(chain, [%s, step(ax, lr, [%s], %s)], [ax])).\n", k, before, after, before, path, after
    print "cnf(last, plain, f(a) = b, inference(chain, [f(a), step(ax, lr, [], b)], [ax]))."
    print "cnf(end, plain, $false, inference(refute, [], [goal, last]))."
    print "% SZS output end CNFRefutation for r1.p"
}
