cnf(ax, axiom, f(a) = b).
cnf(g, negated_conjecture, f(a) != b).
