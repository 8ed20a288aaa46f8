cnf(ax, axiom, f(b) = c).
cnf(g, negated_conjecture, f(X) != a).
