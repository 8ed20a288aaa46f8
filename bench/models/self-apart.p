cnf(g, negated_conjecture, a != a).
