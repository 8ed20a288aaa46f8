cnf(ax1, axiom, f(a) = b).
cnf(ax2, axiom, f(b) = a).
cnf(goal, negated_conjecture, f(f(a)) != a).
