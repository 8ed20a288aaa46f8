cnf(square, axiom, m(m(X,Y),m(Y,X)) = Y).
cnf(goal, negated_conjecture, m(a,a) != a).
