% ground-equations-apart.p
%
% Six and three applications of f come back; it doesn't follow that one does.
%
% Status: Satisfiable

cnf(six, axiom, f(f(f(f(f(f(a)))))) = a).
cnf(three, axiom, f(f(f(a))) = a).
cnf(one, negated_conjecture, f(a) != a).
