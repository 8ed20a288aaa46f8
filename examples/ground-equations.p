% ground-equations.p
%
% Equations between ground terms (congruence closure): five and three applications of f come back,
% so one does.
%
% Status: Unsatisfiable

cnf(five, axiom, f(f(f(f(f(a))))) = a).
cnf(three, axiom, f(f(f(a))) = a).
cnf(one, negated_conjecture, f(a) != a).
