% bands-not-commutative.p
%
% Idempotent semigroups need not commute: two elements show it, while completion doesn't end.
%
% Status: Satisfiable
% Answer: ResourceOut
% Options: --budget 2000

cnf(associative, axiom, m(m(X,Y),Z) = m(X,m(Y,Z))).
cnf(idempotent, axiom, m(X,X) = X).
cnf(commutes, negated_conjecture, m(a,b) != m(b,a)).
