% group-not-commutative.p
%
% Not every group is commutative. A complete system for groups is found under LPO with the inverse
% greatest; under KBO it needs the inverse with weight 0.
%
% Status: Satisfiable
% Options: --order lpo --precedence i

cnf(left_identity, axiom, m(e,X) = X).
cnf(left_inverse, axiom, m(i(X),X) = e).
cnf(associativity, axiom, m(m(X,Y),Z) = m(X,m(Y,Z))).
cnf(commutativity, negated_conjecture, m(a,b) != m(b,a)).
