% groups-exponent-three.p
%
% A group in which the third power of every element is the unit needn't be trivial: three elements show it, while completion doesn't
% end.
%
% Status: Satisfiable
% Answer: ResourceOut
% Options: --budget 2000

cnf(left_unit, axiom, m(e,X) = X).
cnf(left_inverse, axiom, m(i(X),X) = e).
cnf(associative, axiom, m(m(X,Y),Z) = m(X,m(Y,Z))).
cnf(exponent_three, axiom, m(X,m(X,X)) = e).
cnf(trivial, negated_conjecture, a != e).
