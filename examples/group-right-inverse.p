% group-right-inverse.p
%
% In a group, given by left identity, left inverses and associativity, a left inverse is a right
% inverse.
%
% Status: Unsatisfiable

cnf(left_identity, axiom, m(e,X) = X).
cnf(left_inverse, axiom, m(i(X),X) = e).
cnf(associativity, axiom, m(m(X,Y),Z) = m(X,m(Y,Z))).
cnf(right_inverse, negated_conjecture, m(a,i(a)) != e).
