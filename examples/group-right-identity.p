% group-right-identity.p
%
% In a group the left identity is a right identity.
%
% Status: Unsatisfiable

cnf(left_identity, axiom, m(e,X) = X).
cnf(left_inverse, axiom, m(i(X),X) = e).
cnf(associativity, axiom, m(m(X,Y),Z) = m(X,m(Y,Z))).
cnf(right_identity, negated_conjecture, m(a,e) != a).
