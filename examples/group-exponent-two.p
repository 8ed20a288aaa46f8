% group-exponent-two.p
%
% A group in which every square is the identity is commutative.
%
% Status: Unsatisfiable

cnf(left_identity, axiom, m(e,X) = X).
cnf(left_inverse, axiom, m(i(X),X) = e).
cnf(associativity, axiom, m(m(X,Y),Z) = m(X,m(Y,Z))).
cnf(exponent_two, axiom, m(X,X) = e).
cnf(commutativity, negated_conjecture, m(a,b) != m(b,a)).
