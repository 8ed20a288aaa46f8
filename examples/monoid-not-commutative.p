% monoid-not-commutative.p
%
% In a monoid the product depends on the order of its factors: it doesn't follow that ab = ba.
%
% Status: Satisfiable

cnf(associativity, axiom, m(m(X,Y),Z) = m(X,m(Y,Z))).
cnf(left_identity, axiom, m(e,X) = X).
cnf(right_identity, axiom, m(X,e) = X).
cnf(commutativity, negated_conjecture, m(a,b) != m(b,a)).
