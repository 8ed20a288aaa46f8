% group-exponent-three.p
%
% In a group of exponent three every commutator commutes with its members: [[x,y],y] = 1.
%
% Source: F. Levi and B. L. van der Waerden, Über eine besondere Klasse von Gruppen, 1933; the problem GRP002 of the
% TPTP library.
%
% Status: Unsatisfiable

cnf(left_identity, axiom, m(e,X) = X).
cnf(left_inverse, axiom, m(i(X),X) = e).
cnf(associativity, axiom, m(m(X,Y),Z) = m(X,m(Y,Z))).
cnf(exponent_three, axiom, m(X,m(X,X)) = e).
cnf(commutator, axiom, com(X,Y) = m(i(X),m(i(Y),m(X,Y)))).
cnf(engel, negated_conjecture, com(com(a,b),b) != e).
