% group-quaternion.p
%
% The group of the eight quaternion units, by two generators: it isn't commutative.
%
% Source: H. S. M. Coxeter and W. O. J. Moser, Generators and Relations for Discrete Groups, 1957.
%
% Status: Satisfiable
% Options: --weights i=0 --precedence i

cnf(left_identity, axiom, m(e,X) = X).
cnf(left_inverse, axiom, m(i(X),X) = e).
cnf(associativity, axiom, m(m(X,Y),Z) = m(X,m(Y,Z))).
cnf(squares, axiom, m(a,a) = m(b,b)).
cnf(turns, axiom, m(a,m(b,a)) = b).
cnf(commutes, negated_conjecture, m(a,b) != m(b,a)).
