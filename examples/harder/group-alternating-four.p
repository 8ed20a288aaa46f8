% group-alternating-four.p
%
% The group of the rotations of a tetrahedron, by two generators: it isn't commutative.
%
% Source: H. S. M. Coxeter and W. O. J. Moser, Generators and Relations for Discrete Groups, 1957.
%
% Status: Satisfiable
% Options: --weights i=0 --precedence i

cnf(left_identity, axiom, m(e,X) = X).
cnf(left_inverse, axiom, m(i(X),X) = e).
cnf(associativity, axiom, m(m(X,Y),Z) = m(X,m(Y,Z))).
cnf(order_two, axiom, m(a,a) = e).
cnf(order_three, axiom, m(b,m(b,b)) = e).
cnf(product, axiom, m(a,m(b,m(a,m(b,m(a,b))))) = e).
cnf(commutes, negated_conjecture, m(a,b) != m(b,a)).
