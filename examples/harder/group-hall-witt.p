% group-hall-witt.p
%
% The identity of Hall and Witt on the commutators of three elements of a group, [x,1/y,z]^y [y,1/z,x]^z [z,1/x,y]^x =
% 1.
%
% Source: P. Hall, A contribution to the theory of groups of prime-power order, 1934; E. Witt, Treue Darstellung
% Liescher Ringe, 1937.
%
% Status: Unsatisfiable
% Options: --order lpo --precedence e<m<i<com<con

cnf(left_identity, axiom, m(e,X) = X).
cnf(left_inverse, axiom, m(i(X),X) = e).
cnf(associativity, axiom, m(m(X,Y),Z) = m(X,m(Y,Z))).
cnf(commutator, axiom, com(X,Y) = m(i(X),m(i(Y),m(X,Y)))).
cnf(conjugate, axiom, con(X,Y) = m(i(Y),m(X,Y))).
cnf(hall_witt, negated_conjecture, m(con(com(com(x,i(y)),z),y),m(con(com(com(y,i(z)),x),z),con(com(com(z,i(x)),y),x))) != e).
