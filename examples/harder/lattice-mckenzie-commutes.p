% lattice-mckenzie-commutes.p
%
% Four identities of absorption are a basis of lattices; here that the join commutes.
%
% Source: R. N. McKenzie, Equational bases for lattice theories, Mathematica Scandinavica 27, 1970.
%
% Status: Unsatisfiable

cnf(first, axiom, join(Y,meet(X,meet(Y,Z))) = Y).
cnf(second, axiom, meet(Y,join(X,join(Y,Z))) = Y).
cnf(third, axiom, join(join(meet(X,Y),meet(Y,Z)),Y) = Y).
cnf(fourth, axiom, meet(meet(join(X,Y),join(Y,Z)),Y) = Y).
cnf(commutes, negated_conjecture, join(a,b) != join(b,a)).
