% lattice-idempotence.p
%
% In a lattice, given by commutativity, associativity and absorption, a join of a thing with itself is
% that thing.
%
% Status: Unsatisfiable

cnf(join_commutes, axiom, join(X,Y) = join(Y,X)).
cnf(meet_commutes, axiom, meet(X,Y) = meet(Y,X)).
cnf(join_associates, axiom, join(join(X,Y),Z) = join(X,join(Y,Z))).
cnf(meet_associates, axiom, meet(meet(X,Y),Z) = meet(X,meet(Y,Z))).
cnf(join_absorbs, axiom, join(X,meet(X,Y)) = X).
cnf(meet_absorbs, axiom, meet(X,join(X,Y)) = X).
cnf(idempotence, negated_conjecture, join(a,a) != a).
