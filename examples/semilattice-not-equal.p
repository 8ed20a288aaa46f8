% semilattice-not-equal.p
%
% In a semilattice, a join of two things needn't be one of them.
%
% Status: Satisfiable

cnf(join_commutes, axiom, join(X,Y) = join(Y,X)).
cnf(join_associates, axiom, join(join(X,Y),Z) = join(X,join(Y,Z))).
cnf(idempotence, axiom, join(X,X) = X).
cnf(first, negated_conjecture, join(a,b) != a).
