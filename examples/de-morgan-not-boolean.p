% de-morgan-not-boolean.p
%
% A De Morgan algebra needn't be a Boolean one: in one with three elements the middle one and its complement don't join to what the
% others and theirs do.
%
% Status: Satisfiable
% Answer: ResourceOut
% Options: --budget 2000

cnf(join_commutes, axiom, join(X,Y) = join(Y,X)).
cnf(join_associates, axiom, join(X,join(Y,Z)) = join(join(X,Y),Z)).
cnf(join_absorbs, axiom, join(X,meet(X,Y)) = X).
cnf(distributes, axiom, meet(X,join(Y,Z)) = join(meet(Z,X),meet(Y,X))).
cnf(involution, axiom, not(not(X)) = X).
cnf(de_morgan, axiom, not(join(X,Y)) = meet(not(X),not(Y))).
cnf(excluded_middle, negated_conjecture, join(a,not(a)) != join(b,not(b))).
