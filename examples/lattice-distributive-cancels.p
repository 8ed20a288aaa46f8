% lattice-distributive-cancels.p
%
% In a distributive lattice two elements are equal whose joins with a third one are equal, and whose meets with it are too. The third
% equations of join and of meet follow from the first two, and make both known as associative and commutative from the start.
%
% Status: Unsatisfiable
% Options: --order lpo

cnf(join_associates, axiom, join(join(X,Y),Z) = join(X,join(Y,Z))).
cnf(join_commutes, axiom, join(X,Y) = join(Y,X)).
cnf(join_exchanges, axiom, join(X,join(Y,Z)) = join(Y,join(X,Z))).
cnf(meet_associates, axiom, meet(meet(X,Y),Z) = meet(X,meet(Y,Z))).
cnf(meet_commutes, axiom, meet(X,Y) = meet(Y,X)).
cnf(meet_exchanges, axiom, meet(X,meet(Y,Z)) = meet(Y,meet(X,Z))).
cnf(join_repeats, axiom, join(X,X) = X).
cnf(meet_repeats, axiom, meet(X,X) = X).
cnf(join_absorbs, axiom, join(X,meet(X,Y)) = X).
cnf(meet_absorbs, axiom, meet(X,join(X,Y)) = X).
cnf(distributes, axiom, meet(X,join(Y,Z)) = join(meet(X,Y),meet(X,Z))).
cnf(joins, axiom, join(a,c) = join(b,c)).
cnf(meets, axiom, meet(a,c) = meet(b,c)).
cnf(cancels, negated_conjecture, a != b).
