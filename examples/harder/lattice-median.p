% lattice-median.p
%
% In a distributive lattice the join of the three meets of two is the meet of the three joins of two.
%
% Source: G. Birkhoff, Lattice Theory, 1940.
%
% Status: Unsatisfiable
% Options: --order lpo --precedence join<meet

cnf(join_commutes, axiom, join(X,Y) = join(Y,X)).
cnf(meet_commutes, axiom, meet(X,Y) = meet(Y,X)).
cnf(join_associates, axiom, join(join(X,Y),Z) = join(X,join(Y,Z))).
cnf(meet_associates, axiom, meet(meet(X,Y),Z) = meet(X,meet(Y,Z))).
cnf(join_absorbs, axiom, join(X,meet(X,Y)) = X).
cnf(meet_absorbs, axiom, meet(X,join(X,Y)) = X).
cnf(distributes, axiom, meet(X,join(Y,Z)) = join(meet(X,Y),meet(X,Z))).
cnf(median, negated_conjecture, join(meet(a,b),join(meet(b,c),meet(c,a))) != meet(join(a,b),meet(join(b,c),join(c,a)))).
