% arithmetic-not-five.p
%
% Addition by successors: it doesn't follow that two and two are five.
%
% Status: Satisfiable

cnf(add_zero, axiom, add(zero,X) = X).
cnf(add_next, axiom, add(s(X),Y) = s(add(X,Y))).
cnf(five, negated_conjecture, add(s(s(zero)),s(s(zero))) != s(s(s(s(s(zero)))))).
