% arithmetic-two-and-two.p
%
% Addition by successors: two and two are four.
%
% Status: Unsatisfiable

cnf(add_zero, axiom, add(zero,X) = X).
cnf(add_next, axiom, add(s(X),Y) = s(add(X,Y))).
cnf(four, negated_conjecture, add(s(s(zero)),s(s(zero))) != s(s(s(s(zero))))).
