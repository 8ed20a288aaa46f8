% monoid-word-problem.p
%
% A monoid in which ab = ba and aa = 1, as unary functions: then abab = bb.
%
% Status: Unsatisfiable

cnf(commute, axiom, a(b(X)) = b(a(X))).
cnf(square, axiom, a(a(X)) = X).
cnf(word, negated_conjecture, a(b(a(b(c)))) != b(b(c))).
