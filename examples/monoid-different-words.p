% monoid-different-words.p
%
% A monoid given by aba = b: it doesn't follow that ab = ba.
%
% Status: Satisfiable

cnf(rule, axiom, a(b(a(X))) = b(X)).
cnf(word, negated_conjecture, a(b(c)) != b(a(c))).
