% monoid-braids.p
%
% The monoid of braids of three strands, given by aba = bab, with a name c for ab: it doesn't follow that aab = baa.
%
% Status: Satisfiable

cnf(braid, axiom, a(b(a(X))) = b(a(b(X)))).
cnf(name, axiom, a(b(X)) = c(X)).
cnf(words, negated_conjecture, a(a(b(d))) != b(a(a(d)))).
