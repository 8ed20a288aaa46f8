% combinators-skk.p
%
% Combinatory logic: SKK is the identity.
%
% Status: Unsatisfiable

cnf(s, axiom, a(a(a(s,X),Y),Z) = a(a(X,Z),a(Y,Z))).
cnf(k, axiom, a(a(k,X),Y) = X).
cnf(skk, negated_conjecture, a(a(a(s,k),k),c) != c).
