% combinators-identity.p
%
% Combinatory logic: S and K have a combinator that is the identity (SKK is one), a goal with a
% variable. It is denied by an argument f(X) for each X, of which X makes something else.
%
% Status: Unsatisfiable

cnf(s, axiom, a(a(a(s,X),Y),Z) = a(a(X,Z),a(Y,Z))).
cnf(k, axiom, a(a(k,X),Y) = X).
cnf(identity, negated_conjecture, a(X,f(X)) != f(X)).
