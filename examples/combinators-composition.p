% combinators-composition.p
%
% Combinatory logic: S(KS)K composes, by S and K alone.
%
% Status: Theorem

fof(s, axiom, ! [X,Y,Z] : a(a(a(s,X),Y),Z) = a(a(X,Z),a(Y,Z))).
fof(k, axiom, ! [X,Y] : a(a(k,X),Y) = X).
fof(composition, conjecture, ! [X,Y,Z] : a(a(a(a(a(s,a(k,s)),k),X),Y),Z) = a(X,a(Y,Z))).
