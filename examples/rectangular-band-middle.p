% rectangular-band-middle.p
%
% In a rectangular band, of three things that are multiplied the middle one doesn't count.
%
% Status: Theorem

fof(associativity, axiom, ! [X,Y,Z] : m(m(X,Y),Z) = m(X,m(Y,Z))).
fof(rectangular, axiom, ! [X,Y] : m(X,m(Y,X)) = X).
fof(middle, conjecture, ! [X,Y,Z] : m(X,m(Y,Z)) = m(X,Z)).
