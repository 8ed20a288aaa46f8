% group-homomorphism-inverse.p
%
% A homomorphism from a group to a group takes inverses to inverses.
%
% Status: Theorem

fof(left_identity, axiom, ! [X] : m(e,X) = X).
fof(left_inverse, axiom, ! [X] : m(i(X),X) = e).
fof(associativity, axiom, ! [X,Y,Z] : m(m(X,Y),Z) = m(X,m(Y,Z))).
fof(other_identity, axiom, ! [X] : n(u,X) = X).
fof(other_inverse, axiom, ! [X] : n(j(X),X) = u).
fof(other_associativity, axiom, ! [X,Y,Z] : n(n(X,Y),Z) = n(X,n(Y,Z))).
fof(homomorphism, hypothesis, ! [X,Y] : h(m(X,Y)) = n(h(X),h(Y))).
fof(inverses, conjecture, ! [X] : h(i(X)) = j(h(X))).
