% group-endomorphism.p
%
% A map of a group to itself that respects the product needn't be the identity. The group and the map have a complete
% system together.
%
% Source: of any textbook; A. Stump and B. Löchner, Knuth-Bendix completion of theories of commuting group
% endomorphisms, Information Processing Letters 98, 2006, on two such maps that commute.
%
% Status: Satisfiable
% Options: --order lpo --precedence e<m<i<h

cnf(left_identity, axiom, m(e,X) = X).
cnf(left_inverse, axiom, m(i(X),X) = e).
cnf(associativity, axiom, m(m(X,Y),Z) = m(X,m(Y,Z))).
cnf(respects, axiom, h(m(X,Y)) = m(h(X),h(Y))).
cnf(identity, negated_conjecture, h(a) != a).
