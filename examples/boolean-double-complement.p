% boolean-double-complement.p
%
% In a Boolean algebra, given by commutativity, distributivity, identities and complements (Huntington),
% the complement of the complement is the thing itself.
%
% Status: Unsatisfiable

cnf(or_commutes, axiom, or(X,Y) = or(Y,X)).
cnf(and_commutes, axiom, and(X,Y) = and(Y,X)).
cnf(or_distributes, axiom, or(X,and(Y,Z)) = and(or(X,Y),or(X,Z))).
cnf(and_distributes, axiom, and(X,or(Y,Z)) = or(and(X,Y),and(X,Z))).
cnf(or_identity, axiom, or(X,zero) = X).
cnf(and_identity, axiom, and(X,one) = X).
cnf(or_complement, axiom, or(X,not(X)) = one).
cnf(and_complement, axiom, and(X,not(X)) = zero).
cnf(double_complement, negated_conjecture, not(not(a)) != a).
