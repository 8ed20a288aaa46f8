% ring-zero.p
%
% In a ring a product with zero is zero.
%
% Status: Unsatisfiable

cnf(plus_commutes, axiom, plus(X,Y) = plus(Y,X)).
cnf(plus_associates, axiom, plus(plus(X,Y),Z) = plus(X,plus(Y,Z))).
cnf(zero, axiom, plus(zero,X) = X).
cnf(negative, axiom, plus(neg(X),X) = zero).
cnf(distributes_left, axiom, times(X,plus(Y,Z)) = plus(times(X,Y),times(X,Z))).
cnf(product_with_zero, negated_conjecture, times(a,zero) != zero).
