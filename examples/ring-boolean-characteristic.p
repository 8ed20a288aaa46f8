% ring-boolean-characteristic.p
%
% In a ring in which every element is its own square, every element is its own negative.
%
% Status: Unsatisfiable

cnf(plus_commutes, axiom, plus(X,Y) = plus(Y,X)).
cnf(plus_associates, axiom, plus(plus(X,Y),Z) = plus(X,plus(Y,Z))).
cnf(zero, axiom, plus(zero,X) = X).
cnf(negative, axiom, plus(neg(X),X) = zero).
cnf(distributes_left, axiom, times(X,plus(Y,Z)) = plus(times(X,Y),times(X,Z))).
cnf(distributes_right, axiom, times(plus(X,Y),Z) = plus(times(X,Z),times(Y,Z))).
cnf(idempotence, axiom, times(X,X) = X).
cnf(own_negative, negated_conjecture, plus(a,a) != zero).
