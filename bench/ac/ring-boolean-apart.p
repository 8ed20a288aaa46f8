% ring-boolean-apart.p
%
% In a Boolean ring a product needn't be the sum of the same two elements. Multiplied out and sorted, each element has one form: a
% sum of products, as Zhegalkin writes the functions of logic. The third equations of plus and of times follow from the first two,
% and make both known as associative and commutative from the start.
%
% Source: I. I. Zhegalkin, On the technique of calculating propositions in symbolic logic, 1927.
%
% Status: Satisfiable
% Options: --order lpo

cnf(plus_associates, axiom, plus(plus(X,Y),Z) = plus(X,plus(Y,Z))).
cnf(plus_commutes, axiom, plus(X,Y) = plus(Y,X)).
cnf(plus_exchanges, axiom, plus(X,plus(Y,Z)) = plus(Y,plus(X,Z))).
cnf(times_associates, axiom, times(times(X,Y),Z) = times(X,times(Y,Z))).
cnf(times_commutes, axiom, times(X,Y) = times(Y,X)).
cnf(times_exchanges, axiom, times(X,times(Y,Z)) = times(Y,times(X,Z))).
cnf(zero, axiom, plus(zero,X) = X).
cnf(own_negative, axiom, plus(X,X) = zero).
cnf(one, axiom, times(one,X) = X).
cnf(idempotence, axiom, times(X,X) = X).
cnf(distributes, axiom, times(X,plus(Y,Z)) = plus(times(X,Y),times(X,Z))).
cnf(apart, negated_conjecture, times(a,b) != plus(a,b)).
