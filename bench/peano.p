% The axioms of addition and multiplication of numerals.
cnf(plus_zero, axiom, plus(zero, Y) = Y).
cnf(plus_s, axiom, plus(s(X), Y) = s(plus(X, Y))).
cnf(times_zero, axiom, times(zero, Y) = zero).
cnf(times_s, axiom, times(s(X), Y) = plus(Y, times(X, Y))).
