% near-ring-times-zero.p
%
% In a near-ring the sum needn't commute, and products distribute over it from one side alone. There zero times anything is
% zero, but anything times zero needn't be.
%
% Status: Satisfiable
% Options: --order lpo --precedence zero<a<plus<neg<times

cnf(zero, axiom, plus(zero,X) = X).
cnf(negative, axiom, plus(neg(X),X) = zero).
cnf(plus_associates, axiom, plus(plus(X,Y),Z) = plus(X,plus(Y,Z))).
cnf(times_associates, axiom, times(times(X,Y),Z) = times(X,times(Y,Z))).
cnf(distributes, axiom, times(plus(X,Y),Z) = plus(times(X,Z),times(Y,Z))).
cnf(times_zero, negated_conjecture, times(a,zero) != zero).
