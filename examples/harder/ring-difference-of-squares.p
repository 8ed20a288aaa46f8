% ring-difference-of-squares.p
%
% In a commutative ring the product of a sum and a difference is the difference of the squares.
%
% Source: of any textbook.
%
% Status: Unsatisfiable
% Options: --order lpo --precedence zero<plus<neg<times

cnf(zero, axiom, plus(zero,X) = X).
cnf(negative, axiom, plus(neg(X),X) = zero).
cnf(plus_associates, axiom, plus(plus(X,Y),Z) = plus(X,plus(Y,Z))).
cnf(plus_commutes, axiom, plus(X,Y) = plus(Y,X)).
cnf(times_associates, axiom, times(times(X,Y),Z) = times(X,times(Y,Z))).
cnf(left_distributes, axiom, times(X,plus(Y,Z)) = plus(times(X,Y),times(X,Z))).
cnf(right_distributes, axiom, times(plus(X,Y),Z) = plus(times(X,Z),times(Y,Z))).
cnf(times_commutes, axiom, times(X,Y) = times(Y,X)).
cnf(difference, negated_conjecture, times(plus(a,b),plus(a,neg(b))) != plus(times(a,a),neg(times(b,b)))).
