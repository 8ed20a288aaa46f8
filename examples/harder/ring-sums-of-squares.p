% ring-sums-of-squares.p
%
% In a commutative ring the product of two sums of two squares is one: (aa+bb)(cc+dd) = (ac-bd)(ac-bd)+(ad+bc)(ad+bc),
% the identity of Brahmagupta and Fibonacci.
%
% Source: Leonardo of Pisa, Liber quadratorum, 1225.
%
% Status: Unsatisfiable
% Options: --order lpo --precedence zero<plus<neg<times

cnf(zero, axiom, plus(zero,X) = X).
cnf(negative, axiom, plus(neg(X),X) = zero).
cnf(plus_associates, axiom, plus(plus(X,Y),Z) = plus(X,plus(Y,Z))).
cnf(plus_commutes, axiom, plus(X,Y) = plus(Y,X)).
cnf(times_associates, axiom, times(times(X,Y),Z) = times(X,times(Y,Z))).
cnf(left_distributes, axiom, times(X,plus(Y,Z)) = plus(times(X,Y),times(X,Z))).
cnf(right_distributes, axiom, times(plus(X,Y),Z) = plus(times(X,Z),times(Y,Z))).
cnf(times_commutes, axiom, times(X,Y) = times(Y,X)).
cnf(identity, negated_conjecture, times(plus(times(a,a),times(b,b)),plus(times(c,c),times(d,d))) != plus(times(plus(times(a,c),neg(times(b,d))),plus(times(a,c),neg(times(b,d)))),times(plus(times(a,d),times(b,c)),plus(times(a,d),times(b,c))))).
