% ring-boolean-commutes.p
%
% A ring in which every element is its own square is commutative.
%
% Source: M. H. Stone, The theory of representations for Boolean algebras, 1936; the problem RNG008 of the TPTP library.
%
% Status: Unsatisfiable

cnf(zero, axiom, plus(zero,X) = X).
cnf(negative, axiom, plus(neg(X),X) = zero).
cnf(plus_associates, axiom, plus(plus(X,Y),Z) = plus(X,plus(Y,Z))).
cnf(plus_commutes, axiom, plus(X,Y) = plus(Y,X)).
cnf(times_associates, axiom, times(times(X,Y),Z) = times(X,times(Y,Z))).
cnf(left_distributes, axiom, times(X,plus(Y,Z)) = plus(times(X,Y),times(X,Z))).
cnf(right_distributes, axiom, times(plus(X,Y),Z) = plus(times(X,Z),times(Y,Z))).
cnf(squares, axiom, times(X,X) = X).
cnf(commutes, negated_conjecture, times(a,b) != times(b,a)).
