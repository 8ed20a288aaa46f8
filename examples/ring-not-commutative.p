% ring-not-commutative.p
%
% Multiplication in a ring, which need not have a unit, needn't commute: four elements show it.
%
% Status: Satisfiable
% Answer: ResourceOut
% Options: --budget 2000

cnf(add_commutes, axiom, add(X,Y) = add(Y,X)).
cnf(add_associates, axiom, add(X,add(Y,Z)) = add(add(X,Y),Z)).
cnf(add_zero, axiom, add(zero,X) = X).
cnf(add_minus, axiom, add(minus(X),X) = zero).
cnf(mul_associates, axiom, mul(X,mul(Y,Z)) = mul(mul(X,Y),Z)).
cnf(left_distributes, axiom, mul(X,add(Y,Z)) = add(mul(X,Y),mul(X,Z))).
cnf(right_distributes, axiom, mul(add(X,Y),Z) = add(mul(X,Z),mul(Y,Z))).
cnf(commutes, negated_conjecture, mul(a,b) != mul(b,a)).
