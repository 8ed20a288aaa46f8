% ring-jacobi.p
%
% In an associative ring the commutators fulfil the identity of Jacobi: [[x,y],z] + [[y,z],x] + [[z,x],y] = 0.
%
% Source: N. Jacobson, Lie Algebras, 1962.
%
% Status: Unsatisfiable
% Options: --order lpo --precedence zero<neg<plus<times<br

cnf(zero, axiom, plus(zero,X) = X).
cnf(negative, axiom, plus(neg(X),X) = zero).
cnf(plus_associates, axiom, plus(plus(X,Y),Z) = plus(X,plus(Y,Z))).
cnf(plus_commutes, axiom, plus(X,Y) = plus(Y,X)).
cnf(times_associates, axiom, times(times(X,Y),Z) = times(X,times(Y,Z))).
cnf(left_distributes, axiom, times(X,plus(Y,Z)) = plus(times(X,Y),times(X,Z))).
cnf(right_distributes, axiom, times(plus(X,Y),Z) = plus(times(X,Z),times(Y,Z))).
cnf(commutator, axiom, br(X,Y) = plus(times(X,Y),neg(times(Y,X)))).
cnf(jacobi, negated_conjecture, plus(br(br(x,y),z),plus(br(br(y,z),x),br(br(z,x),y))) != zero).
