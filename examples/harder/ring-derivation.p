% ring-derivation.p
%
% In an associative ring the commutator with an element is a derivation: [x,yz] = [x,y]z + y[x,z].
%
% Source: N. Jacobson, Lie Algebras, 1962.
%
% Status: Unsatisfiable
% Options: --order lpo --precedence zero<neg<plus<times<br

cnf(zero, axiom, plus(zero,X) = X).
cnf(negative, axiom, plus(neg(X),X) = zero).
cnf(plus_associates, axiom, plus(plus(X,Y),Z) = plus(X,plus(Y,Z))).
cnf(plus_commutes, axiom, plus(X,Y) = plus(Y,X)).
cnf(times_associates, axiom, times(times(X,Y),Z) = times(X,times(Y,Z))).
cnf(left_distributes, axiom, times(X,plus(Y,Z)) = plus(times(X,Y),times(X,Z))).
cnf(right_distributes, axiom, times(plus(X,Y),Z) = plus(times(X,Z),times(Y,Z))).
cnf(commutator, axiom, br(X,Y) = plus(times(X,Y),neg(times(Y,X)))).
cnf(leibniz, negated_conjecture, br(x,times(y,z)) != plus(times(br(x,y),z),times(y,br(x,z)))).
