% abelian-four-elements.p
%
% In a vector space over the field of four elements, an abelian group in which each element is its own negative, with the product w
% by a root of X^2 = X + 1, it needn't be that w(a + b) = a + w(b). The third equation of plus follows from the first two, and makes
% it known as associative and commutative from the start.
%
% Status: Satisfiable
% Options: --order lpo --precedence plus<w

cnf(plus_associates, axiom, plus(plus(X,Y),Z) = plus(X,plus(Y,Z))).
cnf(plus_commutes, axiom, plus(X,Y) = plus(Y,X)).
cnf(plus_exchanges, axiom, plus(X,plus(Y,Z)) = plus(Y,plus(X,Z))).
cnf(zero, axiom, plus(zero,X) = X).
cnf(own_negative, axiom, plus(X,X) = zero).
cnf(w_of_sum, axiom, w(plus(X,Y)) = plus(w(X),w(Y))).
cnf(w_of_w, axiom, w(w(X)) = plus(X,w(X))).
cnf(apart, negated_conjecture, w(plus(a,b)) != plus(a,w(b))).
