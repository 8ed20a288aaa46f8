% arithmetic-two-times-three.p
%
% Addition and multiplication by successors: two times three is six.
%
% Status: Unsatisfiable
% Options: --order lpo --precedence zero<s<add<mul

cnf(add_zero, axiom, add(zero,X) = X).
cnf(add_next, axiom, add(s(X),Y) = s(add(X,Y))).
cnf(mul_zero, axiom, mul(zero,X) = zero).
cnf(mul_next, axiom, mul(s(X),Y) = add(Y,mul(X,Y))).
cnf(six, negated_conjecture, mul(s(s(zero)),s(s(s(zero)))) != s(s(s(s(s(s(zero))))))).
