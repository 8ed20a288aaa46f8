% arithmetic-power.p
%
% Addition, multiplication and powers by successors: two to the third is eight.
%
% Source: of any textbook; the definitions are those of R. Dedekind, Was sind und was sollen die Zahlen?, 1888.
%
% Status: Unsatisfiable
% Options: --order lpo --precedence zero<s<add<mul<pow

cnf(add_zero, axiom, add(zero,X) = X).
cnf(add_next, axiom, add(s(X),Y) = s(add(X,Y))).
cnf(mul_zero, axiom, mul(zero,X) = zero).
cnf(mul_next, axiom, mul(s(X),Y) = add(Y,mul(X,Y))).
cnf(pow_zero, axiom, pow(X,zero) = s(zero)).
cnf(pow_next, axiom, pow(X,s(Y)) = mul(X,pow(X,Y))).
cnf(eight, negated_conjecture, pow(s(s(zero)),s(s(s(zero)))) != s(s(s(s(s(s(s(s(zero))))))))).
