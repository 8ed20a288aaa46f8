% Robbins algebras: a commutative and associative symbol, a unary one, and the Robbins equation. The goal is Huntington's
% equation, by which it is a Boolean algebra (McCune, Solution of the Robbins problem, 1997).
cnf(commutes, axiom, add(X, Y) = add(Y, X)).
cnf(associates, axiom, add(add(X, Y), Z) = add(X, add(Y, Z))).
cnf(robbins, axiom, not(add(not(add(X, Y)), not(add(X, not(Y))))) = X).
cnf(huntington, negated_conjecture, add(not(add(a, not(b))), not(add(not(a), not(b)))) != b).
