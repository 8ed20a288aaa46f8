% Two commutative and associative symbols, one of which distributes over the other, and which absorb a constant.
cnf(sum_commutes, axiom, sum(X, Y) = sum(Y, X)).
cnf(sum_associates, axiom, sum(sum(X, Y), Z) = sum(X, sum(Y, Z))).
cnf(product_commutes, axiom, product(X, Y) = product(Y, X)).
cnf(product_associates, axiom, product(product(X, Y), Z) = product(X, product(Y, Z))).
cnf(distributes, axiom, product(X, sum(Y, Z)) = sum(product(X, Y), product(X, Z))).
cnf(cubes, axiom, product(X, product(X, X)) = X).
cnf(goal, negated_conjecture, sum(a, b) != product(a, b)).
