% The combinators B and W: is there a fixed point of each combinator?
cnf(b, axiom, of(of(of(b, X), Y), Z) = of(X, of(Y, Z))).
cnf(w, axiom, of(of(w, X), Y) = of(of(X, Y), Y)).
cnf(fixed_point, negated_conjecture, of(Y, f(Y)) != of(f(Y), of(Y, f(Y)))).
