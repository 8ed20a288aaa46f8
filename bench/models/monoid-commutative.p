cnf(associativity, axiom, m(m(X,Y),Z) = m(X,m(Y,Z))).
cnf(left_identity, axiom, m(e,X) = X).
cnf(right_identity, axiom, m(X,e) = X).
cnf(commutativity, negated_conjecture, m(a,b) != m(b,a)).
