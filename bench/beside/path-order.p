% Terms that the lexicographic path order compares for long, with m < p < a < k1.
cnf(n2, axiom, p(m(p(a,c,X),p(k1,a,a)),p(a,m(a,Y),c),p(p(a,Y,a),p(Y,c,c),m(c,a))) = Y).
cnf(ax, axiom, m(m(X,Y),Z) = m(X,m(Y,Z))).
cnf(g1, negated_conjecture, k1 != a).
cnf(ax2, axiom, m(m(k1,a),a) = m(m(a,m(c,c)),m(p(a,a,k1),m(k1,c)))).
cnf(g2, negated_conjecture, a != m(a,m(k1,k1))).
