% SZS output start CNFRefutation for r1.p
cnf(p1, axiom, f(a) = b, file('r1.p', ax)).
cnf(p2, negated_conjecture, f(a) != b, file('r1.p', g)).
cnf(p3, plain, f(a) = b, inference(chain, [f(a), step(p1, lr, [], b)], [p1])).
cnf(p4, plain, $false, inference(refute, [], [p2, p3])).
% SZS output end CNFRefutation for r1.p
