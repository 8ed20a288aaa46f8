% words-heisenberg.p
%
% The group of Heisenberg by letters and their inverses (d, f, h for those of a, b, c): c is the commutator of a and b
% and commutes with both, and the two don't commute. By the length of words there is no finite complete system, by
% letters there is one.
%
% Source: C. C. Sims, Computation with Finitely Presented Groups, 1994, on nilpotent groups.
%
% Status: Satisfiable
% Options: --order lpo --precedence h<c<f<b<d<a

cnf(a_inverse, axiom, a(d(X)) = X).
cnf(inverse_a, axiom, d(a(X)) = X).
cnf(b_inverse, axiom, b(f(X)) = X).
cnf(inverse_b, axiom, f(b(X)) = X).
cnf(c_inverse, axiom, c(h(X)) = X).
cnf(inverse_c, axiom, h(c(X)) = X).
cnf(commutator, axiom, b(a(X)) = a(b(c(X)))).
cnf(a_commutes, axiom, c(a(X)) = a(c(X))).
cnf(b_commutes, axiom, c(b(X)) = b(c(X))).
cnf(commutes, negated_conjecture, a(b(z)) != b(a(z))).
