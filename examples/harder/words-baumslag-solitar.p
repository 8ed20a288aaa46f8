% words-baumslag-solitar.p
%
% A group of Baumslag and Solitar by letters and their inverses (d and f for those of a and b): b a = a a b. It isn't
% commutative.
%
% Source: G. Baumslag and D. Solitar, Some two-generator one-relator non-Hopfian groups, Bulletin of the AMS 68, 1962.
%
% Status: Satisfiable
% Options: --order lpo --precedence a<d<b<f

cnf(a_inverse, axiom, a(d(X)) = X).
cnf(inverse_a, axiom, d(a(X)) = X).
cnf(b_inverse, axiom, b(f(X)) = X).
cnf(inverse_b, axiom, f(b(X)) = X).
cnf(relation, axiom, b(a(X)) = a(a(b(X)))).
cnf(commutes, negated_conjecture, a(b(z)) != b(a(z))).
