% group-lr-system.p
%
% A product that associates, with a left identity and right inverses, needn't be a group: its left identity needn't be
% one from the right. The complete system of these (l,r) systems is one of the examples of Knuth and Bendix.
%
% Source: H. B. Mann, On certain systems which are almost groups, Bulletin of the AMS 50, 1944; D. E. Knuth and P. B.
% Bendix, Simple word problems in universal algebras, 1970.
%
% Status: Satisfiable
% Options: --weights i=0 --precedence i

cnf(left_identity, axiom, m(e,X) = X).
cnf(right_inverse, axiom, m(X,i(X)) = e).
cnf(associativity, axiom, m(m(X,Y),Z) = m(X,m(Y,Z))).
cnf(right_identity, negated_conjecture, m(a,e) != a).
