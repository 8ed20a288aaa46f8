% wajsberg-double-negation.p
%
% In a Wajsberg algebra, the algebra of the logic of Łukasiewicz with infinitely many values, a double negation goes
% away.
%
% Source: J. M. Font, A. J. Rodríguez and A. Torrens, Wajsberg algebras, Stochastica 8, 1984.
%
% Status: Unsatisfiable

cnf(truth_implies, axiom, implies(truth,X) = X).
cnf(transitive, axiom, implies(implies(X,Y),implies(implies(Y,Z),implies(X,Z))) = truth).
cnf(join_commutes, axiom, implies(implies(X,Y),Y) = implies(implies(Y,X),X)).
cnf(contraposition, axiom, implies(implies(not(X),not(Y)),implies(Y,X)) = truth).
cnf(double_negation, negated_conjecture, not(not(a)) != a).
