% group-solvable-equation.p
%
% In a group the equation a * X = b has a solution: a goal with a variable.
%
% Status: Unsatisfiable

cnf(left_identity, axiom, m(e,X) = X).
cnf(left_inverse, axiom, m(i(X),X) = e).
cnf(associativity, axiom, m(m(X,Y),Z) = m(X,m(Y,Z))).
cnf(solution, negated_conjecture, m(a,X) != b).
