% wajsberg-not-boolean.p
%
% Lukasiewicz's logic with many values, by Wajsberg's axioms, doesn't have Peirce's law: three values show it.
%
% Status: Satisfiable
% Answer: ResourceOut
% Options: --budget 2000

cnf(truth, axiom, i(t,X) = X).
cnf(transitive, axiom, i(i(X,Y),i(i(Y,Z),i(X,Z))) = t).
cnf(symmetric, axiom, i(i(X,Y),Y) = i(i(Y,X),X)).
cnf(contraposition, axiom, i(i(n(X),n(Y)),i(Y,X)) = t).
cnf(peirce, negated_conjecture, i(i(a,b),a) != a).
