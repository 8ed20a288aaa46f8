% boolean-huntington.p
%
% A sum that commutes and associates, with the equation of Huntington, is that of a Boolean algebra; here that it is
% idempotent.
%
% Source: E. V. Huntington, New sets of independent postulates for the algebra of logic, Transactions of the AMS 35,
% 1933.
%
% Status: Unsatisfiable

cnf(commutes, axiom, or(X,Y) = or(Y,X)).
cnf(associates, axiom, or(or(X,Y),Z) = or(X,or(Y,Z))).
cnf(huntington, axiom, or(not(or(not(X),Y)),not(or(not(X),not(Y)))) = X).
cnf(idempotent, negated_conjecture, or(a,a) != a).
