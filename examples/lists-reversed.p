% lists-reversed.p
%
% Lists: the list of two things, reversed.
%
% Status: Unsatisfiable

cnf(append_empty, axiom, append(empty,X) = X).
cnf(append_more, axiom, append(cons(X,Y),Z) = cons(X,append(Y,Z))).
cnf(reverse_empty, axiom, reverse(empty) = empty).
cnf(reverse_more, axiom, reverse(cons(X,Y)) = append(reverse(Y),cons(X,empty))).
cnf(reversed, negated_conjecture, reverse(cons(a,cons(b,empty))) != cons(b,cons(a,empty))).
