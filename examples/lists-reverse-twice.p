% lists-reverse-twice.p
%
% Lists: from the equations of `append` and `reverse` alone it doesn't follow that a list that is reversed twice is itself.
% That takes an induction over lists, and the equations also hold where there are other things than lists.
%
% Status: Satisfiable
% Options: --order lpo --precedence empty<cons<append<reverse

cnf(append_empty, axiom, append(empty,X) = X).
cnf(append_more, axiom, append(cons(X,Y),Z) = cons(X,append(Y,Z))).
cnf(reverse_empty, axiom, reverse(empty) = empty).
cnf(reverse_more, axiom, reverse(cons(X,Y)) = append(reverse(Y),cons(X,empty))).
cnf(twice, negated_conjecture, reverse(reverse(a)) != a).
