% lists-append-associates.p
%
% Lists: the two equations of `append` alone don't make it associate. That takes an induction over lists, and the equations
% also hold where there are other things than lists.
%
% Status: Satisfiable
% Options: --precedence cons<append

cnf(append_empty, axiom, append(empty,X) = X).
cnf(append_more, axiom, append(cons(X,Y),Z) = cons(X,append(Y,Z))).
cnf(associates, negated_conjecture, append(append(a,b),c) != append(a,append(b,c))).
