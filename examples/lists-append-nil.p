% lists-append-nil.p
%
% Nothing behind a list is that list. This holds of all lists, but by induction alone, and doesn't follow of a constant.
%
% Status: CounterSatisfiable
% Options: --precedence cons<append

fof(none, definition, ! [Y] : append(nil,Y) = Y).
fof(some, definition, ! [X,Y,Z] : append(cons(X,Y),Z) = cons(X,append(Y,Z))).
fof(nothing_behind, conjecture, ! [X] : append(X,nil) = X).
