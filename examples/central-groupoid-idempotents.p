% central-groupoid-idempotents.p
%
% Central groupoids have three rules that decide them. By these, not every element is idempotent.
%
% Status: CounterSatisfiable

fof(central, axiom, ! [X,Y,Z] : m(m(X,Y),m(Y,Z)) = Y).
fof(idempotence, conjecture, ! [X] : m(X,X) = X).
