% loop-moufang.p
%
% In a loop the Moufang identity (x(yz))x = (xy)(zx) gives another one, ((xy)z)y = x(y(zy)).
%
% Source: R. Moufang, Zur Struktur von Alternativkörpern, Mathematische Annalen 110, 1935; K. Kunen, Moufang
% quasigroups, Journal of Algebra 183, 1996.
%
% Status: Unsatisfiable

cnf(left_identity, axiom, m(e,X) = X).
cnf(right_identity, axiom, m(X,e) = X).
cnf(left_division, axiom, m(X,ld(X,Y)) = Y).
cnf(left_cancels, axiom, ld(X,m(X,Y)) = Y).
cnf(right_division, axiom, m(rd(X,Y),Y) = X).
cnf(right_cancels, axiom, rd(m(X,Y),Y) = X).
cnf(moufang, axiom, m(m(X,m(Y,Z)),X) = m(m(X,Y),m(Z,X))).
cnf(other, negated_conjecture, m(m(m(a,b),c),b) != m(a,m(b,m(c,b)))).
