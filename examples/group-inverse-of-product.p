% group-inverse-of-product.p
%
% In a group the inverse of a product is the product of the inverses, turned round.
%
% Status: Unsatisfiable

cnf(left_identity, axiom, m(e,X) = X).
cnf(left_inverse, axiom, m(i(X),X) = e).
cnf(associativity, axiom, m(m(X,Y),Z) = m(X,m(Y,Z))).
cnf(inverse_of_product, negated_conjecture, i(m(a,b)) != m(i(b),i(a))).
