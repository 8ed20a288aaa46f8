#!/usr/bin/env python3
"""dihedral.py N: the multiplication table of the dihedral group of 2N elements as a problem, on standard output.

Each element is a symbol with one argument, and each two of them have an axiom that says what their product is. The table is complete:
no pair of two axioms gives a fact, so a search goes through all 8 N^3 overlaps, keeps what it began with and ends, with one worker or
with more.
"""
import sys


def product(n, a, b):
    """The product of two elements: turns are the numbers below n, and a mirror image of the turn a is n + a."""
    turn = a % n + (b % n if a < n else -(b % n))
    return turn % n + (n if (a < n) != (b < n) else 0)


n = int(sys.argv[1])
for a in range(2 * n):
    for b in range(2 * n):
        print(f"cnf(product_{a}_{b}, axiom, g{a}(g{b}(X)) = g{product(n, a, b)}(X)).")
print("cnf(goal, negated_conjecture, g0(c) != g1(c)).")
