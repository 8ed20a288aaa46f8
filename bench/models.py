#!/usr/bin/env python3
"""Searches for a finite model by the plain rule, prefix by prefix, and counts the prefixes that it visits.

    bench/models.py PROBLEM SIZE [MOST [FIRST]]

PROBLEM is a file with a clause a line, as `uc show` prints it. A prefix gives the first cells a value each: cells go by symbol in the order of the
signature (first occurrence; a constant `least` last where no symbol is one), then by arguments, the first slowest. It is refuted if it has both values of some
instance of an axiom and they differ, or of a goal and they agree. Visited are, of each size from 1, or FIRST, to SIZE, the nonempty prefixes whose longest proper
prefix isn't refuted, in lexicographic order, up to the first whole table that isn't refuted. Each prefix is tried anew on every assignment of every clause.

It prints a line a size, `size N visited V`, and last `found VALUES`, `none`, or `spent MOST` where a prefix is due behind the MOSTth.
"""
import itertools
import os
import sys
import time

sys.path.insert(0, os.path.join(os.path.dirname(os.path.abspath(__file__)), "..", "tools"))
from uctools.clauses import is_variable, parts, read_problem


class Spent(Exception):
    """A prefix is due and no visit is left."""


def value(term, cells, assignment):
    """Returns the value of a term, or None where a cell has none yet."""
    if is_variable(term):
        return assignment[term[0]]
    arguments = tuple(value(part, cells, assignment) for part in term[1:])
    return None if None in arguments else cells.get((term[0],) + arguments)


def is_refuted(clauses, cells, size):
    """Returns whether the cells fix both values of an instance of a clause, and against it."""
    for clause in clauses:
        names = sorted({part[0] for side in (clause.left, clause.right) for part in parts(side) if is_variable(part)})
        for values in itertools.product(range(size), repeat=len(names)):
            assignment = dict(zip(names, values))
            left, right = value(clause.left, cells, assignment), value(clause.right, cells, assignment)
            if left is not None and right is not None and (left == right) != clause.positive:
                return True
    return False


def visit(clauses, order, size, prefix, count, most):
    """Goes through the prefixes behind one that isn't refuted; returns the first whole table that isn't refuted."""
    for last in range(size):
        if count[0] == most:
            raise Spent
        count[0] += 1
        cells = dict(zip(order, prefix + [last]))
        if not is_refuted(clauses, cells, size):
            if len(cells) == len(order):
                return prefix + [last]
            found = visit(clauses, order, size, prefix + [last], count, most)
            if found is not None:
                return found
    return None


def main():
    path, sizes = sys.argv[1], int(sys.argv[2])
    most = int(sys.argv[3]) if len(sys.argv) > 3 else None
    first = int(sys.argv[4]) if len(sys.argv) > 4 else 1
    with open(path) as file:
        text = "".join(line for line in file if line.startswith("cnf"))
    problem = read_problem(text)
    clauses = problem.axioms + problem.goals
    symbols, arity = list(problem.first), dict(problem.arity)
    if all(arity[symbol] for symbol in symbols):
        symbols.append("least")
        arity["least"] = 0
    total, start = 0, time.process_time()
    for size in range(first, sizes + 1):
        order = [(symbol,) + arguments for symbol in symbols for arguments in itertools.product(range(size), repeat=arity[symbol])]
        count = [0]
        try:
            empty = is_refuted(clauses, {}, size)
            found = None if empty else visit(clauses, order, size, [], count, None if most is None else most - total)
        except Spent:
            print(f"spent {most}")
            total = most
            break
        total += count[0]
        print(f"size {size} visited {count[0]}")
        if found is not None:
            print("found " + " ".join(map(str, found)))
            break
    else:
        print("none")
    seconds = time.process_time() - start
    print(f"{total} prefixes, {seconds:.3f} s", file=sys.stderr)


if __name__ == "__main__":
    sys.setrecursionlimit(100000)
    main()
