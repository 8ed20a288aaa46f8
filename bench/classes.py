#!/usr/bin/env python3
"""Into how many classes the constants of a generated problem fall, by congruence closure.

    bench/classes.py N START ..     prints a line N START CLASSES for each two numbers

It knows nothing of completion: it draws the axioms `f(ci) = cj` by the sequence that docs/MANUAL.md describes, and merges classes of
constants until each class has one class of values, as equality wants it: where c and d are equal, so are f(c) and f(d)."""

import sys


def numbers(start):
    """Yields the numbers of the sequence with this start."""
    x = start
    while True:
        x = (x * 1103515245 + 12345) % 2**31
        yield x // 65536


def axioms(n, start):
    """Returns as many pairs of constants as there are constants: f takes the first to the second."""
    drawn = numbers(start)
    return [(next(drawn) % n, next(drawn) % n) for _ in range(n)]


def classes(n, start):
    """Returns how many classes of constants the axioms leave."""
    parent = list(range(n))

    def find(c):
        while parent[c] != c:
            c = parent[c]
        return c

    merged = True
    while merged:
        merged = False
        value = {}
        for c, d in axioms(n, start):
            c, d = find(c), find(d)
            if c in value and find(value[c]) != d:
                parent[d] = find(value[c])
                merged = True
            else:
                value.setdefault(c, d)
    return len({find(c) for c in range(n)})


if __name__ == "__main__":
    words = [int(word) for word in sys.argv[1:]]
    for n, start in zip(words[::2], words[1::2]):
        print(n, start, classes(n, start))
