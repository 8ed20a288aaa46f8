#!/usr/bin/env python3
"""Writes the pairs of terms that completing the axioms of groups meets, for bench/orders.sh.

From the three axioms m(e,X) = X, m(i(X),X) = e and m(m(X,Y),Z) = m(X,m(Y,Z)) it forms all overlaps of the rules found so far, reduces the
two sides of the critical pairs, the smallest first, and keeps what is left as a rule, the greater side first by the Knuth-Bendix order in
which every symbol weighs 1 but i, which weighs 0 and is the greatest (Knuth and Bendix, Simple Word Problems in Universal Algebras). It ends
where no pair is left. What is written, each once, is what is compared on the way: the instances of both rules of an overlap, the two sides
of its pair as they are formed, and the same reduced. A line is two terms in postfix order, with a blank between them and a capital letter
for a variable.
"""
import heapq
import sys

WEIGHT = {"e": 1, "m": 1, "i": 0}
RANK = {"e": 0, "m": 1, "i": 2}

# A term is a number, which is a variable, or a tuple of a symbol and its arguments.


def is_variable(t):
    return isinstance(t, int)


def variables(t):
    return [t] if is_variable(t) else [x for a in t[1:] for x in variables(a)]


def weight(t):
    return 1 if is_variable(t) else WEIGHT[t[0]] + sum(map(weight, t[1:]))


def size(t):
    return 1 if is_variable(t) else 1 + sum(map(size, t[1:]))


def greater(s, t):
    if any(variables(t).count(x) > variables(s).count(x) for x in set(variables(t))):
        return False
    if weight(s) != weight(t):
        return weight(s) > weight(t)
    if is_variable(s):
        return False
    if is_variable(t):
        return s != t
    if s[0] != t[0]:
        return RANK[s[0]] > RANK[t[0]]
    for a, b in zip(s[1:], t[1:]):
        if a != b:
            return greater(a, b)
    return False


def apply(sub, t):
    if is_variable(t):
        return apply(sub, sub[t]) if t in sub else t
    return (t[0],) + tuple(apply(sub, a) for a in t[1:])


def unify(s, t):
    sub, todo = {}, [(s, t)]
    while todo:
        a, b = todo.pop()
        a, b = apply(sub, a), apply(sub, b)
        if a == b:
            continue
        if is_variable(b):
            a, b = b, a
        if is_variable(a):
            if a in variables(b):
                return None
            sub[a] = b
        elif a[0] == b[0]:
            todo.extend(zip(a[1:], b[1:]))
        else:
            return None
    return sub


def matches(pattern, t, sub):
    if is_variable(pattern):
        return sub.setdefault(pattern, t) == t
    return not is_variable(t) and pattern[0] == t[0] and all(matches(p, a, sub) for p, a in zip(pattern[1:], t[1:]))


def instance(sub, t):
    return sub[t] if is_variable(t) else (t[0],) + tuple(instance(sub, a) for a in t[1:])


def reduced(rules, t):
    while True:
        if not is_variable(t):
            t = (t[0],) + tuple(reduced(rules, a) for a in t[1:])
        for left, right in rules:
            sub = {}
            if matches(left, t, sub):
                t = instance(sub, right)
                break
        else:
            return t


def places(t, path=()):
    if not is_variable(t):
        yield path, t
        for k, a in enumerate(t[1:], 1):
            yield from places(a, path + (k,))


def put(t, path, part):
    if not path:
        return part
    return t[: path[0]] + (put(t[path[0]], path[1:], part),) + t[path[0] + 1 :]


def shifted(t, by):
    return t + by if is_variable(t) else (t[0],) + tuple(shifted(a, by) for a in t[1:])


def renumbered(s, t):
    number = {}
    for x in variables(s) + variables(t):
        number.setdefault(x, len(number))
    return instance(number, s), instance(number, t)


def overlaps(outer, inner):
    (l1, r1), (l2, r2) = outer, (shifted(inner[0], 100), shifted(inner[1], 100))
    for path, part in places(l1):
        sub = unify(part, l2)
        if sub is not None and (path or outer != inner):
            write(apply(sub, l1), apply(sub, r1))
            write(apply(sub, l2), apply(sub, r2))
            yield renumbered(apply(sub, r1), apply(sub, put(l1, path, r2)))


def postfix(t):
    return chr(ord("A") + t) if is_variable(t) else "".join(map(postfix, t[1:])) + t[0]


written = set()


def write(s, t):
    s, t = renumbered(s, t)
    line = postfix(s) + " " + postfix(t)
    if line not in written:
        written.add(line)
        print(line)


def main():
    x, y, z = 0, 1, 2
    axioms = [
        (("m", ("e",), x), x),
        (("m", ("i", x), x), ("e",)),
        (("m", ("m", x, y), z), ("m", x, ("m", y, z))),
    ]
    waiting, rules, count = [], [], 0
    for s, t in axioms:
        heapq.heappush(waiting, (size(s) + size(t), count, s, t))
        count += 1
    while waiting:
        _, _, s, t = heapq.heappop(waiting)
        write(s, t)
        s, t = renumbered(reduced(rules, s), reduced(rules, t))
        write(s, t)
        if s == t:
            continue
        if greater(t, s):
            s, t = renumbered(t, s)
        if not greater(s, t):
            sys.exit(f"no side is greater: {postfix(s)} {postfix(t)}")
        rules.append((s, t))
        for rule in rules:
            for pair in list(overlaps(rule, (s, t))) + (list(overlaps((s, t), rule)) if rule != (s, t) else []):
                heapq.heappush(waiting, (size(pair[0]) + size(pair[1]), count, *pair))
                count += 1


main()
