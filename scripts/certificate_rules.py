"""The rules of certificates of saturation, without the program: Knuth-Bendix and path orders, also under an order of variables, overlaps
less those that are left out, normal forms, equality up to brackets and order, and when a replacement, a line of a derivation and a
join is right. So certificates are made and checked.

Names are lower-case words and weights are positive. A text that isn't read is beyond this, but for names of lines and their number.
"""
import itertools
import re

MOST_NODES = 4096
MOST_STEPS = 4096

# Terms: a variable is its number, another term is a pair of its name and its arguments.

TOKEN = re.compile(r"\s*([A-Za-z0-9_]+|'[^']*'|!=|[(),=.\[\]~])")


class Refused(Exception):
    pass


class Reader:
    def __init__(self, text, variables=None):
        self.tokens = TOKEN.findall(text)
        if re.sub(r"\s", "", "".join(self.tokens)) != re.sub(r"\s", "", text):
            raise ValueError(f"no tokens: {text}")
        self.at = 0
        self.variables = {} if variables is None else variables

    def next(self, wanted=None):
        token = self.tokens[self.at] if self.at < len(self.tokens) else None
        if token is None or wanted not in (None, token):
            raise ValueError(f"{wanted} for {token} in {self.tokens}")
        self.at += 1
        return token

    def peek(self):
        return self.tokens[self.at] if self.at < len(self.tokens) else None

    def list(self, read, opening, closing):
        self.next(opening)
        found = []
        while self.peek() != closing:
            if found:
                self.next(",")
            found.append(read())
        self.next(closing)
        return found

    def term(self):
        name = self.next()
        if name[0].isupper():
            return self.variable(name)
        if self.peek() != "(":
            return (name, ())
        return (name, tuple(self.list(self.term, "(", ")")))

    def variable(self, name):
        return self.variables.setdefault(name, len(self.variables))


class JoinReader(Reader):
    def variable(self, name):
        return int(name[1:]) - 1

    def path(self):
        return [int(it) for it in self.list(self.next, "[", "]")]

    def move(self):
        for it in ("step", "("):
            self.next(it)
        fact = int(self.next())
        self.next(",")
        way = self.next()
        self.next(",")
        path = self.path()
        self.next(",")
        to = self.term()
        self.next(")")
        return fact, way, path, to

    def moves(self):
        return self.list(self.move, "[", "]")

    def case(self):
        for it in ("case", "("):
            self.next(it)
        classes = self.list(lambda: [self.variable(it) for it in self.list(self.next, "[", "]")], "[", "]")
        self.next(",")
        left = self.moves()
        self.next(",")
        right = self.moves()
        self.next(")")
        return classes, left, right

    def triple(self):
        return [int(it) for it in self.list(self.next, "[", "]")]

    def join(self):
        for it in ("join", "("):
            self.next(it)
        what = self.next()
        self.next("(")
        if what == "axiom":
            what = int(self.next())
        else:
            parts = []
            for _ in range(4):
                parts.append(self.next())
                self.next(",")
            what = int(parts[0]), parts[1], int(parts[2]), parts[3], self.path()
        self.next(")")
        self.next(",")
        left = self.moves()
        self.next(",")
        right = self.moves()
        self.next(",")
        end = self.next()
        if end == "instance":
            self.next("(")
            end = end, int(self.next())
            self.next(")")
        elif end == "orders":
            self.next("(")
            end = end, self.list(self.case, "[", "]")
            self.next(")")
        elif end == "ac":
            self.next("(")
            end = end, self.list(self.triple, "[", "]")
            self.next(")")
        else:
            end = (end,)
        self.next(")")
        self.next(".")
        return what, left, right, end


def is_var(t):
    return isinstance(t, int)


def shown(t):
    if is_var(t):
        return f"X{t + 1}"
    return t[0] + (f"({','.join(shown(it) for it in t[1])})" if t[1] else "")


def nodes(t):
    return 1 if is_var(t) else 1 + sum(nodes(it) for it in t[1])


def variables(t):
    """The variables, each place of one, from left to right."""
    return [t] if is_var(t) else [x for it in t[1] for x in variables(it)]


def distinct(xs):
    return list(dict.fromkeys(xs))


def positions(t):
    """The positions in preorder."""
    yield ()
    if not is_var(t):
        for k, it in enumerate(t[1], 1):
            for rest in positions(it):
                yield (k,) + rest


def at(t, path):
    for k in path:
        if is_var(t) or not 1 <= k <= len(t[1]):
            return None
        t = t[1][k - 1]
    return t


def put(t, path, part):
    if not path:
        return part
    args = list(t[1])
    args[path[0] - 1] = put(args[path[0] - 1], path[1:], part)
    return (t[0], tuple(args))


def apply(subst, t):
    if is_var(t):
        return subst.get(t, t)
    return (t[0], tuple(apply(subst, it) for it in t[1]))


def matches(pattern, t, subst):
    if is_var(pattern):
        if pattern in subst:
            return subst if subst[pattern] == t else None
        return {**subst, pattern: t}
    if is_var(t) or pattern[0] != t[0] or len(pattern[1]) != len(t[1]):
        return None
    for p, q in zip(pattern[1], t[1]):
        subst = matches(p, q, subst)
        if subst is None:
            return None
    return subst


def are_both(l, s, r, t):
    subst = matches(l, s, {})
    return subst is not None and matches(r, t, subst) is not None


def unify(s, t):
    subst, todo = {}, [(s, t)]
    while todo:
        a, b = (apply(subst, it) for it in todo.pop())
        if a == b:
            continue
        if not is_var(a) and is_var(b):
            a, b = b, a
        if is_var(a):
            if a in variables(b):
                return None
            subst = {x: apply({a: b}, it) for x, it in subst.items()}
            subst[a] = b
        elif a[0] != b[0] or len(a[1]) != len(b[1]):
            return None
        else:
            todo += list(zip(a[1], b[1]))
    return subst


def renamed(*terms):
    """The terms with their variables numbered by first occurrence."""
    seen = distinct(x for t in terms for x in variables(t))
    return [apply({x: k for k, x in enumerate(seen)}, t) for t in terms]


# Orders.


class Order:
    def __init__(self, kind, w0, symbols):
        """The symbols are names, arities and weights, the least first."""
        self.kind, self.w0, self.symbols = kind, w0, symbols
        self.rank = {(name, arity): k for k, (name, arity, _) in enumerate(symbols)}
        self.weights = {(name, arity): weight for name, arity, weight in symbols}

    def least(self):
        constants = [it for it in self.symbols if it[1] == 0]
        if self.kind == "kbo":
            constants = [it for it in constants if it[2] == min(w for _, _, w in constants)]
        return (constants[0][0], ())

    def weight(self, t):
        if is_var(t):
            return self.w0
        return self.weights[t[0], len(t[1])] + sum(self.weight(it) for it in t[1])

    def dominates(self, s, t, classes):
        a, b = variables(s), variables(t)
        if classes is None:
            return all(a.count(x) >= b.count(x) for x in set(b))
        total = 0
        for c in reversed(classes):
            total += sum((x in c) for x in a) - sum((x in c) for x in b)
            if total < 0:
                return False
        return True

    def rank_in(self, classes, x):
        return next(k for k, c in enumerate(classes) if x in c)

    def greater(self, s, t, classes=None):
        if classes is not None:
            first = {x: c[0] for c in classes for x in c}
            s, t = apply(first, s), apply(first, t)
        return s != t and (self.kbo if self.kind == "kbo" else self.lpo)(s, t, classes)

    def kbo(self, s, t, classes):
        if is_var(s) and is_var(t):
            return classes is not None and self.rank_in(classes, s) > self.rank_in(classes, t)
        if not self.dominates(s, t, classes):
            return False
        v, w = self.weight(s), self.weight(t)
        if v != w or is_var(s) or is_var(t):
            return v > w
        f, g = (s[0], len(s[1])), (t[0], len(t[1]))
        if f != g:
            return self.rank[f] > self.rank[g]
        for a, b in zip(s[1], t[1]):
            if a != b:
                return self.kbo(a, b, classes)
        return False

    def lpo(self, s, t, classes):
        if is_var(s):
            return is_var(t) and classes is not None and self.rank_in(classes, s) > self.rank_in(classes, t)
        if is_var(t):
            return any(x == t or (classes is not None and self.rank_in(classes, x) > self.rank_in(classes, t)) for x in variables(s))
        if any(it == t or self.lpo(it, t, classes) for it in s[1]):
            return True
        f, g = (s[0], len(s[1])), (t[0], len(t[1]))
        if f != g and self.rank[f] < self.rank[g] or not all(self.lpo(s, it, classes) for it in t[1]):
            return False
        if f != g:
            return True
        for a, b in zip(s[1], t[1]):
            if a != b:
                return self.lpo(a, b, classes)
        return False


def var_orders(xs):
    orders = [[]]
    for x in xs:
        grown = []
        for order in orders:
            for k, c in enumerate(order):
                grown += [order[:k] + [[x]] + order[k:], order[:k] + [c + [x]] + order[k + 1:]]
            grown.append(order + [[x]])
        orders = grown
    return orders


# The facts.


def ways(fact):
    return ("lr", fact[0], fact[1]), ("rl", fact[1], fact[0])


def postorder(t):
    if not is_var(t):
        for k, it in enumerate(t[1], 1):
            for rest in postorder(it):
                yield (k,) + rest
    yield ()


def step_from(t, facts, order, classes):
    for path in postorder(t):
        part = at(t, path)
        for number, fact in enumerate(facts):
            for way, l, r in ways(fact):
                subst = matches(l, part, {})
                if subst is None:
                    continue
                for x in variables(r):
                    subst.setdefault(x, order.least())
                to = apply(subst, r)
                if order.greater(part, to, classes):
                    return number, way, list(path), put(t, path, to)
    return None


def normalised(t, facts, order, classes=None):
    moves = []
    if classes is not None:
        t = apply({x: c[0] for c in classes for x in c}, t)
    while len(moves) < MOST_STEPS and (move := step_from(t, facts, order, classes)):
        moves.append(move)
        t = move[3]
    return t, moves


# Equality up to brackets and order.


def laws_of(f):
    """That a binary symbol associates, commutes, and exchanges what stands at the right."""
    p = lambda x, y: (f, (x, y))
    return (p(p(0, 1), 2), p(0, p(1, 2))), (p(0, 1), p(1, 0)), (p(0, p(1, 2)), p(1, p(0, 2)))


def is_law(fact, law):
    """Whether they are equal up to renaming, either way round."""
    return any(renamed(*fact) == renamed(*it) for it in (law, law[::-1]))


def triple_of(f, facts):
    """The least facts that are the three laws of a symbol, or None."""
    found = [next((k for k, fact in enumerate(facts) if is_law(fact, law)), None) for law in laws_of(f)]
    return None if None in found else found


def symbol_of(triple, facts):
    """The symbol of which three facts are the laws, or None."""
    if len(triple) != 3 or max(triple) >= len(facts):
        return None
    names = distinct(name for t in facts[triple[1]] for name, arity in symbols_in(t) if arity == 2)
    return next((f for f in names if all(is_law(facts[k], law) for k, law in zip(triple, laws_of(f)))), None)


def parts(t, f):
    """What stands below a top part of this symbol alone."""
    if is_var(t) or t[0] != f or len(t[1]) != 2:
        return [t]
    return parts(t[1][0], f) + parts(t[1][1], f)


def are_ac_equal(names, s, t):
    """Whether two terms are equal up to brackets and order at these binary symbols."""
    if is_var(s) or is_var(t):
        return s == t
    if s[0] != t[0] or len(s[1]) != len(t[1]):
        return False
    if s[0] not in names or len(s[1]) != 2:
        return all(are_ac_equal(names, a, b) for a, b in zip(s[1], t[1]))
    others = parts(t, t[0])
    for a in parts(s, s[0]):
        k = next((k for k, b in enumerate(others) if are_ac_equal(names, a, b)), None)
        if k is None:
            return False
        others.pop(k)
    return not others


def ac_triples(s, t, facts, numbers):
    """The triples of the associative and commutative symbols of two terms, by number, where these are equal so; else none."""
    found = set(symbols_in(s) + symbols_in(t))
    known = {name: triple_of(name, facts) for name, arity in numbers if arity == 2 and (name, arity) in found}
    names = [name for name in known if known[name]]
    return [known[name] for name in names] if are_ac_equal(names, s, t) else []


def compared(order, s, t):
    return "same" if s == t else "less" if order.greater(t, s) else "other"


def goes_up(order, l, r, u, v):
    s, t = (l, r) if max(nodes(u), nodes(v)) > MOST_NODES else (u, v)
    return compared(order, s, t) in ("same", "less")


def overlaps(i, a, j, b, order):
    """The overlaps of the outer fact a and the inner fact b, each with its pair; None for a pair that is too large."""
    shift = 1 + max(variables(a[0]) + variables(a[1]), default=-1)
    c = [apply({x: x + shift for x in variables(t)}, t) for t in b]
    for side, inner_side in itertools.product((0, 1), (0, 1)):
        l1, r1, l2, r2 = a[side], a[1 - side], c[inner_side], c[1 - inner_side]
        for path in positions(l1):
            if is_var(at(l1, path)) or (subst := unify(at(l1, path), l2)) is None:
                continue
            u1, v1, u2, v2 = (apply(subst, t) for t in (l1, r1, l2, r2))
            if path == () and not is_var(l2):
                if (j, inner_side) > (i, side):
                    continue
                if (j, inner_side) == (i, side) and set(variables(r1)) <= set(variables(l1)):
                    continue
            if goes_up(order, l1, r1, u1, v1) or goes_up(order, l2, r2, u2, v2):
                continue
            right = apply(subst, put(l1, path, r2))
            large = max(nodes(u1), nodes(v1), nodes(right)) > MOST_NODES
            yield (i, "lr"[side], j, "lr"[inner_side], list(path)), None if large else tuple(renamed(v1, right))


def expected(axioms, facts, order):
    for k, axiom in enumerate(axioms):
        yield k, tuple(axiom)
    for i, a in enumerate(facts):
        for j, b in enumerate(facts):
            yield from overlaps(i, a, j, b, order)


# Making.


def shown_move(move):
    return f"step({move[0]}, {move[1]}, [{','.join(map(str, move[2]))}], {shown(move[3])})"


def shown_moves(moves):
    return f"[{', '.join(map(shown_move, moves))}]"


def shown_classes(classes):
    return f"[{', '.join('[' + ', '.join(f'X{x + 1}' for x in c) + ']' for c in classes)}]"


def shown_what(what):
    if isinstance(what, int):
        return f"axiom({what})"
    return f"overlap({what[0]}, {what[1]}, {what[2]}, {what[3]}, [{','.join(map(str, what[4]))}])"


def shown_end(end):
    if end[0] == "instance":
        return f"instance({end[1]})"
    if end[0] == "ac":
        return f"ac([{', '.join('[' + ', '.join(map(str, it)) + ']' for it in end[1])}])"
    if end[0] == "orders":
        return "orders([" + ", ".join(f"case({shown_classes(c)}, {shown_moves(l)}, {shown_moves(r)})" for c, l, r in end[1]) + "])"
    return end[0]


def shown_join(join):
    return f"join({shown_what(join[0])}, {shown_moves(join[1])}, {shown_moves(join[2])}, {shown_end(join[3])})."


def joined(what, sides, facts, order, numbers):
    """The join of two terms, or None."""
    (s, left), (t, right) = (normalised(it, facts, order) for it in sides)
    if triples := ac_triples(s, t, facts, numbers):
        return what, left, right, ("ac", triples)
    if s == t:
        return what, left, right, ("same",)
    for k, fact in enumerate(facts):
        if are_both(fact[0], s, fact[1], t) or are_both(fact[1], s, fact[0], t):
            return what, left, right, ("instance", k)
    xs = sorted(set(variables(s) + variables(t)))
    if len(xs) > 5:
        return None
    cases = []
    for classes in var_orders(xs):
        (u, to_u), (v, to_v) = (normalised(it, facts, order, classes) for it in (s, t))
        if u != v:
            return None
        cases.append((classes, to_u, to_v))
    return what, left, right, ("orders", cases)


def made(problem, system, derivation, names):
    """A certificate of these parts, each a list of lines; names are those of the facts' lines."""
    order, facts = read_system(system)
    joins = []
    for what, sides in expected(encoded(problem), facts, order):
        join = joined(what, sides, facts, order, numbered(problem))
        if join is None:
            raise ValueError(f"not joined: {what}")
        joins.append(shown_join(join))
    return ["% certificate 1"] + system + ["% derivation"] + derivation + [" ".join(["% facts"] + names), "% joins"] + joins + ["% end"]


# Reading.

CLAUSE = re.compile(r"cnf\((\w+), (\w+), (.*?)\)\.$")


def read_clause(line):
    """A clause's name, whether it is an equation, and its sides."""
    name, _, body = CLAUSE.match(line).groups()
    reader = Reader(body)
    left = reader.term()
    positive = reader.next() == "="
    return name, positive, left, reader.term()


def read_problem(text):
    return [read_clause(line) for line in text.splitlines() if line]


def is_open(clause):
    return not clause[1] and bool(variables(clause[2]) + variables(clause[3]))


def is_encoded(problem):
    return any(map(is_open, problem))


def encoded(problem):
    """The encoded problem's axioms."""
    axioms = [(l, r) for _, positive, l, r in problem if positive]
    if is_encoded(problem):
        axioms += [(("eq", (0, 0)), ("true", ()))]
        axioms += [(("eq", (l, r)), ("false", ())) for it in problem if is_open(it) for l, r in [it[2:]]]
    return axioms


def symbols_in(t):
    return [] if is_var(t) else [(t[0], len(t[1]))] + [it for a in t[1] for it in symbols_in(a)]


def closed(t):
    return [] if is_var(t) else [it for a in t[1] for it in closed(a)] + [(t[0], len(t[1]))]


def numbered(problem):
    """The symbols by number: as their arguments are closed while the clauses are read."""
    return distinct(it for clause in problem for t in clause[2:] for it in closed(t))


def symbols_of(problem):
    found = distinct(it for clause in problem for t in clause[2:] for it in symbols_in(t))
    if not any(arity == 0 for _, arity in found):
        found.append(("least", 0))
    if is_encoded(problem):
        found += [("true", 0), ("false", 0), ("eq", 2)]
    return found


def read_system(lines):
    kind = lines[1].split()
    symbols = []
    for line in lines[2:]:
        if not line.startswith("% symbol "):
            break
        parts = line.split()[2:]
        symbols.append((parts[0], int(parts[1]), int(parts[2]) if kind[2] == "kbo" else 1))
    order = Order(kind[2], int(kind[3]) if kind[2] == "kbo" else 1, symbols)
    facts = [read_clause(line)[2:] for line in lines[2 + len(symbols):-1]]
    known = {it[:2] for it in symbols}
    if any(it not in known for fact in facts for t in fact for it in symbols_in(t)):
        raise ValueError("a symbol that isn't there")
    return order, facts


LINE = re.compile(r"cnf\((\w+), (\w+), (.*?), (file|inference)\((.*)\)\)\.$")


def read_line(line):
    name, _, body, source, rest = LINE.match(line).groups()
    names = {}
    reader = Reader(body, names)
    left = reader.term()
    positive = reader.next() == "="
    found = {"name": name, "positive": positive, "left": left, "right": reader.term(), "source": source}
    if source == "file":
        found["clause"] = rest.split(", ")[1]
    else:
        rule, rest = rest.split(", ", 1)
        found["source"] = rule
        if rule == "chain":
            reader = Reader(rest, names)
            reader.next("[")
            found["start"] = reader.term()
            found["steps"] = []
            while reader.peek() == ",":
                reader.next(",")
                reader.next("step")
                reader.next("(")
                step = [reader.next()]
                reader.next(",")
                step.append(reader.next())
                reader.next(",")
                step.append([int(it) for it in reader.list(reader.next, "[", "]")])
                reader.next(",")
                step.append(reader.term())
                reader.next(")")
                found["steps"].append(step)
            reader.next("]")
        else:
            reader = Reader(rest)
            reader.next("[")
            found["source"] = reader.next()
            reader.next("]")
        reader.next(",")
        found["parents"] = reader.list(reader.next, "[", "]")
    return found


def read_certificate(text, file):
    lines = text.splitlines()
    start = next(k for k, line in enumerate(lines) if line.startswith("% certificate "))
    behind = lambda k, wanted: next(n for n in range(k, len(lines)) if lines[n] == wanted or lines[n].startswith(wanted + " "))
    derivation = behind(start, "% derivation")
    facts_line = behind(derivation, "% facts")
    joins_line = behind(facts_line, "% joins")
    end = behind(joins_line, "% end")
    order, facts = read_system(lines[start + 1:derivation])
    derived = [read_line(line) for line in lines[derivation + 1:facts_line]]
    names = [line["name"] for line in derived]
    for k, name in enumerate(names):
        if name in names[:k]:
            raise Refused(f"% {file}:{derivation + 2 + k}:5 RepeatedName")
    for k, line in enumerate(derived):
        for name in [it[0] for it in line.get("steps", [])] + line.get("parents", []):
            if name not in names:
                column = re.search(rf"\b{name}\b", lines[derivation + 1 + k]).start() + 1
                raise Refused(f"% {file}:{derivation + 2 + k}:{column} UnknownName")
    words = lines[facts_line].split(" ")[2:]
    if len(words) != len(facts):
        raise Refused(f"% {file}:{facts_line + 1}:1 Syntax")
    for k, word in enumerate(words):
        if word not in names:
            raise Refused(f"% {file}:{facts_line + 1}:{len(' '.join(['% facts'] + words[:k])) + 2} UnknownName")
    joins = [JoinReader(line).join() for line in lines[joins_line + 1:end]]
    return order, facts, derived, [names.index(it) for it in words], joins


# Checking.


def is_replacement(u, v, l, r, path):
    part, to = at(u, path), at(v, path)
    if part is None or to is None or put(u, path, to) != v:
        return False
    return are_both(l, part, r, to)


def same_clause(a, b):
    return a[0] == b[0] and a[1] == b[1] and renamed(*a[2:]) == renamed(*b[2:])


def cause_of(problem, lines, k):
    """The first test that a line fails, or None."""
    line, earlier = lines[k], {it["name"]: it for it in lines[:k]}
    sides = line["left"], line["right"]
    if line["source"] == "file":
        fits = any(same_clause(it, (line["clause"], line["positive"]) + sides) for it in problem)
        return None if fits else "NotAProblemClause"
    if line["source"] == "chain":
        return chain_cause(line, earlier)
    if any(it not in earlier for it in line["parents"]):
        return "NotEarlier"
    if line["source"] == "reflexive":
        fits = not line["parents"] and sides == (("eq", (0, 0)), ("true", ()))
    else:
        parent = earlier[line["parents"][0]] if len(line["parents"]) == 1 else None
        fits = parent is not None and parent["source"] == "file" and not parent["positive"] and bool(variables(parent["left"]) + variables(parent["right"])) and renamed(*sides) == renamed(("eq", (parent["left"], parent["right"])), ("false", ()))
    return None if fits and is_encoded(problem) else "NotAProblemClause"


def chain_cause(line, earlier):
    u = line["start"]
    if u != line["left"]:
        return "EndsDiffer"
    for name, way, path, v in line["steps"]:
        if name not in earlier:
            return "NotEarlier"
        it = earlier[name]
        l, r = (it["left"], it["right"]) if way == "lr" else (it["right"], it["left"])
        if not it["positive"] or not is_replacement(u, v, l, r, path):
            return "NotAReplacement"
        u = v
    if u != line["right"]:
        return "EndsDiffer"
    return None if line["parents"] == distinct(it[0] for it in line["steps"]) else "WrongParents"


def after_moves(t, moves, facts, order, known, classes=None):
    """The end of moves, or None where one isn't right."""
    symbols = set(order.rank)
    for number, way, path, to in moves:
        if number >= len(facts) or not set(symbols_in(to)) <= symbols or not known(to):
            return None
        l, r = facts[number] if way == "lr" else facts[number][::-1]
        if not is_replacement(t, to, l, r, path) or not order.greater(at(t, path), at(to, path), classes):
            return None
        t = to
    return t


def is_right(join, what, sides, facts, order):
    if join[0] != what:
        return False
    s, t = (after_moves(it, moves, facts, order, lambda _: True) for it, moves in zip(sides, join[1:3]))
    if s is None or t is None:
        return False
    end = join[3]
    if end[0] == "same":
        return s == t
    if end[0] == "instance":
        fact = facts[end[1]] if end[1] < len(facts) else None
        return fact is not None and (are_both(fact[0], s, fact[1], t) or are_both(fact[1], s, fact[0], t))
    if end[0] == "ac":
        names = [symbol_of(it, facts) for it in end[1]]
        return None not in names and are_ac_equal(names, s, t)
    xs = sorted(set(variables(s) + variables(t)))
    if len(xs) > 5 or [case[0] for case in end[1]] != var_orders(xs):
        return False
    for classes, left, right in end[1]:
        first = {x: c[0] for c in classes for x in c}
        ends = [after_moves(apply(first, it), moves, facts, order, lambda u: set(variables(u)) <= set(xs), classes) for it, moves in ((s, left), (t, right))]
        if ends[0] is None or ends[0] != ends[1]:
            return False
    return True


def answer(problem, text, file):
    """The answer's status and line."""
    try:
        order, facts, lines, numbers, joins = read_certificate(text, file)
    except Refused as why:
        return 3, str(why)
    if set(order.rank) != set(symbols_of(problem)):
        return 1, "refused symbols"
    for k, line in enumerate(lines):
        if cause := cause_of(problem, lines, k):
            return 1, f"refused line {line['name']} {cause}"
    for k, fact in enumerate(facts):
        line = lines[numbers[k]]
        if line["source"] != "chain" or (line["left"], line["right"]) != tuple(fact):
            return 1, f"refused fact {k}"
    n = 0
    for n, (what, sides) in enumerate(expected(encoded(problem), facts, order), 1):
        if sides is None:
            return 1, f"refused large {what[0]} {what[1]} {what[2]} {what[3]} [{','.join(map(str, what[4]))}]"
        if n > len(joins) or not is_right(joins[n - 1], what, sides, facts, order):
            return 1, f"refused join {n - 1}"
    return (1, f"refused join {n}") if len(joins) > n else (0, "certified")
