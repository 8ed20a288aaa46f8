"""What the axioms of a problem say of their symbols, whatever these are called.

An axiom is compared with the equations of a table, up to the names of its variables and symbols and to which side stands left. What is
found is a list of facts as `Fact("unit", ("m", "e"))`: the kind, and the symbols that play the parts.
"""
from collections import namedtuple

from .clauses import is_variable, parts, read_term, size, tokens

Fact = namedtuple("Fact", "kind symbols")

SIDES = ("left ", "right ")

# Each kind with its equations. Small letters are symbols: f and g have two arguments, i has one, a c d e k s are constants.
# The symbols of a fact stand in the order of the second column.
EQUATIONS = (
    ("associative", "f", "f(f(X,Y),Z) = f(X,f(Y,Z))"),
    ("commutative", "f", "f(X,Y) = f(Y,X)"),
    ("idempotent", "f", "f(X,X) = X"),
    ("left unit", "f e", "f(e,X) = X"),
    ("right unit", "f e", "f(X,e) = X"),
    ("zero", "f e", "f(e,X) = e"),
    ("zero", "f e", "f(X,e) = e"),
    ("left inverse", "f i e", "f(i(X),X) = e"),
    ("right inverse", "f i e", "f(X,i(X)) = e"),
    ("involution", "i", "i(i(X)) = X"),
    ("reverses", "i f", "i(f(X,Y)) = f(i(Y),i(X))"),
    ("homomorphism", "i f", "i(f(X,Y)) = f(i(X),i(Y))"),
    ("dual", "i f g", "i(f(X,Y)) = g(i(X),i(Y))"),
    ("absorbs", "f g", "f(X,g(X,Y)) = X"),
    ("absorbs", "f g", "f(X,g(Y,X)) = X"),
    ("left distributes", "f g", "f(X,g(Y,Z)) = g(f(X,Y),f(X,Z))"),
    ("right distributes", "f g", "f(g(X,Y),Z) = g(f(X,Z),f(Y,Z))"),
    ("cancels", "f g", "f(X,g(X,Y)) = Y"),
    ("cancels", "f g", "f(g(X,Y),Y) = X"),
    ("combinator K", "f k", "f(f(k,X),Y) = X"),
    ("combinator S", "f s", "f(f(f(s,X),Y),Z) = f(f(X,Z),f(Y,Z))"),
    ("combinator B", "f a", "f(f(f(a,X),Y),Z) = f(X,f(Y,Z))"),
    ("combinator C", "f c", "f(f(f(c,X),Y),Z) = f(f(X,Z),Y)"),
    ("combinator W", "f d", "f(f(d,X),Y) = f(f(X,Y),Y)"),
    ("combinator L", "f d", "f(f(d,X),Y) = f(X,f(Y,Y))"),
    ("combinator M", "f d", "f(d,X) = f(X,X)"),
    ("combinator T", "f d", "f(f(d,X),Y) = f(Y,X)"),
    ("combinator I", "f d", "f(d,X) = X"),
)


def _pattern(kind, names, equation):
    words = tokens(equation)
    left, at = read_term(words, 0)
    return kind, tuple(names.split()), left, read_term(words, at + 1)[0]


PATTERNS = tuple(_pattern(*row) for row in EQUATIONS)
LARGEST = max(size(left) + size(right) for _, _, left, right in PATTERNS)


def same_shape(pattern, term, names):
    """Extends `names`, one to one, so that the pattern becomes the term; returns whether that can be."""
    waiting = [(pattern, term)]
    while waiting:
        part, of = waiting.pop()
        if len(part) != len(of) or is_variable(part) != is_variable(of):
            return False
        if part[0] in names:
            if names[part[0]] != of[0]:
                return False
        elif of[0] in names.values():
            return False
        else:
            names[part[0]] = of[0]
        waiting.extend(zip(part[1:], of[1:]))
    return True


def facts_of(axiom):
    """Returns what one axiom says, by the table."""
    if size(axiom.left) + size(axiom.right) > LARGEST:
        return []
    found = []
    for kind, played, left, right in PATTERNS:
        for one, other in ((axiom.left, axiom.right), (axiom.right, axiom.left)):
            names = {}
            if same_shape(left, one, names) and same_shape(right, other, names):
                found.append(Fact(kind, tuple(names[name] for name in played)))
                break
    return found


class Theory:
    """What a problem's axioms say, gathered by kind."""

    def __init__(self, problem):
        self.problem = problem
        self.facts = []
        for axiom in problem.axioms:
            self.facts += [fact for fact in facts_of(axiom) if fact not in self.facts]

    def of(self, kind):
        """Returns the symbols of each fact of a kind, which may be one of the left or of the right side alone."""
        kinds = (kind, *(side + kind for side in SIDES))
        return list(dict.fromkeys(fact.symbols for fact in self.facts if fact.kind in kinds))

    def has(self, kind, *symbols):
        """Returns whether a fact of this kind with these first symbols was found."""
        return any(found[: len(symbols)] == symbols for found in self.of(kind))

    def inverses(self):
        """Returns the unary symbols that are inverses of a product, each with product and unit."""
        found = {}
        for product, inverse, unit in self.of("inverse"):
            if self.has("unit", product, unit) or self.has("associative", product):
                found.setdefault(inverse, (product, unit))
        return found

    def products_over_sums(self):
        """Returns each product that distributes over a sum, with the sum, where the sum doesn't distribute over it as well."""
        pairs = []
        for product, over in self.of("distributes"):
            if product != over and not self.has("distributes", over, product) and (product, over) not in pairs:
                pairs.append((product, over))
        return pairs

    def on_both_sides(self, kind, *symbols):
        """Returns whether a fact holds on the left and on the right, as it does where it holds on one side of a symbol that commutes."""
        found = [self.has(side + kind, *symbols) for side in SIDES]
        return all(found) or any(found) and self.has("commutative", symbols[0])

    def is_group(self, product, inverse, unit):
        """Returns whether a product associates, and the unit and the inverse are those of one side."""
        sides = [self.has(f"{side}unit", product, unit) and self.has(f"{side}inverse", product, inverse, unit) for side in SIDES]
        return self.has("associative", product) and any(sides)

    def complement(self, one, other):
        """Returns the symbol that is a complement for two operations, or None."""
        found = [inverse for product, inverse, _ in self.of("inverse") if product == one and self.has("inverse", other, inverse)]
        return found[0] if found else None

    def letters(self):
        """Returns the constants of a presentation, but for the unit: every axiom without variables is one of words, the others are facts."""
        ground = [axiom for axiom in self.problem.axioms if not any(map(is_variable, (*parts(axiom.left), *parts(axiom.right))))]
        names = {part[0] for axiom in ground for side in (axiom.left, axiom.right) for part in parts(side)}
        arity = self.problem.arity
        products = [name for name in names if arity[name] == 2]
        wide = [name for name in names if arity[name] > 2]
        if wide or not products or not all(self.has("associative", name) for name in products):
            return []
        if any(not facts_of(axiom) for axiom in self.problem.axioms if axiom not in ground):
            return []
        return sorted(name for name in names if arity[name] == 0 and not any(unit == name for _, unit in self.of("unit")))

    def is_words(self):
        """Returns whether all symbols have at most one argument: words of letters, each letter a function."""
        arities = self.problem.arity.values()
        return bool(arities) and max(arities) == 1

    def combinators(self):
        """Returns the kinds of combinators that the axioms define."""
        return sorted({fact.kind[-1] for fact in self.facts if fact.kind.startswith("combinator")})

    def defined(self):
        """Returns the symbols that equations define, each with the symbols that its equations use, or None.

        A symbol is defined by equations whose left sides are that symbol over terms of other symbols that none of these equations
        define. So append, addition or reverse are defined, and an associative product isn't.
        """
        heads = {}
        for axiom in self.problem.axioms:
            if is_variable(axiom.left) or len(axiom.left) == 1:
                return None
            heads.setdefault(axiom.left[0], []).append(axiom)
        used = {}
        for head, axioms in heads.items():
            for axiom in axioms:
                below = {part[0] for argument in axiom.left[1:] for part in parts(argument) if not is_variable(part)}
                if below & set(heads):
                    return None
                used.setdefault(head, set()).update(below)
                used[head] |= {part[0] for part in parts(axiom.right) if not is_variable(part)} - {head}
        return used or None

    def abbreviations(self):
        """Returns the symbols that stand for a term of others, each with how deep such definitions go, from 1 on.

        An axiom defines one where a side is the symbol over variables that are all different, and the other side is without it.
        """
        used = {}
        for axiom in self.problem.axioms:
            for one, other in ((axiom.left, axiom.right), (axiom.right, axiom.left)):
                names = {part[0] for part in parts(other)}
                places = [argument[0] for argument in one[1:] if is_variable(argument)]
                fits = len(one) > 1 and len(set(places)) == len(one) - 1 and one[0] not in names
                if fits and len(other) > 1 and size(other) > size(one):
                    used.setdefault(one[0], names)
        depth = {}
        for _ in used:
            for name in used:
                depth[name] = 1 + max((depth.get(other, 0) for other in used[name] if other in used), default=0)
        return depth

    def names(self):
        """Returns what was recognised, in words."""
        found = [*self.names_of_products(), *self.names_of_sums(), *self.names_of_lattices()]
        found += [f"associative and commutative: {f}" for (f,) in self.of("commutative") if self.has("associative", f)]
        found += [f"{f} and {g} undo each other" for f, g in self.of("cancels") if f < g and self.has("cancels", g, f)]
        if set(self.combinators()) - {"I"}:
            found.append(f"combinators: {' '.join(self.combinators())}")
        if self.is_words():
            found.append("the presentation of a monoid: each letter a function of one argument")
        if self.letters():
            found.append(f"a presentation by constants: {' '.join(self.letters())}")
        if self.abbreviations():
            found.append(f"abbreviations: {' '.join(sorted(self.abbreviations()))}")
        if self.defined():
            found.append(f"definitions of {' '.join(self.defined())}")
        return found

    def names_of_products(self):
        """Returns what was recognised of groups and monoids."""
        found, groups = [], set()
        for inverse, (product, unit) in self.inverses().items():
            if self.is_group(product, inverse, unit):
                what = "an abelian group" if self.has("commutative", product) else "a group"
                found.append(f"{what}: product {product}, inverse {inverse}")
                groups.add(product)
            elif self.has("unit", product, unit):
                found.append(f"a product with unit and inverse: {product}, {unit}, {inverse}")
                groups.add(product)
        for product, unit in sorted(self.of("unit")):
            if product not in groups and self.has("associative", product):
                what = "a monoid" if self.on_both_sides("unit", product, unit) else "a semigroup with a unit of one side"
                found.append(f"{what}: product {product}, unit {unit}")
                groups.add(product)
        found += [f"a semigroup: product {f}" for (f,) in self.of("associative") if f not in groups and not self.has("commutative", f)]
        return found

    def names_of_sums(self):
        """Returns what was recognised of products that distribute over sums."""
        groups = {product for inverse, (product, unit) in self.inverses().items() if self.is_group(product, inverse, unit)}
        found = []
        for product, over in self.products_over_sums():
            is_ring = over in groups and self.has("commutative", over) and self.on_both_sides("distributes", product, over)
            what = "a ring: " if is_ring else "a near-ring: " if over in groups else ""
            if what or frozenset((product, over)) not in self.lattices():
                found.append(f"{what}{product} distributes over {over}")
        return found

    def lattices(self):
        """Returns the pairs of operations that absorb each other."""
        return {frozenset(pair) for pair in self.of("absorbs") if self.has("absorbs", *reversed(pair))}

    def names_of_lattices(self):
        """Returns what was recognised of two operations that absorb each other or distribute over each other."""
        lattices = self.lattices()
        both = {frozenset(pair) for pair in self.of("distributes") if pair[0] != pair[1] and self.has("distributes", *reversed(pair))}
        found = []
        for one, other in sorted(sorted(pair) for pair in lattices | both if len(pair) == 2):
            pair, complement = frozenset((one, other)), self.complement(one, other)
            distributes = self.has("distributes", one, other) or self.has("distributes", other, one)
            if complement and distributes:
                found.append(f"a Boolean algebra: {one} and {other}, complement {complement}")
            elif pair in lattices:
                found.append(f"{'a distributive lattice' if distributes else 'a lattice'}: {one} and {other}")
            else:
                found.append(f"{one} and {other} distribute over each other")
        return found
