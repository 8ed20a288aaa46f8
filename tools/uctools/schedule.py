"""The orders that a portfolio tries, for whom, and why: one table, `TABLE`.

Each row has a name, the round in which it enters, a function that gives the options for a theory (or None where the row isn't for it),
and the reason. Rows that give the same options are tried once, by the first of them.

The limits grow, `limits_of`: a row that is stopped by one is tried again with limits that are doubled twice. So a row that needs little
is found early, whatever stands before it, and at most a third of the work of a row is done twice.
"""
from collections import namedtuple

from .clauses import is_variable, parts

Row = namedtuple("Row", "name enters options why")
Limits = namedtuple("Limits", "budget pairs seconds")

MOST_BUDGET = 10_000_000
MOST_PAIRS = 8_000_000
TOP_RANK = 10


def limits_of(turn):
    """Returns the limits of a row's run number `turn`, from 0: pairs joined, pairs that wait, processor seconds."""
    budget = 250 * 4**turn
    return Limits(min(budget, MOST_BUDGET), min(40 * budget + 2000, MOST_PAIRS), 0.75 * 4**turn)


# Orders of the symbols, least first.


def by_arity(theory):
    """The precedence of `uc` where none is named: by number of arguments, then by first occurrence."""
    problem = theory.problem
    return sorted(problem.first, key=lambda name: problem.arity[name])


def by_arity_turned(theory):
    """By number of arguments, and of those with the same number the later one is less."""
    problem = theory.problem
    return sorted(reversed(problem.first), key=lambda name: problem.arity[name])


def by_rarity(theory):
    """By number of occurrences in the axioms, so that the rarest is greatest; constants of goals are least."""
    problem = theory.problem
    count = {name: 0 for name in problem.first}
    for axiom in problem.axioms:
        for side in (axiom.left, axiom.right):
            for part in parts(side):
                if part[0] in count:
                    count[part[0]] += 1
    return sorted(by_arity(theory), key=lambda name: (count[name] > 0, -count[name]))


def under_unary(theory):
    """Constants, then the symbols of two arguments and more, then those of one argument."""
    arity = theory.problem.arity
    return sorted(by_arity(theory), key=lambda name: (arity[name] == 1, arity[name] > 0))


def ranked(theory, ranks):
    """Constants of goals, then all others by arity, then the symbols with a rank, by it, then the abbreviations."""
    ranks = {**ranks, **{name: TOP_RANK + depth for name, depth in theory.abbreviations().items()}}
    of_axioms = {part for axiom in theory.problem.axioms for part in _names(axiom)}
    return sorted(by_arity(theory), key=lambda name: (ranks.get(name, 0), name in of_axioms))


def _names(axiom):
    return {part[0] for side in (axiom.left, axiom.right) for part in parts(side) if not is_variable(part)}


def lpo(names):
    """The options of a lexicographic path order."""
    return ["--order", "lpo", "--precedence", "<".join(names)] if names else None


def kbo(names, weights=None):
    """The options of a Knuth-Bendix order."""
    if not names:
        return None
    heavy = ["--weights", ",".join(f"{name}={weight}" for name, weight in weights.items())] if weights else []
    return ["--order", "kbo", "--precedence", "<".join(names)] + heavy


# What the rows of the table call: options of a theory, or None.


def inverse_weightless(theory):
    """KBO with weight 0 for an inverse, which is last in the precedence; of a product that isn't said to commute."""
    inverses = [inverse for inverse, (product, _) in theory.inverses().items() if not theory.has("commutative", product)]
    return weightless(theory, inverses[-1]) if inverses else None


def unary_weightless(theory):
    """KBO with weight 0 for the only symbol of one argument."""
    unary = [name for name in theory.problem.first if theory.problem.arity[name] == 1]
    return weightless(theory, unary[0]) if len(unary) == 1 else None


def weightless(theory, last):
    """KBO with weight 0 for a symbol of one argument, which is last in the precedence."""
    return kbo([name for name in by_arity(theory) if name != last] + [last], {last: 0})


def inverse_on_top(theory):
    """LPO, inverse over product over unit, and maps that respect the product over all of them."""
    ranks = {}
    sums = [over for _, over in theory.products_over_sums()]
    for inverse, (product, unit) in theory.inverses().items():
        if product not in sums:
            ranks.update({unit: 1, product: 2, inverse: 3})
    for image, product in theory.of("homomorphism") + theory.of("reverses"):
        if product in ranks and image not in ranks:
            ranks[image] = 4
    return lpo(ranked(theory, ranks)) if ranks else None


def multiplied_out(theory):
    """LPO, product over negative over sum over zero."""
    ranks = {}
    for product, over in theory.products_over_sums():
        for inverse, (of, zero) in theory.inverses().items():
            if of == over:
                ranks.update({zero: 1, inverse: 3})
        ranks.setdefault(over, 2)
        ranks[product] = 4
    return lpo(ranked(theory, ranks)) if ranks else None


def definitions(theory):
    """LPO, each defined symbol over those that define it."""
    used = theory.defined()
    if not used:
        return None
    depth = {}
    for _ in used:
        for name in used:
            depth[name] = 1 + max((depth.get(other, 0) for other in used[name] if other in used), default=0)
    return lpo(sorted(by_arity(theory), key=lambda name: depth.get(name, 0)))


def definitions_by_weight(theory):
    """KBO with the same precedence: where it goes the right way it keeps terms smaller."""
    options = definitions(theory)
    return options and kbo(options[-1].split("<"))


def letter_heavy(theory):
    """KBO on words in which the letter that occurs most often weighs more, so that it is replaced first."""
    if not theory.is_words():
        return None
    letters = [name for name in by_rarity(theory) if theory.problem.arity[name] == 1]
    return kbo(by_arity(theory), {letters[0]: 3}) if letters else None


def of_words(names_of):
    """Makes a row for words alone."""
    return lambda theory: lpo(names_of(theory)) if theory.is_words() else None


# fmt: off
TABLE = (
    Row("default", 0, lambda theory: [],
        "what uc does when nothing is said: KBO with weights 1 keeps facts small, best for most problems"),
    Row("inverse, weight 0", 0, inverse_weightless,
        "the inverse moves inwards, i(xy) = i(y)i(x): with weight 0 and last it does so under KBO, and facts stay small"),
    Row("inverse on top", 0, inverse_on_top,
        "LPO with inverse over product over unit completes groups, and groups with maps that respect the product"),
    Row("multiplied out", 0, multiplied_out,
        "LPO with product over sum turns distributivity so that products are multiplied out, as in rings and near-rings"),
    Row("definitions", 0, definitions,
        "each function over those that define it: then equations compute, whatever they put on their right sides"),
    Row("definitions, KBO", 1, definitions_by_weight,
        "the same precedence by weight, for definitions that don't grow"),
    Row("words, LPO", 0, of_words(by_arity),
        "words without a finite system by length may have one by letters: the later letter is carried through"),
    Row("words, LPO turned", 0, of_words(by_arity_turned),
        "the same with the letters turned round"),
    Row("words, a heavy letter", 1, letter_heavy,
        "the letter that occurs most is worth most, so that a word without it is a normal form"),
    Row("weight 0", 1, unary_weightless,
        "a negation or an involution moves inwards at no cost"),
    Row("turned", 1, lambda theory: kbo(by_arity_turned(theory)),
        "KBO with first occurrence turned round: equations that weigh the same on both sides go the other way"),
    Row("rarest on top", 1, lambda theory: kbo(by_rarity(theory)),
        "KBO with rare symbols over frequent ones: what was defined from something is replaced by it"),
    Row("LPO", 1, lambda theory: lpo(by_arity(theory)),
        "LPO by number of arguments: what has a variable more often on one side gets a direction, where KBO has none"),
    Row("LPO, unary on top", 1, lambda theory: lpo(under_unary(theory)),
        "LPO with symbols of one argument over those of two: negations and maps move inwards"),
    Row("LPO turned", 2, lambda theory: lpo(by_arity_turned(theory)),
        "LPO with first occurrence turned round"),
    Row("LPO, rarest on top", 2, lambda theory: lpo(by_rarity(theory)),
        "LPO with rare symbols over frequent ones, for definitions in the midst of other axioms"),
)
# fmt: on


def rows_of(theory):
    """Returns the rows that are for a theory, each with its options, and no options twice."""
    rows, seen = [], {tuple(kbo(by_arity(theory)) or [])}
    for row in TABLE:
        options = row.options(theory)
        if options is not None and tuple(options) not in seen:
            seen.add(tuple(options))
            rows.append(row._replace(options=options))
    return rows
