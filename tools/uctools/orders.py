"""The two orders of `uc` on terms, for what is drawn of a search. Nothing that is promised rests on them."""
from .clauses import is_variable, parts

GREATER, LESS, EQUAL, UNKNOWN = "greater", "less", "equal", "unknown"


class Order:
    """A Knuth-Bendix order, or a lexicographic path order where there are no weights."""

    def __init__(self, precedence, weights=None, w0=1):
        self.rank = {name: number for number, name in enumerate(precedence)}
        self.weights = weights
        self.w0 = w0
        self.known = {}

    def compare(self, s, t):
        """Compares two terms."""
        if s == t:
            return EQUAL
        if self.greater(s, t):
            return GREATER
        return LESS if self.greater(t, s) else UNKNOWN

    def greater(self, s, t):
        """Returns whether one term is greater than another."""
        if self.weights is None:
            return self.lpo(s, t)
        return self.kbo(s, t)

    def heavy(self, term):
        """Returns the weight of a term, and how often each variable occurs in it."""
        found = self.known.get(term)
        if found is None:
            count, weight = {}, 0
            for part in parts(term):
                if is_variable(part):
                    count[part[0]] = count.get(part[0], 0) + 1
                    weight += self.w0
                else:
                    weight += self.weights[part[0]]
            found = self.known[term] = (weight, count)
            if len(self.known) > 100_000:
                self.known.clear()
        return found

    def kbo(self, s, t):
        """Returns whether s is greater than t by weight, then by first symbol, then by the first arguments that differ."""
        (weight, count), (other, others) = self.heavy(s), self.heavy(t)
        if any(number > count.get(name, 0) for name, number in others.items()) or weight < other:
            return False
        return weight > other or self.same_weight(s, t)

    def same_weight(self, s, t):
        """Returns whether s is greater than t of the same weight, whose variables it has as often."""
        if s == t or is_variable(s):
            return False
        if is_variable(t):
            return all(len(part) == 2 and self.weights[part[0]] == 0 for part in parts(s) if not is_variable(part))
        if s[0] != t[0]:
            return self.rank[s[0]] > self.rank[t[0]]
        return next((self.kbo(a, b) for a, b in zip(s[1:], t[1:]) if a != b), False)

    def lpo(self, s, t):
        """Returns whether s is greater than t by its symbols."""
        if s == t or is_variable(s):
            return False
        found = self.known.get((s, t))
        if found is None:
            found = self.known[(s, t)] = self.lpo_anew(s, t)
            if len(self.known) > 400_000:
                self.known.clear()
        return found

    def lpo_anew(self, s, t):
        """Returns the same without a look at what is known."""
        if is_variable(t):
            return any(part == t for part in parts(s))
        if any(argument == t or self.lpo(argument, t) for argument in s[1:]):
            return True
        if s[0] != t[0]:
            return self.rank[s[0]] > self.rank[t[0]] and all(self.lpo(s, argument) for argument in t[1:])
        if not all(self.lpo(s, argument) for argument in t[1:]):
            return False
        return next((self.lpo(a, b) for a, b in zip(s[1:], t[1:]) if a != b), False)


def names_of(text, mark):
    """Splits the value of an option at marks outside quotes."""
    found, inside, begin = [], False, 0
    for at, letter in enumerate(text):
        if letter == "'" and text[at - 1 : at] != "\\":
            inside = not inside
        elif letter == mark and not inside:
            found.append(text[begin:at])
            begin = at + 1
    return found + [text[begin:]] if text else []


def chosen(symbols, arity, encoded, options):
    """Returns the order that the options name for these symbols, and its least constant."""
    named = names_of(options.get("precedence") or "", "<")
    default = sorted(symbols, key=lambda name: arity[name])
    precedence = [name for name in default if name not in named] + named
    if options.get("order") == "lpo":
        return Order(precedence + list(encoded)), next(name for name in precedence if arity[name] == 0)
    w0 = int(options.get("w0") or 1)
    weights = dict.fromkeys(symbols, w0)
    for word in names_of(options.get("weights") or "", ","):
        name, _, number = word.rpartition("=")
        weights[name] = int(number)
    heaviest = max(weights[name] for name in symbols if arity[name] == 0)
    if encoded:
        weights.update({encoded[0]: heaviest, encoded[1]: heaviest, encoded[2]: w0})
    last = precedence[-1:] if precedence and weights[precedence[-1]] == 0 else []
    constants = [name for name in precedence if arity[name] == 0]
    least = min(constants, key=lambda name: (weights[name], precedence.index(name)))
    return Order(precedence[: len(precedence) - len(last)] + list(encoded) + last, weights, w0), least
