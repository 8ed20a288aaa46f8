"""A history gone through again, to learn the weights of the pairs that were drawn, which the history doesn't tell.

The history says what happened; the problem and the order say to which terms. So facts and pairs are formed anew: the history decides
which pair is drawn and which is kept, and what it counts is compared on the way. Where it doesn't fit, `Differs` is raised, and the page
has no curve of weights. It is as slow as a short program is, so of a long history only the beginning is gone through.
"""
from .clauses import is_variable, parts, size
from .orders import EQUAL, LESS, chosen

MOST_NODES = 4096
EVENTS = 2000


class Differs(Exception):
    """The history isn't that of this problem under this order."""


def value(term, bound):
    """Returns what a term is under bindings, all of them carried out."""
    if is_variable(term):
        found = bound.get(term[0])
        return term if found is None else value(found, bound)
    return (term[0], *(value(part, bound) for part in term[1:])) if len(term) > 1 else term


def renamed(term, mark):
    """Returns a term with another set of variables."""
    if is_variable(term):
        return (term[0] + mark,)
    return (term[0], *(renamed(part, mark) for part in term[1:]))


def numbered(pair):
    """Returns two terms with their variables named by first occurrence."""
    names = {}
    for side in pair:
        for part in parts(side):
            if is_variable(part):
                names.setdefault(part[0], (f"X{len(names) + 1}",))
    return tuple(under(side, names) for side in pair)


def under(term, names):
    """Returns a term with each variable replaced by what the table has for it."""
    if is_variable(term):
        return names[term[0]]
    return (term[0], *(under(part, names) for part in term[1:])) if len(term) > 1 else term


def matched(pattern, term, bound):
    """Extends bindings of the pattern's variables so that it becomes the term; returns whether that can be."""
    if is_variable(pattern):
        return bound.setdefault(pattern[0], term) == term
    if pattern[0] != term[0] or len(pattern) != len(term):
        return False
    return all(matched(one, other, bound) for one, other in zip(pattern[1:], term[1:]))


def unified(s, t):
    """Returns bindings that make two terms one, or None."""
    bound, waiting = {}, [(s, t)]
    while waiting:
        s, t = waiting.pop()
        while is_variable(s) and s[0] in bound:
            s = bound[s[0]]
        while is_variable(t) and t[0] in bound:
            t = bound[t[0]]
        if s == t:
            continue
        if is_variable(t):
            s, t = t, s
        if is_variable(s):
            if occurs(s, t, bound):
                return None
            bound[s[0]] = t
        elif s[0] != t[0]:
            return None
        else:
            waiting.extend(zip(s[1:], t[1:]))
    return bound


def occurs(variable, term, bound):
    """Returns whether a variable occurs in a term under bindings."""
    waiting = [term]
    while waiting:
        part = waiting.pop()
        if part == variable:
            return True
        if is_variable(part) and part[0] in bound:
            waiting.append(bound[part[0]])
        waiting.extend(part[1:])
    return False


def places(term, at=()):
    """Goes through the positions of a term that have no variable, the term itself first."""
    if not is_variable(term):
        yield at, term
        for number, part in enumerate(term[1:], 1):
            yield from places(part, (*at, number))


def put(term, at, part):
    """Returns a term with another part at a position."""
    if not at:
        return part
    return (*term[: at[0]], put(term[at[0]], at[1:], part), *term[at[0] + 1 :])


class Replay:
    """The facts and pairs of a search as far as its history has been gone through."""

    def __init__(self, axioms, order, least):
        self.order = order
        self.least = (least,)
        self.facts = []
        self.dead = set()
        self.pairs = [pair for pair in axioms]
        self.made = {}

    def ways(self, number):
        """Returns a fact's two ways: from one side to the other, where variables that the first side lacks become the least constant."""
        left, right = self.facts[number]
        return ((left, right), (right, left))

    def step_at(self, term, facts):
        """Returns what the first possible step at the root of a term makes of it, or None."""
        for number in facts:
            for one, other in self.ways(number):
                bound = {}
                if matched(one, term, bound):
                    result = self.filled(other, bound)
                    if self.order.greater(term, result):
                        return result
        return None

    def filled(self, term, bound):
        """Returns the instance of a term; variables without a value become the least constant."""
        if is_variable(term):
            return bound.get(term[0], self.least)
        return (term[0], *(self.filled(part, bound) for part in term[1:])) if len(term) > 1 else term

    def normal(self, term, facts):
        """Returns the normal form of a term: the first possible step, arguments before the term, again and again."""
        while True:
            after = self.stepped(term, facts)
            if after is None:
                return term
            if size(after) > MOST_NODES:
                raise Differs("a term grows too large")
            term = after

    def stepped(self, term, facts):
        """Returns a term after its first possible step, or None."""
        for number, part in enumerate(term[1:], 1):
            after = self.stepped(part, facts)
            if after is not None:
                return (*term[:number], after, *term[number + 1 :])
        return self.step_at(term, facts)

    def reduces(self, fact, sides):
        """Returns whether a fact makes a step in one of two terms."""
        return any(self.step_at(part, [fact]) is not None for side in sides for part in parts(side))

    def is_instance(self, sides, fact):
        """Returns whether two terms are the sides of one instance of a fact, either way round."""
        for one, other in self.ways(fact):
            bound = {}
            if matched(one, sides[0], bound) and matched(other, sides[1], bound):
                return True
        return False

    def is_down(self, one, other, own):
        """Returns whether a side doesn't lead down: it is the other one, or less; large terms are judged by the fact itself."""
        if size(one) > MOST_NODES or size(other) > MOST_NODES:
            one, other = own
        return self.order.compare(one, other) in (LESS, EQUAL)

    def overlaps(self, outer, inner):
        """Goes through the overlaps of two facts: each with its pair, or None where that is too large."""
        for side, (l1, r1) in enumerate(self.ways(outer)):
            for other, way in enumerate(self.ways(inner)):
                l2, r2 = (renamed(term, "'") for term in way)
                for at, part in places(l1):
                    if not at and not is_variable(l2):
                        same = (inner, other) == (outer, side)
                        if (inner, other) > (outer, side) or same and not self.gains(l1, r1):
                            continue
                    bound = unified(part, l2)
                    if bound is not None:
                        yield from self.formed((l1, r1), (l2, r2), at, bound)

    def gains(self, left, right):
        """Returns whether the right side has a variable that the left one lacks."""
        mine = {part[0] for part in parts(left) if is_variable(part)}
        return any(is_variable(part) and part[0] not in mine for part in parts(right))

    def formed(self, outer, inner, at, bound):
        """Gives the pair of an overlap, if it isn't left out."""
        l1, r1, l2, r2 = (value(term, bound) for term in (*outer, *inner))
        if self.is_down(l1, r1, outer) or self.is_down(l2, r2, inner):
            return
        right = put(l1, at, r2)
        is_large = max(map(size, (l1, r1, right))) > MOST_NODES
        yield None if is_large else numbered((r1, right))

    def live(self):
        """Returns the numbers of the facts that live."""
        return [number for number in range(len(self.facts)) if number not in self.dead]

    def keep(self, pair, number):
        """Makes the fact that a pair leaves, and compares its number."""
        if pair is None or number != len(self.facts):
            raise Differs("another fact is kept")
        facts = self.live()
        left, right = (self.normal(side, facts) for side in pair)
        self.facts.append(numbered((right, left) if self.order.compare(left, right) == LESS else (left, right)))

    def meet(self, fact, pairs, kills):
        """Makes a fact's meeting, and compares how many pairs newly wait and how many facts die."""
        if fact in self.dead:
            return
        others = [number for number in self.live() if number != fact]
        sides = self.facts[fact]
        if any(self.reduces(other, sides) or self.is_instance(sides, other) for other in others):
            self.die([fact])
            found, new = 1, 0
        else:
            killed = [other for other in others if other < fact and self.is_killed(other, fact)]
            lists = [(other, list(self.overlaps(other, fact)) + list(self.overlaps(fact, other))) for other in others if other < fact]
            lists.append((fact, list(self.overlaps(fact, fact))))
            self.die(killed)
            found, new = len(killed), 0
            for other, formed in lists:
                self.pairs += formed
                new += sum(pair is not None and pair[0] != pair[1] for pair in formed) if other not in killed else 0
        if (found, new) != (kills, pairs):
            raise Differs(f"a meeting makes {new} pairs and {found} kills where the history has {pairs} and {kills}")

    def is_killed(self, other, fact):
        """Returns whether a new fact makes an earlier one superfluous."""
        return self.reduces(fact, self.facts[other]) or self.is_instance(self.facts[other], fact)

    def die(self, facts):
        """Lets facts die; their sides become pairs again."""
        for fact in facts:
            self.dead.add(fact)
            self.pairs.append(self.facts[fact])


def opening_of(problem, options):
    """Returns the axioms of a search as pairs, its order and the least constant, with the encoding of goals that have variables."""
    axioms = [(axiom.left, axiom.right) for axiom in problem.axioms]
    symbols, arity = list(problem.first), dict(problem.arity)
    if not any(number == 0 for number in arity.values()):
        symbols.append(fresh("least", arity))
        arity[symbols[-1]] = 0
    open_goals = [goal for goal in problem.goals if any(is_variable(part) for side in (goal.left, goal.right) for part in parts(side))]
    marks = [fresh(name, problem.arity) for name in ("true", "false", "eq")] if open_goals else []
    order, least = chosen(symbols, arity, marks, options)
    if open_goals:
        yes, no, eq = marks
        axioms.append(((eq, ("X1",), ("X1",)), (yes,)))
        axioms += [((eq, goal.left, goal.right), (no,)) for goal in open_goals]
    return axioms, order, least


def fresh(name, taken):
    """Returns a name that no symbol has: this one, or this one with the first number that is free."""
    found, number = name, 0
    while found in taken:
        number += 1
        found = f"{name}_{number}"
    return found


def weights_of(events, problem, options, most=EVENTS):
    """Returns the weights of the pairs that were drawn, how many axioms the search had, and how many events were gone through."""
    axioms, order, least = opening_of(problem, options)
    replay = Replay(axioms, order, least)
    drawn, gone = [], 0
    for event in events[:most]:
        words = event.words
        if event.worker != 0:
            raise Differs("several workers searched, and their facts aren't gone through again")
        if event.what == "draw" and words[0] == "join":
            number = int(words[1])
            if number >= len(replay.pairs) or replay.pairs[number] is None:
                raise Differs(f"pair {number} is drawn, which isn't there")
            drawn.append((event.number, sum(map(size, replay.pairs[number]))))
        elif event.what == "commit" and words[0] == "join" and words[2] == "kept":
            replay.keep(replay.pairs[int(words[1])], int(words[3]))
        elif event.what == "commit" and words[0] == "meet":
            replay.meet(int(words[1]), int(words[3]), int(words[5]))
        elif event.what == "audit":
            break
        gone += 1
    return drawn, len(axioms), gone
