"""Clauses as `uc show` prints them, and the terms in them.

A term is a tuple: a variable is `(name,)` with a capital letter in front, any other term is `(name, argument, ..)`. The words are those of
the text, so that a name goes into an option as it stands. Terms may be as deep as `uc` reads them, 4,096 levels; what goes through a
whole term therefore does so by a stack.
"""
import re
from collections import namedtuple

from .faults import BROKEN, Fault

TOKEN = re.compile(r"[a-z][A-Za-z0-9_]*|[A-Z][A-Za-z0-9_]*|'(?:[^'\\]|\\.)*'|\$[a-z][A-Za-z0-9_]*|[+-]?[0-9]+|!=|[(),.=\[\]]")

Clause = namedtuple("Clause", "name role positive left right")
Clause.__doc__ = "An equation, or the denial of one."

Problem = namedtuple("Problem", "axioms goals arity first")
Problem.__doc__ = "The clauses of a problem, the number of arguments of each symbol, and the symbols by first occurrence."


def tokens(text):
    """Returns the tokens of a line."""
    return TOKEN.findall(text)


def is_variable(term):
    """Returns whether a term is a variable."""
    return term[0][0].isupper()


def read_term(words, at):
    """Reads a term from the token number `at` on; returns it and the number of the token after it."""
    open_terms = []
    while True:
        name, at = words[at], at + 1
        if at < len(words) and words[at] == "(":
            open_terms.append([name])
            at += 1
            continue
        done = (name,)
        while open_terms:
            open_terms[-1].append(done)
            mark, at = words[at], at + 1
            if mark == ",":
                break
            done = tuple(open_terms.pop())
        else:
            return done, at


def parts(term):
    """Goes through the subterms of a term, the term itself first."""
    waiting = [term]
    while waiting:
        part = waiting.pop()
        yield part
        waiting.extend(reversed(part[1:]))


def size(term):
    """Returns the number of symbols and variables of a term."""
    return sum(1 for _ in parts(term))


def text_of(term):
    """Returns a term as `uc` prints it."""
    pieces, waiting = [], [term]
    while waiting:
        part = waiting.pop()
        if isinstance(part, str):
            pieces.append(part)
            continue
        pieces.append(part[0])
        if len(part) > 1:
            waiting.append(")")
            for argument in reversed(part[2:]):
                waiting += [argument, ","]
            waiting += [part[1], "("]
    return "".join(pieces)


def read_clause(line):
    """Reads a line `cnf(NAME, ROLE, EQUATION).`"""
    words = tokens(line)
    left, at = read_term(words, 6)
    right, _ = read_term(words, at + 1)
    return Clause(words[2], words[4], words[at] == "=", left, right)


def read_problem(text):
    """Reads what `uc show` prints."""
    axioms, goals, arity, first = [], [], {}, []
    for line in text.splitlines():
        try:
            clause = read_clause(line)
        except IndexError as error:
            raise Fault(BROKEN, f"uc show printed no clause: {line[:60]!r}") from error
        (axioms if clause.positive else goals).append(clause)
        for side in (clause.left, clause.right):
            for part in parts(side):
                if not is_variable(part) and part[0] not in arity:
                    arity[part[0]] = len(part) - 1
                    first.append(part[0])
    return Problem(axioms, goals, arity, first)
