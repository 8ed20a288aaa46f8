"""Proofs as `uc prove` prints them: lines with their chains."""
from collections import namedtuple

from .clauses import read_term, tokens
from .faults import REFUSED, Fault

START = "% SZS output start CNFRefutation for "
END = "% SZS output end CNFRefutation for "

Step = namedtuple("Step", "by way path term")
Step.__doc__ = "A part of a term replaced: the line used, `lr` or `rl`, the position, and the term after it."

Line = namedtuple("Line", "name role positive left right rule note chain parents")
Line.__doc__ = "A line: its equation (no sides where it is `$false`), its rule, its clause in the file, its first term and steps, its parents."


class Reader:
    """Goes through the tokens of one line."""

    def __init__(self, text):
        self.words = tokens(text)
        self.at = 0

    def next(self):
        """Returns the next token."""
        self.at += 1
        return self.words[self.at - 1]

    def expect(self, *marks):
        """Passes over the given tokens."""
        for mark in marks:
            if self.next() != mark:
                raise ValueError(f"{mark} is missing")

    def term(self):
        """Reads a term."""
        term, self.at = read_term(self.words, self.at)
        return term

    def listed(self, read):
        """Reads a list in square brackets."""
        self.expect("[")
        found = []
        while self.words[self.at] != "]":
            if found:
                self.expect(",")
            found.append(read())
        self.at += 1
        return found

    def step(self):
        """Reads a step of a chain."""
        self.expect("step", "(")
        by = self.next()
        self.expect(",")
        way = self.next()
        self.expect(",")
        path = tuple(int(number) for number in self.listed(self.next))
        self.expect(",")
        term = self.term()
        self.expect(")")
        return Step(by, way, path, term)

    def member(self):
        """Reads a member of the information of an inference: a step, or a term or word."""
        if self.words[self.at] == "step" and self.words[self.at + 1] == "(":
            return self.step()
        return self.term()

    def source(self):
        """Reads where a line comes from: its rule, a note, what the rule is told, and the parents."""
        kind = self.next()
        self.expect("(")
        if kind == "file":
            self.next()
            self.expect(",")
            return "file", self.next(), [], []
        rule = self.next()
        self.expect(",")
        told = self.listed(self.member)
        self.expect(",")
        return rule, None, told, self.listed(self.next)

    def line(self):
        """Reads the whole line."""
        self.expect("cnf", "(")
        name = self.next()
        self.expect(",")
        role = self.next()
        self.expect(",")
        left = right = None
        positive = True
        if self.words[self.at] == "$false":
            self.at += 1
        else:
            left = self.term()
            positive = self.next() == "="
            right = self.term()
        self.expect(",")
        rule, note, told, parents = self.source()
        chain = told if rule == "chain" else []
        return Line(name, role, positive, left, right, rule, note, chain, parents)


def read_proof(text):
    """Returns the name and the lines of the first proof of a text, or None where there is none."""
    rows = text.splitlines()
    starts = [number for number, row in enumerate(rows) if row.startswith(START)]
    if not starts:
        return None
    lines = []
    for number in range(starts[0] + 1, len(rows)):
        row = rows[number]
        if row.startswith(END):
            return rows[starts[0]][len(START) :], lines
        if not row.strip() or row.startswith("%"):
            continue
        try:
            lines.append(Reader(row).line())
            check_line(lines)
        except (IndexError, ValueError, LookupError) as error:
            raise Fault(REFUSED, f"line {number + 1} is no line of a proof: {row[:60]!r}") from error
    raise Fault(REFUSED, "the proof has no end line")


def check_line(lines):
    """Refuses a line whose parents or positions aren't there; whether it is right is for `uc check` to say."""
    earlier = {line.name for line in lines[:-1]}
    line = lines[-1]
    used = list(line.parents) + [step.by for step in line.chain[1:]]
    if any(name not in earlier for name in used):
        raise ValueError("a line that isn't there")
    if line.rule == "chain":
        before = line.chain[0]
        for step in line.chain[1:]:
            subterm(before, step.path)
            subterm(step.term, step.path)
            before = step.term


def subterm(term, path):
    """Returns the subterm at a position, whose numbers count from 1."""
    for number in path:
        if not 1 <= number < len(term):
            raise ValueError("a position that isn't there")
        term = term[number]
    return term
