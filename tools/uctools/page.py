"""The page of `uc-view`: one file of HTML, with no need of a network, that can be read in black and white and at any width."""
from html import escape

from . import drawing
from .clauses import is_variable, text_of
from .proofs import subterm

STYLE = """
:root { --ink: #111; --paper: #fff; --faint: #666; --line: #999; }
* { box-sizing: border-box; }
body { margin: 0 auto; max-width: 76rem; padding: 1rem; color: var(--ink); background: var(--paper);
  font: 16px/1.5 system-ui, sans-serif; }
h1 { font-size: 1.4rem; margin: 0 0 .3rem; overflow-wrap: anywhere; }
h2 { font-size: 1.15rem; margin: 1.6rem 0 .4rem; border-bottom: 1px solid var(--line); }
code, .term { font-family: ui-monospace, "DejaVu Sans Mono", monospace; font-size: .92em; overflow-wrap: anywhere; }
.scroll { overflow: auto; max-height: 34rem; border: 1px solid var(--line); padding: .5rem; }
.graph { display: block; margin: 0 auto; font-family: ui-monospace, monospace; }
.graph rect { fill: var(--paper); stroke: var(--ink); }
.graph .goal rect { stroke-width: 3; stroke-dasharray: 7 3; }
.graph .end rect { fill: var(--ink); }
.graph .end text { fill: var(--paper); }
.graph a:hover rect, .graph a:focus rect { stroke-width: 3; }
.graph .edge { fill: none; stroke: var(--faint); }
.graph text { text-anchor: middle; fill: var(--ink); }
.graph .name { font-weight: bold; font-size: 13px; }
.graph .small { font-size: 10.5px; }
details { border: 1px solid var(--line); border-radius: 6px; margin: .45rem 0; padding: 0 .6rem; }
details[open] { padding-bottom: .6rem; }
details:target { outline: 3px solid var(--ink); }
summary { cursor: pointer; padding: .35rem 0; overflow-wrap: anywhere; }
summary .kind { color: var(--faint); font-size: .85em; }
.step { display: grid; grid-template-columns: minmax(0, 1fr) minmax(0, 20rem); gap: .1rem 1rem; border-top: 1px dotted var(--line);
  padding: .4rem 0; }
.step .by { grid-column: 2; grid-row: 1 / span 2; font-size: .9em; border-left: 3px solid var(--line); padding-left: .6rem; }
.before::before { content: "  "; white-space: pre; }
.after::before { content: "= "; white-space: pre; font-weight: bold; }
mark { background: none; color: inherit; padding: 0 .12em; }
.before mark { border: 1.5px dashed var(--ink); }
.after mark { border: 1.5px solid var(--ink); font-weight: bold; }
.key { font-size: .9em; color: var(--faint); }
.chart { width: 100%; height: auto; display: block; }
table { border-collapse: collapse; }
td, th { border: 1px solid var(--line); padding: .15rem .6rem; text-align: left; }
td.number { text-align: right; }
button { font: inherit; margin-right: .5rem; }
@media (max-width: 640px) {
  body { padding: .6rem; font-size: 15px; }
  .step { grid-template-columns: minmax(0, 1fr); }
  .step .by { grid-column: 1; grid-row: auto; }
  .chart text { font-size: 17px; }
}
@media print { .scroll { max-height: none; overflow: visible; } button { display: none; } }
"""

SCRIPT = """
const all = open => document.querySelectorAll('details').forEach(part => { part.open = open; });
document.getElementById('unfold')?.addEventListener('click', () => all(true));
document.getElementById('fold')?.addEventListener('click', () => all(false));
const show = () => {
  const part = document.getElementById(location.hash.slice(1));
  if (part && part.tagName === 'DETAILS') { part.open = true; part.scrollIntoView(); }
};
document.querySelectorAll('.scroll').forEach(box => { box.scrollLeft = (box.scrollWidth - box.clientWidth) / 2; });
addEventListener('hashchange', show);
addEventListener('beforeprint', () => all(true));
document.addEventListener('click', event => {
  const link = event.target.closest('a[href^="#"]');
  if (link && link.getAttribute('href') === location.hash) { show(); }
});
show();
"""

KINDS = {"axiom": "axiom", "goal": "denied goal", "lemma": "lemma", "end": "contradiction"}
ENDINGS = {
    "proved": "; a goal is proved",
    "saturated": "; the facts are saturated",
    "budget": "; the budget is spent",
    "pairs": "; too many pairs would wait",
    "size": "; a term is too large",
}
RULES = {"chain": "", "encode": "the encoding of a goal with variables", "refute": "", "file": ""}


def counted(number, word):
    """Returns a number with a word behind it."""
    return f"{number:,} {word}{'' if number == 1 else 's'}"


def equation(line):
    """Returns what a line says."""
    if line.left is None:
        return "$false"
    return f"{text_of(line.left)} {'=' if line.positive else '!='} {text_of(line.right)}"


def marked(term, path):
    """Returns a term with the subterm at a position marked."""
    around = []
    part = term
    for number in path:
        around.append((part, number))
        part = part[number]
    text = f"<mark>{escape(text_of(part))}</mark>"
    for outer, number in reversed(around):
        before = "".join(escape(text_of(argument)) + "," for argument in outer[1:number])
        after = "".join("," + escape(text_of(argument)) for argument in outer[number + 1 :])
        text = f"{escape(outer[0])}({before}{text}{after})"
    return text


def instance(pattern, term):
    """Returns which variables of a pattern stand for what in a term, by first occurrence, where they stand for other than themselves."""
    found, waiting = {}, [(pattern, term)]
    while waiting:
        part, of = waiting.pop()
        if is_variable(part):
            found.setdefault(part[0], of)
        else:
            waiting.extend(reversed(list(zip(part[1:], of[1:]))))
    return [(name, of) for name, of in found.items() if of != (name,)]


def values_of(line, way, before, after):
    """Returns the variables of the line used and what they stand for, in words."""
    sides = (line.left, line.right) if way == "lr" else (line.right, line.left)
    found = dict(instance(sides[0], before))
    found.update(instance(sides[1], after))
    return ", ".join(f"{name} is {text_of(of)}" for name, of in found.items())


def step_html(step, before, by):
    """Returns the lines of the page for one step: the term before and after it, and the line used beside them."""
    old, new = subterm(before, step.path), subterm(step.term, step.path)
    way = "from left to right" if step.way == "lr" else "from right to left"
    values = values_of(by, step.way, old, new)
    told = f' <span class="key">with {escape(values)}</span>' if values else ""
    return (
        f'<div class="step"><div class="term before">{marked(before, step.path)}</div>'
        f'<div class="term after">{marked(step.term, step.path)}</div>'
        f'<div class="by"><a href="#{step.by}">{step.by}</a> {way}: <code>{escape(equation(by))}</code>{told}</div></div>'
    )


def line_html(line, by_name, is_open):
    """Returns a line of the proof, to unfold."""
    kind = drawing.kind_of(line)
    what = KINDS[kind] if line.rule != "encode" else RULES["encode"]
    note = f": {escape(line.note)}" if line.note else ""
    body = []
    if line.rule == "chain":
        before = line.chain[0]
        for step in line.chain[1:]:
            body.append(step_html(step, before, by_name[step.by]))
            before = step.term
        if len(line.chain) == 1:
            body.append(f'<p>Both sides are <span class="term">{escape(text_of(before))}</span>.</p>')
    elif line.parents:
        links = " and ".join(f'<a href="#{name}">{name}</a> <code>{escape(equation(by_name[name]))}</code>' for name in line.parents)
        body.append(f"<p>From {links}.</p>")
    else:
        body.append(f"<p>A clause of the problem{note}.</p>" if line.rule == "file" else "<p>It holds of every term.</p>")
    mark = " open" if is_open else ""
    steps = f", {counted(len(line.chain) - 1, 'step')}" if line.rule == "chain" else ""
    return (
        f'<details id="{line.name}"{mark}><summary><b>{line.name}</b> <code>{escape(equation(line))}</code> '
        f'<span class="kind">{what}{note}{steps}</span></summary>{"".join(body)}</details>'
    )


def proof_html(name, lines):
    """Returns the part of the page about a proof."""
    by_name = {line.name: line for line in lines}
    counts = {kind: sum(drawing.kind_of(line) == kind for line in lines) for kind in KINDS}
    steps = sum(max(0, len(line.chain) - 1) for line in lines)
    last = [line.name for line in lines if line.rule == "chain"][-1:]
    return "\n".join(
        [
            f"<p>A proof of <code>{escape(name)}</code>: {counted(counts['axiom'], 'axiom')}, "
            f"{counted(counts['lemma'], 'lemma')} with {counted(steps, 'step')}.</p>",
            "<h2>What uses what</h2>",
            '<p class="key">A double border is an axiom, a dashed one the goal that is denied, a round one a lemma, the black box the '
            "contradiction. An arrow leads from a line to one that uses it. A click unfolds the line below.</p>",
            f'<div class="scroll">{drawing.graph(lines, equation)}</div>',
            "<h2>Line by line</h2>",
            '<p class="key">In each step the part with the dashed border is replaced; the part with the solid border is what stands there '
            "after it. Beside it stands the line used.</p>",
            '<p><button id="unfold">Unfold all</button><button id="fold">Fold all</button></p>',
            *(line_html(line, by_name, line.name in last) for line in lines),
        ]
    )


def trace_html(course, weights, about_axioms):
    """Returns the part of the page about a history."""
    last = course.live[-1][0]
    span = (0, max(last, 1))
    parts = [
        "<h2>The course of the search</h2>",
        f"<p>{last:,} events{ENDINGS.get(course.ending, '')}.</p>",
        drawing.chart("Live facts", "event", "facts", [("live facts", course.live)], span=span),
        drawing.chart("Waiting pairs", "event", "pairs", [("waiting pairs", course.waiting)], span=span),
        f'<p class="key">{escape(about_axioms)}</p>' if about_axioms else "",
    ]
    if weights:
        parts.append(drawing.chart("Weight of the drawn pair", "event", "nodes of both sides", [("weight", weights)], dots=True, span=span))
    parts.append(drawing.chart("Number of the drawn pair, in order of forming", "event", "pair", [("pair", course.drawn)], dots=True, span=span))
    rows = "".join(f'<tr><td>{escape(kind)}</td><td class="number">{count:,}</td></tr>' for kind, count in sorted(course.counts.items()))
    parts.append(f"<h2>How often what happened</h2><table><tr><th>event</th><th>times</th></tr>{rows}</table>")
    return "\n".join(parts)


def whole(title, parts):
    """Returns the page."""
    policy = "default-src 'none'; style-src 'unsafe-inline'; script-src 'unsafe-inline'"
    return "\n".join(
        [
            "<!DOCTYPE html>",
            '<html lang="en"><head><meta charset="utf-8"><meta name="viewport" content="width=device-width, initial-scale=1">',
            f'<meta http-equiv="Content-Security-Policy" content="{policy}">',
            f"<title>{escape(title)}</title><style>{STYLE}</style></head><body>",
            f"<h1>{escape(title)}</h1>",
            *parts,
            f"<script>{SCRIPT}</script></body></html>",
            "",
        ]
    )
