"""Histories of a search, as `uc prove --trace` prints them, and what they tell of its course."""
import re
from collections import Counter, namedtuple

EVENT = re.compile(r"^% (\d+) w(\d+) (draw|commit|drop|reclaim|audit|close)\b ?(.*)$")

Event = namedtuple("Event", "number worker what words")

Course = namedtuple("Course", "live waiting drawn counts ending")
Course.__doc__ = "Curves as lists of (event, value): live facts, waiting pairs, drawn pairs; how often what happened; the last word."


def read_trace(text):
    """Returns the events of a text; none where it has no history."""
    events = []
    for row in text.splitlines():
        found = EVENT.match(row)
        if found:
            events.append(Event(int(found[1]), int(found[2]), found[3], found[4].split()))
    return events


def number_after(words, name):
    """Returns the number behind a word of an event."""
    return int(words[words.index(name) + 1])


def least_axioms(events):
    """Returns the least number of axioms with which the history can be: so many pairs waited when it began."""
    _, waiting = course_of(events, 0)[:2]
    return -min(value for _, value in waiting)


def course_of(events, axioms):
    """Returns the curves of a history of a search of so many axioms."""
    live, waiting, drawn, counts = [(0, 0)], [(0, axioms)], [], Counter()
    facts, pairs, ending = 0, axioms, None
    for event in events:
        words = event.words
        kind = " ".join([event.what, *words[:1]]) if event.what in ("draw", "commit", "reclaim") else event.what
        if event.what == "commit" and words[0] == "join":
            kind += f" {words[2]}"
            facts += words[2] == "kept"
        elif event.what == "draw" and words[0] == "join":
            pairs -= 1
            drawn.append((event.number, int(words[1])))
        elif event.what == "commit" and words[0] == "meet":
            kills = number_after(words, "kills")
            pairs += number_after(words, "pairs") + kills
            facts -= kills
        elif event.what == "drop":
            pairs -= 1
        elif event.what == "reclaim" and words[0] == "join":
            pairs += 1
        elif event.what == "audit":
            facts += 1
        elif event.what == "close":
            ending = words[0]
        counts[kind] += 1
        live.append((event.number, facts))
        waiting.append((event.number, pairs))
    return Course(live, waiting, drawn, counts, ending)
