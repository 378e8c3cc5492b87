"""What the solver prints, read by counts: a line that owns lines behind it, as `solution COST N` owns N steps, owns them whatever they look
like. So a step by the name `verdict optimal 0` misleads nobody. Lines of other text around what was printed, as on a page, are passed over."""

import functools
import re

COUNT, COST = "([0-9]{1,39})", "(-?[0-9]{1,39})"
FORMS = {
    "bound": [("part", r"bound [1-9][0-9]{0,38} (?:proved|open)"), ("bound", f"bound {COST}")],
    "preference": [("part", r"preference \S+ (?:proved|open)")],
    "announce": [("announce", f"announce {COST}")],
    "announced": [("announced", f"announced {COUNT} refused {COUNT}")],
    "solution": [("solution", f"solution {COST} {COUNT}")],
    "pass": [("pass", f"pass {COUNT} share {COUNT} visited {COUNT} dropped {COUNT}")],
    "search": [("search", f"search visited {COUNT}")],
    "verdict": [("fault", rf"verdict fault (\w+) at (.*) after {COUNT}"), ("verdict", r"verdict (\w+)(?: .*)?")],
    "certificate": [("better", f"certificate better {COST} {COUNT}"), ("faulty", rf"certificate fault (\w+) at (.*) after {COUNT}")],
    "keep": [("keep", r"keep (layer|all)")],
    "prune": [("prune", r"prune (on|off)")],
    "claim": [("claim", f"claim (?:optimal {COST}|infeasible)")],
    "steps": [("steps", f"steps {COUNT}")],
    **{word: [("end", form)] for word, form in (("refused", r"refused .*"), ("usage:", r"usage: .*"), ("read", r"read fault .*"), ("too", r"too long .*"), ("memory", r"memory"))},
}
BEHIND = {"prune": "keep", "claim": "prune", "steps": "claim"}
BEGINS = ("part", "announce", "solution", "pass", "search", "bound")
OWNERS = ("solution", "fault", "better", "faulty", "steps")


class Reader:
    """Tells of each line, in order, what it is: a kind of FORMS, `step` where it belongs to a line before it, or None."""

    def __init__(self):
        self.left, self.before = 0, None

    def kind(self, text):
        """The kind of the next line, and the match of its form."""
        if self.left:
            self.left -= 1
            return "step", None
        kind, match = form_of(text)
        if kind in BEHIND and self.before != BEHIND[kind]:
            kind = None
        if kind in OWNERS:
            self.left = int(match[match.lastindex])
        self.before = kind
        return kind, match


@functools.cache
def forms_of(word):
    """The forms of lines that begin with a word. Few tools read them, so they are made where they are wanted."""
    return [(kind, re.compile(form)) for kind, form in FORMS.get(word, ())]


def form_of(text):
    text = text.removesuffix("\r")
    word = text.split(" ", 1)[0]
    for kind, form in forms_of(word) if word in FORMS else ():
        match = form.fullmatch(text)
        if match:
            return kind, match
    return None, None


class Solution:
    """A plan as it was printed: its cost, its steps, and whether all of them are there. The last one may be `torn`, without the end of its line."""

    def __init__(self, cost, length):
        self.cost, self.length, self.steps, self.torn = cost, length, [], False

    def is_whole(self):
        return len(self.steps) == self.length and not self.torn


class Output:
    """A text with what the solver printed: its lines with their kinds, its plans; and of the last run in it the lines of parts, the bound of one
    that was stopped, the verdict with the steps that it owns, and the `prune` of a certificate."""

    def __init__(self, text):
        self.lines, self.solutions, self.parts, self.bound, self.verdict, self.verdict_steps, self.prune = [], [], [], None, None, [], None
        self.owned, self.has_ended, reader = [], False, Reader()
        *rows, last = text.split("\n")
        for row in rows + [last] * (last != ""):
            kind, match = reader.kind(row)
            if kind == "step":
                self.owned.append(row)
            else:
                self.owned = []
                self.take(kind, row.removesuffix("\r"), match)
            self.lines.append((kind, row))
        if last != "" and self.lines[-1][0] == "step" and self.solutions and self.owned is self.solutions[-1].steps:
            self.solutions[-1].torn = True

    def take(self, kind, row, match):
        """Takes a line that belongs to no other one."""
        before = self.lines[-1] if self.lines else (None, "")
        if kind in BEGINS and self.has_ended:  # another run
            self.parts, self.has_ended = [], False
        if kind == "solution":
            self.solutions.append(Solution(int(match[1]), int(match[2])))
            self.owned = self.solutions[-1].steps
            self.bound = None
        elif kind == "part":
            self.parts = [*self.parts, row] if before[0] == "part" else [row]
        elif kind == "prune":
            self.prune = match[1]
        elif kind in ("verdict", "fault"):
            self.verdict, self.verdict_steps, self.has_ended = row, self.owned, True
            self.bound = int(before[1].split(" ")[1]) if row.startswith("verdict stopped ") and before[0] == "bound" else None


def text_of(data):
    """A text that gives the same bytes again by `bytes_of`, whatever they are."""
    return data.decode("utf-8", "surrogateescape")


def bytes_of(text):
    return text.encode("utf-8", "surrogateescape")
