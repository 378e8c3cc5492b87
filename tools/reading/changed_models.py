"""Models of the folder `models` with changes by chance: in operators, relations, numbers, preferences and tables that are named, and in the cells of the
problem; and with fewer members in the sets of the target, so that few states are reached."""

import glob
import os
import re

from . import shell

FILES = {"tour": [("time_windows.yaml", "four_customers.yaml")], "one_variable": [("climb.yaml", "climb_from_0.yaml"), ("like_lines.yaml", "like_lines_from_0.yaml")]}
PREFERENCE, INTEGER = r"preference: (?:less|greater)", r"type: integer(?= [},])"
RELATION, OPERATOR, NUMBER, BOUND = r"\((?:<=|<|>=|>|=|!=) ", r"\((?:\+|-|max|min|/|\*) ", r"(?<=[ (])-?\d+(?=[ )\]])", r"(?<=\n  - )\(.*\)(?=\n)"
CELL = r"(?<=[:\[,] )-?\d+(?=[ ,}\n\]])"


def read():
    """The texts of the models, by folder."""
    found = []
    for folder in sorted(glob.glob(os.path.join(shell.TOP, "models", "*", ""))):
        name = os.path.basename(os.path.dirname(folder))
        for pair in FILES.get(name, [("domain.yaml", "problem.yaml")]):
            paths = [os.path.join(folder, part) for part in pair]
            if all(map(os.path.isfile, paths)):
                found.append((name, *(shell.bytes_of(path).decode() for path in paths)))
    return found


def changed_at(draw, text, pattern, change, since=0):
    """A text with a change in one of the places that a pattern has behind `since`."""
    places = [m for m in re.finditer(pattern, text) if m.start() >= since]
    if not places:
        return text
    m = draw.choice(places)
    return text[: m.start()] + change(m.group()) + text[m.end() :]


def changed_domain(draw, text):
    bounds = max(0, text.find("dual_bounds:"))
    since = bounds if draw.random() < 0.4 else 0
    tables = re.findall(r"name: (\w+), type: integer, args: \[ \w+ \]", text)
    kinds = [
        (PREFERENCE, lambda word: "preference: " + ("greater" if "less" in word else "less"), 0),
        (INTEGER, lambda word: f"{word}, preference: {draw.choice(['less', 'greater'])}", 0),
        (RELATION, lambda _: f"({draw.choice(['<=', '<', '>=', '>', '=', '!='])} ", since),
        (OPERATOR, lambda _: f"({draw.choice(['+', '-', 'max', 'min', '+', '-', '*'])} ", since),
        (NUMBER, lambda word: str(int(word) + draw.choice([-2, -1, 1, 1, 2, 10])), since),
        (r"forced: true", lambda _: "forced: false", 0),
        (r"\(sum \w+ ", lambda word: f"(sum {draw.choice(tables or [word.split()[1]])} ", since),
        (BOUND, lambda word: draw.choice([f"(+ {word} {draw.choice([1, 1, 2])})", f"(- {word} {draw.choice([1, 1, 2])})", f"(- 0 {word})", f"(* 2 {word})"]), bounds),
    ]
    return changed_at(draw, text, *draw.choice(kinds))


def changed_problem(draw, text):
    return changed_at(draw, text, CELL, lambda word: str(int(word) + draw.choice([-5, -2, -1, 1, 1, 2, 5])), text.find("table_values"))


def fewer(draw, text):
    """The problem with one member less in a set of its target."""
    target = re.search(r"\ntarget:\n(?: .*\n)+", text)
    if not target:
        return text
    lists = [m for m in re.finditer(r"\[ (\d+(?:, \d+)*) \]", target.group())]
    if not lists:
        return text
    m = draw.choice(lists)
    members = m.group(1).split(", ")
    members.remove(draw.choice(members))
    start = target.start() + m.start()
    return text[:start] + (f"[ {', '.join(members)} ]" if members else "[]") + text[start + len(m.group()) :]


def changed(draw, domain, problem):
    """The texts with one to three changes."""
    for _ in range(draw.choice([1, 1, 1, 2, 3])):
        if draw.random() < 0.65:
            domain = changed_domain(draw, domain)
        else:
            problem = changed_problem(draw, problem)
    return domain, problem
