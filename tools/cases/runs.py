#!/usr/bin/env python3
"""Writes the cases of crates/cases_runs and what they must give, the front of its stdout: runs.py VECTORS|stored, from the top of the
repository. Those whose texts are made when they run are written by made_runs.py.

VECTORS is a folder with the files that TABLES names: lists of models, each with the words of a run and with the output
and the status that a program which shares no code with the solver worked out. It is not part of the repository: with the word `stored` in its place the
cases of these tables stay as they are stored. The runs of the parts of checks
are part_runs.py's. The other runs, with their answers, stand in small_runs.py, guard_runs.py, rule_runs.py, certificate_runs.py, check_runs.py and proved_runs.py, written by hand; in docs/GUIDE.md and docs/LANGUAGE.md, from where guide_runs.py
and language_runs.py take them; and models_check.py works out those of the models of models/. Texts and words that mean no good are in
hostile_runs.py.

A case is its title, its texts, its runs (words, output, status), and its runs of which the last line is shown alone, since
the lines before it depend on how the workers of a search take turns."""

import json
import re
from collections import Counter
from pathlib import Path

import certificate_runs
import check_runs
import guard_runs
import guide_runs
import hostile_runs
import language_runs
import models_check
import part_runs
import proved_runs
import stored
from asked import asked
from case_lines import block, entry
from planning_problems import PROBLEMS
from rule_runs import RULES
from small_runs import ORDERS, RUNS
from stored import CRATE

# The file, the table, and of how many runs of one kind the first are taken (None: all).
TABLES = [
    ("one_variable", "first_form_one_variable", None),
    ("first_form", "first_form", None),
    ("refusals", "refusals", 6),
    ("replay", "replay", 4),
    ("whole", "models", 3),
    ("pruned", "pruned", 3),
    ("keep", "keep", 4),
    ("gap", "gap", 1),
    ("best", "best", 2),
    ("announce", "announce", 2),
    ("checks", "check", None),
    ("field", "field", None),
    ("profile", "profile2", 4),
]
TEXTS = ("domain", "problem", "list")


def told(words):
    """What a line tells, without its numbers: a refusal, a verdict, an illegal list's reason, a fault and its spot."""
    if words[0] == "refused":
        return words[2:]
    if words[:2] == ["verdict", "fault"]:
        places = ("constraint", "base", "total", "bound", "precondition", "weight", "cost", "effect")
        return words[:3] + [word for word in words[4:] if word in places]
    return [word for word in words if not word.lstrip("-").isdigit()]


def kind(case):
    """What a run comes to; of a search also whether it found no solution, one or more, made no pass, one, two or more, and printed a bound."""
    lines = [line.split(" ") for line in case["stdout"].splitlines()]
    found = [told(words) for words in lines if words[0] in ("refused", "verdict")]
    counts = [sum(words[0] == name for words in lines) for name in ("solution", "pass")]
    bound = ["bound"] * any(words[0] == "bound" for words in lines)
    return [*found[0], str(min(counts[0], 2)), str(min(counts[1], 3)), *bound]


def chosen(cases, most):
    """The cases with their numbers, of each kind the first few."""
    seen = Counter()
    for number, case in enumerate(cases, 1):
        name = " ".join(kind(case))
        seen[name] += 1
        if most is None or seen[name] <= most:
            yield number, case


def of_vectors(folder, name, table, most):
    with open(f"{folder}/{table}.json", encoding="utf-8") as file:
        for number, case in chosen(json.load(file), most):
            command = case.get("command", "solve")
            words = [command, "d", "p", *["l"] * ("list" in case), *case["words"]]
            texts = [(key, case[key]) for key in TEXTS if key in case]
            title = " ".join([name, str(number), *([case["name"]] if "name" in case else [])])
            yield title, texts, [(words, case["stdout"], case["status"])]


def standing(name, front):
    """The cases of one table as they are stored: the next ones of the front of stdout, as many as its file has."""
    with open(f"{CRATE}/data/{name}.txt", encoding="ascii") as file:
        count = sum(line.startswith("case ") for line in file)
    places = [0, *(place.start() + 1 for place in re.finditer("\n== ", front))]
    end = places[count] if count < len(places) else len(front)
    return front[:end], front[end:]


def of_tables(folder):
    """The cases of all tables: written anew from the folder, or else as they are stored."""
    if folder != "stored":
        return [write(name, part_runs.with_parts(of_vectors(folder, name, table, most), (1, 2, 3, 7))) for name, table, most in TABLES]
    out, front = [], stored.parts()[0]
    for name, _, _ in TABLES:
        text, front = standing(name, front)
        out.append(text)
    return out


def of_models():
    """The runs of the models of models/, with the answers that models_check.py works out from the problems themselves."""
    for problem in PROBLEMS:
        names = models_check.files_of(problem)
        texts = list(zip(TEXTS, (Path(name).read_text(encoding="utf-8") for name in names)))
        solve, replay = ["solve", "d", "p"], ["replay", "d", "p", "l"]
        runs = [([*solve, *words], text, status) for words, text, status in models_check.solve_runs(problem)]
        lasts = [([*solve, *words], f"{line}\n", status) for words, line, status in models_check.last_runs(problem)]
        yield problem.folder, texts, runs, lasts
        for number, (steps, text, status) in enumerate(models_check.replay_runs(problem), 1):
            yield f"{problem.folder}, list {number}", [("list", steps)], [(replay, text, status)]


def text_entry(key, text):
    """A text in lines of its own, or in one line where it does not end with a line feed."""
    return block(key, text) if text.endswith("\n") else entry(key, text)


def write(name, cases):
    """Writes the cases of one file, and returns what they must give. A text that stands is not written again."""
    out, standing = [], {}
    with open(f"{CRATE}/data/{name}.txt", "w", encoding="ascii") as file:
        for title, texts, runs, *more in cases:
            changed = [(key, text) for key, text in texts if standing.get(key) != text]
            standing.update(changed)
            file.write(f"case {title}\n" + "".join(text_entry(key, text) for key, text in changed))
            out.append(f"== {title}\n")
            for words, stdout, status in runs:
                file.write(entry("run", " ".join(words)))
                out.append(f"-- {' '.join(words)}\n{stdout}status {status}\n")
            for words, line, status in more[0] if more else []:
                file.write(entry("last", " ".join(words)))
                out.append(f"-- {' '.join(words)}\n..\n{line}status {status}\n")
            file.write("\n")
    return "".join(out)


def main(folder):
    out = of_tables(folder)
    out.append(write("small", RUNS))
    out.append(write("orders", ORDERS + RULES + guard_runs.RUNS))
    out.append(write("models", of_models()))
    out.append(write("guide", [*guide_runs.cases(), *language_runs.cases()]))
    out.append(write("certificates", part_runs.with_parts(certificate_runs.RUNS + check_runs.RUNS, (3,))))
    out.append(write("proved", proved_runs.RUNS))
    out.append(hostile_runs.write(f"{CRATE}/data/hostile.txt", hostile_runs.plain()))
    stored.write_front("".join(out))


main(asked(__doc__, 1, 1, "folder or stored")[0])
