#!/usr/bin/env python3
"""Works out what the solver must print for each model of models/, and compares.

    python3 tools/cases/models_check.py [PROGRAM]

from the top of the repository. PROGRAM is a build of the solver; without one only the texts of models/*/README.md are
compared, and those of the searches that docs/GUIDE.md shows. The status is 0 where all agree.

Nothing here reads a model or shares code with the solver. Each problem is stated again, with its data, in two ways: as a
class with its own states and steps, and as a plain enumeration of all solutions, which knows neither (model_problems.py and
planning_problems.py).
For each it asks

- that the best cost of all lists of steps is that of the enumeration;
- that the dual bounds and the preferences tell the truth in all states that are reached, a preferred state needing no more steps;
- that its own complete anytime beam search (model_search.py), with one worker, prints what the README shows and what PROGRAM
  prints, with pruning and without, with the nodes of a layer kept and with those of all, and with small budgets; that with several workers the last line is the same; and that lists
  of steps are replayed as they should be.

The cases of the file models.txt of crates/cases_runs are written from these runs, by runs.py."""

import os
import re
import subprocess
import sys
from functools import cache
from glob import glob
from itertools import permutations, product
from pathlib import Path

from asked import asked
from model_problems import OF_THE_GUIDE
from model_search import DEFAULT_BUDGET, Search, replayed
from planning_problems import PROBLEMS

MODELS = "models"
GUIDE = "docs/GUIDE.md"
LAST = "| tail -n 1"


# ---- all states: the best cost, and whether bounds and preferences tell the truth

def states_of(problem):
    """All allowed states that are reached."""
    states, new = set(), [problem.start()]
    while new:
        state = new.pop()
        if state not in states and problem.is_allowed(state):
            states.add(state)
            if problem.base_cost(state) is None:
                new += [successor for *_, successor in problem.steps(state)]
    return states


def values_by_length(problem, states):
    """For each length, until nothing changes, the best cost of what completes a state in at most so many steps; None where nothing does."""
    values = {state: problem.base_cost(state) for state in states}
    inner = [state for state in states if problem.base_cost(state) is None]
    while True:
        yield values
        following = dict(values)
        for state in inner:
            rests = [(weight, values[successor]) for _, weight, successor in problem.steps(state) if successor in states]
            costs = [problem.join(weight, rest) for weight, rest in rests if rest is not None]
            if costs:
                following[state] = problem.best(costs)
        if following == values:
            return
        values = following


def look_through(problem):
    """The best cost of all lists; how many states, bounds and pairs of states were looked at; and what is not true of them. Of two
    states the preferred one must be as good in each number of steps, as is asked where the nodes of all layers cover."""
    states = states_of(problem)
    inner = [state for state in states if problem.base_cost(state) is None]
    search = Search(problem)
    groups = {}
    for state in inner:
        groups.setdefault(tuple(v for i, v in enumerate(state) if i not in problem.resources), []).append(state)
    pairs = [(a, b) for group in groups.values() for a, b in permutations(group, 2) if search.replaces(a, b)]
    wrong, bounds = [], 0
    for values in values_by_length(problem, states):
        for a, b in pairs:
            if values[b] is not None and (values[a] is None or problem.better(values[b], values[a])):
                wrong.append(f"{a} is preferred to {b}: {values[a]}, {values[b]}")
    for state in inner:
        for bound in problem.bounds(state):
            bounds += 1
            if values[state] is not None and problem.better(values[state], bound):
                wrong.append(f"the bound {bound} of {state}, whose value is {values[state]}")
    return values[problem.start()], (len(inner), bounds, len(pairs)), wrong


# ---- the runs of a model, and what they are compared with

BUDGETS = (1, 5, 20)
LONG_BUDGET = 10_000
GAP_BUDGETS = (20, LONG_BUDGET)
WORKERS = (2, 4)
WORKERS_OF_ALL = (2, 7)
KEEPS = {"layer": [], "all": ["--keep", "all"]}
PRUNES = {True: [], False: ["--prune", "off"]}


def files_of(problem):
    """The names of the two files of a model."""
    folder = f"{MODELS}/{problem.folder}"
    return f"{folder}/{problem.domain or 'domain.yaml'}", f"{folder}/{problem.problem or 'problem.yaml'}"


@cache
def searched(problem, prune, budget=DEFAULT_BUDGET, keep="layer", gap=False):
    search = Search(problem, prune, budget, keep, gap)
    text, status = search.run()
    return text, status, search.list


def keeps_of(problem):
    """With which nodes kept its searches come to an end: those of all layers, where lists may come to a state again."""
    return ["all"] if problem.comes_back else ["layer", "all"]


def solve_runs(problem):
    """Words behind `solve DOMAIN PROBLEM`, the whole text, the status."""
    for keep in keeps_of(problem):
        for prune, words in PRUNES.items():
            yield [*words, *KEEPS[keep]], *searched(problem, prune, keep=keep)[:2]
    for budget in (*BUDGETS, LONG_BUDGET) if problem.comes_back else BUDGETS:
        yield ["--budget", str(budget)], *searched(problem, True, budget)[:2]
    for budget in GAP_BUDGETS:
        yield ["--gap", "on", "--budget", str(budget)], *searched(problem, True, budget, gap=True)[:2]


def last_runs(problem):
    """Words behind `solve DOMAIN PROBLEM`, the last line, the status: other workers find other lists first."""
    for keep in keeps_of(problem):
        for prune, words in PRUNES.items():
            text, status, _ = searched(problem, prune, keep=keep)
            for workers in WORKERS_OF_ALL if keep == "all" else WORKERS:
                yield ["--workers", str(workers), *words, *KEEPS[keep]], text.splitlines()[-1], status


def replay_runs(problem):
    """Lists, the text, the status: the best list, the same without its last step, with its last step twice, and with its first."""
    best = searched(problem, True, keep="all")[2]
    lists = [best, best[:-1], (*best, best[-1]), (best[0], *best)]
    return [("".join(f"{step}\n" for step in steps), *replayed(problem, list(steps))) for steps in lists]


def shown(path):
    """The commands of a page with what they print, where they stand alone between fences."""
    with open(path, encoding="utf-8") as file:
        return re.findall(r"^```\n\$ \./dypdl (.*)\n((?:(?!```|\$).*\n)*)```", file.read(), re.MULTILINE)


class Differences:
    """Counts what was compared, and prints what differs."""

    def __init__(self):
        self.compared = self.bad = 0

    def compare(self, what, wanted, got):
        self.compared += 1
        if wanted != got:
            self.bad += 1
            print(f"--- {what}\nwanted {wanted}\ngot {got}")


def run_program(program, words):
    done = subprocess.run([program, *words], capture_output=True, check=False)
    return done.stdout.decode("utf-8", "replace"), done.returncode


def is_worked_out(command, text):
    return command.startswith(("solve ", "replay ")) and not ("verdict fault" in text or text.startswith(("refused ", "read ", "usage")))


def check_texts(path, problems, differences):
    """A page that shows searches of problems and replays: each command with its text, but for faults and refusals."""
    wanted = {}
    for problem in problems:
        for name in glob(f"{MODELS}/{problem.folder}/lists/*"):
            steps = Path(name).read_text(encoding="utf-8").splitlines()
            wanted[" ".join(["replay", *files_of(problem), name])] = replayed(problem, steps)[0]
        for words, text, _ in solve_runs(problem):
            command = " ".join(["solve", *files_of(problem), *words])
            wanted[command] = text
            wanted[f"{command} {LAST}"] = text.splitlines(True)[-1]
        for words, line, _ in last_runs(problem):
            wanted[" ".join(["solve", *files_of(problem), *words, LAST])] = f"{line}\n"
    commands = [(command, text) for command, text in shown(path) if is_worked_out(command, text)]
    if not commands:
        differences.compare(f"{path}: commands", "one or more", "none")
    for command, text in commands:
        differences.compare(f"{path}: {command}", wanted.get(command, "a run that is worked out"), text)


def check_program(problem, program, differences):
    domain, file = files_of(problem)
    for words, text, status in solve_runs(problem):
        words = ["solve", domain, file, *words]
        differences.compare(" ".join(words), (text, status), run_program(program, words))
    for words, last, status in last_runs(problem):
        words = ["solve", domain, file, *words]
        text, got = run_program(program, words)
        differences.compare(" ".join(words), (last, status), (text.splitlines()[-1], got))
    for steps, text, status in replay_runs(problem):
        name = f"/tmp/list_{os.getpid()}"
        with open(name, "w", encoding="ascii") as out:
            out.write(steps)
        words = ["replay", domain, file, name]
        differences.compare(f"{' '.join(words)}\n{steps}", (text, status), run_program(program, words))
        os.remove(name)


def check(problem, program):
    differences = Differences()
    optimum = problem.optimum()
    best, counts, wrong = look_through(problem)
    differences.compare(f"{problem.folder}: the best cost of all lists", optimum, best)
    differences.compare(f"{problem.folder}: honest", [], wrong)
    for keep, prune in product(keeps_of(problem), PRUNES):
        text, _, _ = searched(problem, prune, keep=keep)
        differences.compare(f"{problem.folder}: the verdict", f"verdict optimal {optimum}", text.splitlines()[-1])
    check_texts(f"{MODELS}/{problem.folder}/README.md", [problem], differences)
    if program:
        check_program(problem, program, differences)
    states, bounds, pairs = counts
    print(
        f"{problem.folder}: best {optimum}; {states} states, {bounds} bounds and {pairs} preferred pairs in them; "
        f"{differences.compared - differences.bad} of {differences.compared} agree"
    )
    return differences.bad


def check_guide():
    differences = Differences()
    check_texts(GUIDE, OF_THE_GUIDE, differences)
    print(f"{GUIDE}: {differences.compared - differences.bad} of {differences.compared} agree")
    return differences.bad


def main(program):
    sys.exit(min(1, sum(check(problem, program) for problem in PROBLEMS) + check_guide()))


if __name__ == "__main__":
    words = asked(__doc__, 0, 1, "program")
    main(os.path.abspath(words[0]) if words else None)
