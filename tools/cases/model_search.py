"""A complete anytime beam search over the problems of model_problems.py, with one worker, and what it prints; and a replay of
lists of steps. It shares no code with the solver."""

import math
from functools import partial

DEFAULT_BUDGET = 10_000_000


class Search:
    """Complete anytime beam search with one worker, and what it prints."""

    def __init__(self, problem, prune=True, budget=DEFAULT_BUDGET, keep="layer", gap=False):
        self.problem, self.prune, self.budget, self.keep, self.gap = problem, prune, budget, keep, gap
        self.bound = None  # what the passes have proved: no list is better
        self.best = math.inf  # the word of the best total so far
        self.drawn = 0
        self.list = ()  # the last that was printed
        self.lines = []

    def word(self, cost):
        """A number for a cost so far: the lesser, the better. No cost yet stands for the operator's unit."""
        if cost is None:
            cost = {"+": 0, "max": -math.inf, "min": math.inf}[self.problem.operator]
        return -cost if self.problem.maximize else cost

    def floor(self, state, cost):
        bounds = self.problem.bounds(state) if self.prune else []
        if not bounds:
            return None
        tightest = min(bounds) if self.problem.maximize else max(bounds)
        return self.problem.join(cost, tightest)

    def replaces(self, state, other):
        if not self.prune:
            return state == other
        signs = self.problem.resources
        return all(
            signs[i] * a >= signs[i] * b if i in signs else a == b for i, (a, b) in enumerate(zip(state, other))
        )

    def covers(self, node, other):
        return self.word(node[1]) <= self.word(other[1]) and self.replaces(node[0], other[0])

    def add(self, layer, node):
        """Adds a node to a layer, unless one there covers it; what it covers goes."""
        if any(self.covers(held, node) for held in layer):
            return
        layer[:] = [held for held in layer if not self.covers(node, held)]
        layer.append(node)

    def is_pruned(self, floor, looked):
        return floor is not None and self.word(floor) >= looked

    def visit(self, node, looked, keep):
        """Makes the successors of a node, and keeps each; answers its best total with the list that leads to it."""
        state, cost, _, path = node
        found = None
        for text, weight, successor in self.problem.steps(state):
            so_far = self.problem.join(cost, weight)
            if not self.problem.is_allowed(successor):
                continue
            end = self.problem.base_cost(successor)
            if end is not None:
                total = self.problem.join(so_far, end)
                if found is None or self.word(total) < self.word(found[0]):
                    found = total, (*path, text)
                continue
            floor = self.floor(successor, so_far)
            if not self.is_pruned(floor, looked):
                keep((successor, so_far, floor, (*path, text)))
        return found

    def one_pass(self, share):
        """Answers how many were visited, the floors of the dropped nodes, the best that was found, and whether the budget was spent."""
        start = self.problem.start()
        layer = [(start, None, self.floor(start, None), ())]
        visited, dropped = 0, []
        held = None
        past = []  # the kept nodes of all layers before, where they cover too
        while layer:
            layer = [node for node in layer if not any(self.covers(before, node) for before in past)]
            # nodes stand in the order of adding, which a stable sort keeps
            layer.sort(key=lambda n: (self.word(n[1] if n[2] is None else n[2]), self.word(n[1])))
            dropped += [node[2] for node in layer[share:]]
            if self.keep == "all":
                past += layer[:share]
            following = []
            for node in layer[:share]:
                looked = self.best
                if self.is_pruned(node[2], looked):
                    continue
                if self.drawn >= self.budget:
                    return visited, dropped, held, True
                self.drawn += 1
                visited += 1
                found = self.visit(node, looked, partial(self.add, following))
                if found and (held is None or self.word(found[0]) < self.word(held[0])):
                    held = found
                    self.best = min(self.best, self.word(found[0]))
            layer = following
        return visited, dropped, held, False

    def tell(self, cost, path):
        self.lines += [f"solution {cost} {len(path)}", *path]

    def better(self, a, b):
        return min(a, b, key=self.word)

    def prove(self, dropped, best):
        """Counts in what a pass proves that was closed: where all that it dropped have floors, that no list is better than the best so
        far and the best floor. Answers whether the best so far is proved."""
        if not (self.gap and dropped) or None in dropped:
            return False
        floor = min(dropped, key=self.word)
        by_pass = floor if best is None else self.better(best, floor)
        self.bound = by_pass if self.bound is None else max(self.bound, by_pass, key=self.word)
        return best is not None and self.word(best) <= self.word(floor)

    def run(self):
        """The text and the status."""
        printed = None
        start = self.problem.start()
        if not self.problem.is_allowed(start):
            return "verdict infeasible\n", 10
        if self.problem.base_cost(start) is not None:
            cost = self.problem.base_cost(start)
            return f"solution {cost} 0\nverdict optimal {cost}\n", 0
        number, share = 1, 1
        while True:
            visited, dropped, held, halted = self.one_pass(share)
            if held and (printed is None or self.word(held[0]) < self.word(printed)):
                printed = held[0]
                self.list = held[1]
                self.tell(*held)
            self.lines.append(f"pass {number} share {share} visited {visited} dropped {len(dropped)}")
            if halted:
                if self.bound is not None:
                    self.lines.append(f"bound {self.bound}")
                return self.told(f"verdict stopped {self.drawn}", 11)
            if not dropped or self.prove(dropped, printed):
                return self.told("verdict infeasible", 10) if printed is None else self.told(f"verdict optimal {printed}", 0)
            number, share = number + 1, 2 * share

    def told(self, verdict, status):
        return "\n".join([*self.lines, verdict]) + "\n", status


def replayed(problem, steps):
    """What is told of a list of steps, and the status. A step that the problem does not have in a state is not enabled."""
    state, cost = problem.start(), None
    for done in range(len(steps) + 1):
        if not problem.is_allowed(state):
            return f"verdict illegal {done} NotAllowed\n", 10
        end = problem.base_cost(state)
        if end is not None and done < len(steps):
            return f"verdict illegal {done} AfterBase\n", 10
        if done == len(steps):
            return (f"verdict illegal {done} NotBase\n", 10) if end is None else (f"verdict legal {problem.join(cost, end)}\n", 0)
        forced = next(iter(problem.forced(state)), None)
        if forced and forced[0] != steps[done]:
            return f"verdict illegal {done} Forced\n", 10
        taken = [step for step in problem.steps(state) if step[0] == steps[done]]
        if not taken:
            return f"verdict illegal {done} NotEnabled\n", 10
        cost, state = problem.join(cost, taken[0][1]), taken[0][2]
