"""The states that are reached by lists of steps, lists that are drawn by chance, and rounds among states."""

from collections import deque

from . import values

LONGEST = 2000


class TooMany(Exception):
    pass


class Reached:
    """The inner states that are reached from one, by number. `before` is how each was reached first: from which state, by which step. `arcs`
    are the steps from each: the step, its weight, and the state that it leads to, or the base cost where it ends. `led` is the list by which
    the first was reached from the target. Where there are more than `most`, they are too many if all are wanted; else only the first have arcs.
    They are too many too where the time of `clock` is over."""

    def __init__(self, m, most, first, led=(), wants_all=True, clock=None):
        self.m, self.play, self.faults, self.led = m, values.Play(m), 0, [step.text for step in led]
        self.states, self.before, self.arcs, self.numbers = [], [], [], {}
        if self.ends_at(first) == ("inner", None):
            self.number(first, None)
        while len(self.arcs) < min(len(self.states), most):
            self.arcs.append(self.arcs_from(len(self.arcs)))
            if wants_all and len(self.states) > most or clock and clock.is_over():
                raise TooMany
            if clock:
                clock.tell(f"{len(self.states)} states are reached, and {len(self.arcs)} were looked at")

    def ends_at(self, state):
        """Whether the state is inner, base with its cost, or not allowed. A state with a fault is on no plan."""
        try:
            if self.play.forbidding(state):
                return "not allowed", None
            base = self.play.base_cost(state)
        except values.Fault:
            self.faults += 1
            return "not allowed", None
        return ("inner", None) if base is None else ("base", base)

    def number(self, state, before):
        key = tuple(state)
        if key not in self.numbers:
            self.numbers[key] = len(self.states)
            self.states.append(state)
            self.before.append(before)
        return self.numbers[key]

    def arcs_from(self, k):
        arcs = []
        for step in self.play.steps_from(self.states[k]):
            try:
                weight, _, state = self.play.after(step, self.states[k], None)
            except values.Fault:
                self.faults += 1
                continue
            kind, base = self.ends_at(state)
            if kind == "base":
                arcs.append((step, weight, None, base))
            elif kind == "inner":
                arcs.append((step, weight, self.number(state, (k, step)), None))
        return arcs

    def way(self, k):
        """The steps by which a state was reached first, from the target."""
        steps = []
        while self.before[k]:
            k, step = self.before[k]
            steps.append(step.text)
        return self.led + steps[::-1]


def drawn_list(play, draw, clock=None):
    """A list that is drawn step by step, up to where it ends; None where it leads nowhere, or the time of `clock` is over."""
    state, steps = play.model.target, []
    while len(steps) < LONGEST and not (clock and clock.is_over()):
        try:
            if play.forbidding(state) or play.base_cost(state) is not None:
                return steps
            ways = list(play.steps_from(state))
            if not ways:
                return None
            steps.append(draw.choice(ways))
            state = play.after(steps[-1], state, None)[2]
        except values.Fault:
            return None
    return None


def followers(reached):
    """For each state with arcs the states with arcs that its steps lead to, each with the step."""
    count = len(reached.arcs)
    return [[(to, step) for step, _, to, _ in arcs if to is not None and to < count] for arcs in reached.arcs]


def on_rounds(after):
    """The states that are left when those without a state before them are taken away, again and again: of these some are on a round."""
    before = [0] * len(after)
    for arcs in after:
        for to, _ in arcs:
            before[to] += 1
    first = [k for k, count in enumerate(before) if not count]
    for k in first:
        for to, _ in after[k]:
            before[to] -= 1
            if not before[to]:
                first.append(to)
    return [k for k, count in enumerate(before) if count]


def way_back(after, k):
    """The steps of a shortest round from a state to itself; None where none is."""
    ways, waiting = {}, deque([k])
    while waiting:
        at = waiting.popleft()
        for to, step in after[at]:
            if to == k:
                return [*steps_to(ways, at), step]
            if to not in ways:
                ways[to] = (at, step)
                waiting.append(to)
    return None


def steps_to(ways, at):
    steps = []
    while at in ways:
        at, step = ways[at]
        steps.append(step)
    return steps[::-1]


def first_round(m, most):
    """Among the first states that are reached: the steps that lead to one that comes again, and a shortest round from there; else None."""
    reached = Reached(m, most, m.target, wants_all=False)
    after = followers(reached)
    for k in on_rounds(after):
        steps = way_back(after, k)
        if steps:
            return reached.way(k), steps
    return None
