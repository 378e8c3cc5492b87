"""What all lists of a small model say of its bounds and preferences."""

from . import values
from .reached import Reached


class AllLists:
    """The inner states that are reached, and of each the best cost of a list from there with at most n steps: `best[n]`. `endless` are states from which
    lists get better without end. More states than `most` are too many (TooMany)."""

    def __init__(self, m, most):
        self.m, self.reached = m, Reached(m, most, m.target)
        self.play, count = self.reached.play, len(self.reached.states)
        self.best, self.endless = [[None] * count], []
        # costs that are joined by max or min have no round that betters them without end
        while len(self.best) <= count + 1 or m.operator != "+":
            last = self.best[-1]
            following = [self.better_of(last[k], k) for k in range(count)]
            if following == last:
                return
            self.best.append(following)
        self.endless = [k for k in range(count) if self.best[-1][k] != self.best[-2][k]]

    def better_of(self, known, k):
        """The best cost from a state with one step more."""
        for _, weight, to, base in self.reached.arcs[k]:
            rest = base if to is None else self.best[-1][to]
            cost = None if rest is None else self.play.join(weight, rest)
            if cost is not None and (known is None or self.play.better(cost, known)):
                known = cost
        return known

    def cost(self):
        """The best cost of all lists from an inner target; None where there is no list."""
        return self.best[-1][0]

    def values(self, bound):
        """For each state with a list from there what a bound says, and the best cost; states where it has no value are left out."""
        for k, state in enumerate(self.reached.states):
            if self.best[-1][k] is not None:
                try:
                    yield k, self.play.value(bound, state, (), ""), self.best[-1][k]
                except values.Fault:
                    continue

    def lie_of(self, bound):
        """A state in which a bound is beaten by a list from there, or None."""
        for k, said, cost in self.values(bound):
            if self.play.better(cost, said) or k in self.endless:
                return self.reached.states[k], said, cost
        return None

    def slack(self, bound):
        """By how much a bound may be tightened everywhere; None where it is nowhere compared."""
        return min((abs(cost - said) * (-1 if self.play.better(cost, said) else 1) for _, said, cost in self.values(bound)), default=None)

    def lie_of_preferences(self, kept):
        """Two states, of which one is preferred by the preferences of these variables, and the other has a better list, or a shorter one; or None.
        Also how many pairs were compared."""
        merits = [(v.place, 1 if v.preference == "less" else -1) for v in self.m.variables if v.name in kept]
        others = [v.place for v in self.m.variables if v.name not in kept]
        groups, pairs, better_at = {}, 0, self.improvements()
        for k, state in enumerate(self.reached.states):
            groups.setdefault(tuple(state[i] for i in others), []).append(([state[i] * sign for i, sign in merits], k))
        for group in groups.values():
            for a, k in group:
                for b, other in group:
                    if k != other and all(x <= y for x, y in zip(a, b)):
                        pairs += 1
                        if not all(self.is_no_worse(self.best[n][k], cost) for n, cost in better_at[other]):
                            return (self.reached.states[k], self.reached.states[other]), pairs
        return None, pairs

    def improvements(self):
        """For each state the numbers of steps with which lists from there get better, each with the cost."""
        found = [[] for _ in self.reached.states]
        for n in range(1, len(self.best)):
            for k, (before, cost) in enumerate(zip(self.best[n - 1], self.best[n])):
                if cost != before:
                    found[k].append((n, cost))
        return found

    def is_no_worse(self, its, others):
        return its is not None and not self.play.better(others, its)
