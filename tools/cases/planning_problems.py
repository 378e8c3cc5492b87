"""More problems of models/, stated again as those of model_problems.py are: lots, a chain of matrices, set-up times, an electric van."""

import math
from functools import cache
from heapq import heappop, heappush
from itertools import permutations

import field_problems
import model_problems
from model_problems import Problem, rows, without


class LotSizing(Problem):
    """How much is made in each period, with a cost for setting up the machine and one for what is kept."""

    folder = "lot_sizing"
    demand, setup = [3, 9, 8, 2, 5, 9, 7, 10, 9, 1], [29, 10, 39, 36, 25, 18, 27, 17, 16, 32]
    unit, hold = [4, 5, 5, 4, 4, 2, 2, 2, 5, 4], [1, 1, 1, 1, 2, 1, 2, 2, 2, 2]
    most, room = 12, 15

    def cost(self, t, amount, kept):
        return self.setup[t] * (amount > 0) + amount * self.unit[t] + self.hold[t] * kept

    def start(self):
        return 0, 0

    def is_allowed(self, state):
        return 0 <= state[1] <= self.room

    def base_cost(self, state):
        return 0 if state[0] == len(self.demand) else None

    def free(self, state):
        t, stock = state
        for amount in range(self.most + 1):
            kept = stock + amount - self.demand[t]
            yield f"make {amount}", self.cost(t, amount, kept), (t + 1, kept)

    def bounds(self, state):
        t, stock = state
        return [min(self.unit[t:]) * max(0, sum(self.demand[t:]) - stock)]

    def optimum(self):
        """By a table of what was made in all, period by period."""
        costs, due = {0: 0}, 0
        for t, demand in enumerate(self.demand):
            following, due = {}, due + demand
            for made, cost in costs.items():
                for total in range(max(made, due), min(made + self.most, due + self.room) + 1):
                    new = cost + self.cost(t, total - made, total - due)
                    following[total] = min(new, following.get(total, new))
            costs = following
        return min(costs.values())


class MatrixChain(Problem):
    """A product of matrices, of which two that stand side by side are multiplied at a time."""

    folder = "matrix_chain"
    dim = [21, 10, 25, 13, 27, 24, 28, 25, 22]

    def start(self):
        return (frozenset(range(len(self.dim))),)

    def base_cost(self, state):
        return 0 if len(state[0]) == 2 else None

    def free(self, state):
        cuts = sorted(state[0])
        for left, cut, right in zip(cuts, cuts[1:], cuts[2:]):
            yield f"multiply {left} {cut} {right}", self.dim[left] * self.dim[cut] * self.dim[right], (without(state[0], cut),)

    def bounds(self, state):
        ends = 0, len(self.dim) - 1
        return [sum(self.dim[k] * min(self.dim[:k]) * min(self.dim[k + 1 :]) for k in state[0] if k not in ends)]

    def optimum(self):
        """By where the last product of each part is cut."""

        @cache
        def best(i, j):
            return min((best(i, k) + best(k, j) + self.dim[i] * self.dim[k] * self.dim[j] for k in range(i + 1, j)), default=0)

        return best(0, len(self.dim) - 1)


class SetupTimes(Problem):
    """Jobs on one machine, which is set up for each by what was done before. Each has a weight for the time at which it is done."""

    folder = "setup_times"
    resources = {2: -1}
    length, weight = [0, 7, 4, 8, 12, 2, 3], [0, 1, 9, 4, 1, 2, 7]
    setup = rows("0 1 8 6 0 1 3\n3 0 0 8 2 4 6\n4 8 0 2 1 3 5\n0 3 7 0 8 6 5\n4 3 2 3 0 1 4\n7 4 1 1 8 0 6\n7 6 0 1 8 5 0")

    def start(self):
        return frozenset(range(1, 7)), 0, 0

    def base_cost(self, state):
        return None if state[0] else 0

    def free(self, state):
        left, last, time = state
        for job in sorted(left):
            done = time + self.setup[last][job] + self.length[job]
            yield f"do {job}", self.weight[job] * done, (without(left, job), job, done)

    def least(self, job):
        return self.weight[job] * (self.length[job] + min(row[job] for k, row in enumerate(self.setup) if k != job))

    def bounds(self, state):
        left, _, time = state
        return [time * sum(self.weight[job] for job in left) + sum(map(self.least, left))]

    def optimum(self):
        def cost(order):
            total = time = last = 0
            for job in order:
                time, last = time + self.setup[last][job] + self.length[job], job
                total += self.weight[job] * time
            return total

        return min(map(cost, permutations(range(1, 7))))


class ElectricVan(Problem):
    """Deliveries from a depot by a van that has to be charged on its ways."""

    folder = "electric_van"
    comes_back = True
    resources = {2: 1, 3: 1}
    hold, full, stations = 6, 110, (6, 7)
    demand = [0, 2, 1, 3, 3, 3, 0, 0]
    way = rows(
        "0 22 50 36 31 31 39 39\n22 0 44 50 35 9 52 47\n50 44 0 42 76 44 42 87\n36 50 42 0 66 58 3 71\n"
        "31 35 76 66 0 40 69 14\n31 9 44 58 40 0 60 53\n39 52 42 3 69 60 0 74\n39 47 87 71 14 53 74 0"
    )

    def start(self):
        return frozenset(range(1, 6)), 0, self.hold, self.full

    def base_cost(self, state):
        return 0 if not state[0] and state[1] == 0 else None

    def free(self, state):
        left, at, stock, charge = state
        for to in sorted(left):
            if self.demand[to] <= stock and self.way[at][to] <= charge:
                yield f"serve {to}", self.way[at][to], (without(left, to), to, stock - self.demand[to], charge - self.way[at][to])
        if at != 0 and self.way[at][0] <= charge:
            yield "load", self.way[at][0], (left, 0, self.hold, self.full)
        for to in self.stations:
            if to != at and self.way[at][to] <= charge:
                yield f"recharge {to}", 2 * self.way[at][to] + self.full - charge, (left, to, stock, self.full)

    def entry(self, place):
        return min(row[place] for k, row in enumerate(self.way) if k != place)

    def bounds(self, state):
        left, at, *_ = state
        return [sum(map(self.entry, left)) + (0 if at == 0 else self.entry(0))]

    def optimum(self):
        """By Dijkstra's method, over who waits, the place, and what was used of room and charge."""
        begin = 0b11111, 0, 0, 0
        costs, queue = {begin: 0}, [(0, begin)]
        while queue:
            cost, state = heappop(queue)
            waits, at, used, gone = state
            if not waits and at == 0:
                return cost
            if cost > costs[state]:
                continue
            for to, way in enumerate(self.way[at]):
                if to == at or gone + way > self.full:
                    continue
                if to in self.stations:
                    new = cost + way + gone + way, (waits, to, used, 0)
                elif to == 0:
                    new = cost + way, (waits, 0, 0, 0)
                elif waits >> (to - 1) & 1 and used + self.demand[to] <= self.hold:
                    new = cost + way, (waits - (1 << (to - 1)), to, used + self.demand[to], gone + way)
                else:
                    continue
                if new[0] < costs.get(new[1], math.inf):
                    costs[new[1]] = new[0]
                    heappush(queue, new)
        return None


PROBLEMS = [*model_problems.PROBLEMS, LotSizing(), MatrixChain(), SetupTimes(), ElectricVan(), *field_problems.PROBLEMS]
