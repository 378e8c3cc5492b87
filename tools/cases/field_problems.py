"""More problems of models/, stated again as those of model_problems.py are: prizes that are gathered, stacks that are open, a knapsack
with many constraints."""

from itertools import permutations, product

from model_problems import Problem, rows, without


class Orienteering(Problem):
    """A traveller who gathers prizes at places that are open for a while, and is home in time."""

    folder = "orienteering"
    maximize = True
    resources = {2: -1}
    horizon = 200
    prize = [0, 15, 7, 30, 20, 13, 8, 17, 20]
    opens, closes = [0, 38, 16, 53, 63, 61, 45, 28, 54], [200, 95, 94, 121, 107, 136, 102, 103, 131]
    stay = 10
    way = rows(
        "0 36 21 24 23 50 29 31 33\n36 0 15 32 43 57 64 61 64\n21 15 0 20 34 54 49 46 49\n24 32 20 0 46 70 43 32 35\n"
        "23 43 34 46 0 27 41 51 53\n50 57 54 70 27 0 66 78 80\n29 64 49 43 41 66 0 19 18\n31 61 46 32 51 78 19 0 3\n33 64 49 35 53 80 18 3 0"
    )

    def start(self):
        return frozenset(range(1, 9)), 0, 0

    def base_cost(self, state):
        return 0 if not state[0] and state[1] == 0 else None

    def after(self, at, time, to):
        """When a visit has ended; None where it is too late for it, or for the way home."""
        there = time + self.way[at][to]
        end = max(there, self.opens[to]) + self.stay
        return end if there <= self.closes[to] and end + self.way[to][0] <= self.horizon else None

    def forced(self, state):
        left, at, time = state
        return [(f"give_up {p}", None, (without(left, p), at, time)) for p in sorted(left) if self.after(at, time, p) is None]

    def free(self, state):
        left, at, time = state
        for p in sorted(left):
            yield f"visit {p}", self.prize[p], (without(left, p), p, self.after(at, time, p))
        yield "home", None, (frozenset(), 0, time + self.way[at][0])

    def bounds(self, state):
        left, _, time = state
        best = max(-(-1000 * self.prize[p] // (self.stay + min(row[p] for k, row in enumerate(self.way) if k != p))) for p in range(1, 9))
        return [sum(self.prize[p] for p in left), (self.horizon - time) * best // 1000]

    def optimum(self):
        """Of all orders of all choices of places."""

        def gathered(at, time, left):
            reached = [(p, self.after(at, time, p)) for p in left]
            return max((self.prize[p] + gathered(p, end, left - {p}) for p, end in reached if end is not None), default=0)

        return gathered(0, 0, frozenset(range(1, 9)))


class OpenStacks(Problem):
    """Products are made one after the other; a customer's stack is open from the first of the customer's products to the last."""

    folder = "open_stacks"
    operator = "max"
    wants = rows(
        "0 0 0 0 0 0 1 0 0 1 1 0\n0 0 1 0 1 1 0 0 0 0 1 1\n0 0 0 0 0 0 0 1 0 1 0 0\n0 0 0 0 0 1 0 0 1 1 0 0\n"
        "1 0 0 0 0 0 0 1 1 1 0 0\n0 1 0 0 0 0 0 1 0 0 0 0\n0 0 0 0 0 0 0 0 1 0 0 0\n0 0 0 1 0 0 0 0 0 0 0 0"
    )

    def near(self, customer):
        mine = self.wants[customer]
        return frozenset(k for k, theirs in enumerate(self.wants) if k == customer or any(a and b for a, b in zip(mine, theirs)))

    def start(self):
        return frozenset(range(len(self.wants))), frozenset()

    def base_cost(self, state):
        return None if state[0] else 0

    def forced(self, state):
        left, begun = state
        return [(f"done {c}", len(begun & left), (without(left, c), begun)) for c in sorted(left) if self.near(c) <= begun]

    def free(self, state):
        left, begun = state
        for c in sorted(left):
            yield f"serve {c}", len(begun & left | self.near(c) - begun), (without(left, c), begun | self.near(c))

    def bounds(self, state):
        return [len(state[0] & state[1])]

    def optimum(self):
        """Of all orders of the customers, each of whom is served to the end by the products that they still wait for. Stacks are counted
        product by product."""

        def stacks(order):
            made = []
            for customer in order:
                made += [p for p, wanted in enumerate(self.wants[customer]) if wanted and p not in made]
            spans = [[made.index(p) for p, wanted in enumerate(row) if wanted] for row in self.wants]
            return max(sum(min(span) <= k <= max(span) for span in spans) for k in range(len(made)))

        return min(map(stacks, permutations(range(len(self.wants)))))


class MultiKnapsack(Problem):
    """Projects that take of several things that are scarce."""

    folder = "multi_knapsack"
    maximize = True
    resources = {1: 1, 2: 1, 3: 1}
    value = [13, 20, 17, 27, 13, 19, 27, 13, 30, 38]
    takes = rows("8 10 9 22 7 12 20 10 7 15\n10 14 16 0 5 12 23 4 26 21\n6 18 5 28 6 9 10 0 28 15")
    room = [54, 58, 56]

    def start(self):
        return 0, *self.room

    def base_cost(self, state):
        return 0 if state[0] == len(self.value) else None

    def free(self, state):
        at, *room = state
        left = [have - row[at] for have, row in zip(room, self.takes)]
        if min(left) >= 0:
            yield f"take {at}", self.value[at], (at + 1, *left)
        yield "leave", None, (at + 1, *room)

    def bounds(self, state):
        at, *room = state
        items = range(at, len(self.value))
        found = [sum(self.value[at:])]
        for have, row in zip(room, self.takes):
            rate = max((-(-1000 * self.value[i] // row[i]) for i in items if row[i]), default=0)
            found.append(sum(self.value[i] for i in items if not row[i]) + have * rate // 1000)
        return found

    def optimum(self):
        def worth(choice):
            fits = all(sum(take for take, chosen in zip(row, choice) if chosen) <= have for have, row in zip(self.room, self.takes))
            return sum(value for value, chosen in zip(self.value, choice) if chosen) if fits else 0

        return max(map(worth, product((False, True), repeat=len(self.value))))


PROBLEMS = [Orienteering(), OpenStacks(), MultiKnapsack()]
