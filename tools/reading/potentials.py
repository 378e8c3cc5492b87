"""Dual bounds that are made for a model: potentials.

A potential is a sum: a number for each member of each set that is in it, one for the mode, and a multiple of each integer. Where no step lets it
fall by more than the step's weight, and no end does, it is a dual bound (under `reduce: max` turned round). The best one for some states
is a linear program. Its answer is rounded, and the inequalities are checked in whole numbers. Numbers that are others in each mode are tolls."""

import functools
import math
import random
from fractions import Fraction

from . import values
from .columns import Columns, in_weights, near
from .symbols import Unknown, added

# An end of a span beyond this is no end.
FAR = 10**7
# Denominators that are tried for the answer of a linear program; the last one after the inequalities were made narrower.
DENOMINATORS = (1, 2, 3, 4, 5, 6, 8, 10, 12, 24, 60)
MOST_DENOMINATOR, LAST_DENOMINATOR = 10**6, 10000
NEAR = 1e-5
# What whole tolls may say less than those with fractions.
NEARLY = 0.015
DIVES, LONGEST, MOST_STATES, ENOUGH = 60, 400, 1500, 300


class Row:
    """An inequality: its parts, each a linear form over the columns times what lies in a span, are together at most 0."""

    __slots__ = ("free", "parts")

    def __init__(self, parts):
        self.free, self.parts = None, []
        for low, high, columns, number in parts:
            if low == high == 1:
                self.free = (columns, number)
            else:
                self.parts.append((low, high, columns, number))
        self.free = self.free or ({}, 0)

    def holds(self, whole, unit):
        """Whether it holds for whole numbers of which `unit` stand for 1."""
        columns, number = self.free
        total = number * unit + sum(c * whole[j] for j, c in columns.items())
        for low, high, columns, number in self.parts:
            e = number * unit + sum(c * whole[j] for j, c in columns.items())
            end = high if e > 0 else low
            if e and end is None:
                return False
            total += e * end if e else 0
        return total <= 0


class Potential:
    """Whole numbers for the columns, of which `unit` stand for 1."""

    def __init__(self, whole, unit):
        self.whole, self.unit = whole, unit


class Inequalities:
    """What a potential of a model has to keep: a row for each step of each mode, and each end behind it. Where it has tolls, `near_ones` is how many members near each mode have them."""

    def __init__(self, modes, clock, has_tolls=False, near_ones=None):
        m = modes.m
        if m.operator != "+":
            raise Unknown(f"only costs that are added up have potentials, and these are joined by `{m.operator}`")
        self.modes, self.m, self.clock, self.sign = modes, m, clock, 1 if m.minimize else -1
        self.inner = dict(modes.inner())
        if modes.mode_of(m.target) not in self.inner:
            raise Unknown("the target is no inner state, so there is nothing to search")
        moves = list(modes.moves())
        tolls = (near(modes, moves, near_ones), in_weights(modes, moves)) if has_tolls else ()
        self.columns = Columns(modes, *tolls)
        self.rows, self.least, self.greatest, self.varies = [], 0, 0, False
        for move in moves:
            clock()
            self.take(move)
        # where a base cost is no number, an end shows a quotient if all that is whole stands beside it, and what is left is never below 0
        self.is_split = self.varies and all(known.spans[p][0] >= 0 for known in self.inner.values() for p in modes.integers)
        # a quotient rounds toward zero, so a potential below 0 would round to the wrong side
        is_one_sided = m.minimize or self.is_split
        self.floors = [] if is_one_sided else [self.row(self.columns.height(mode, modes.state(mode, known)), {}, -1) for mode, known in self.inner.items()]

    def row(self, height, known, sign):
        """The row of `height <= known`, under `reduce: max` of `height >= known`."""
        atoms, parts = self.modes.atoms, []
        for monomial in {*height, *known}:
            columns = {j: sign * a for j, a in height.get(monomial, {}).items() if a}
            number = -sign * known.get(monomial, 0)
            if columns or number:
                low, high = atoms.span_of(monomial) if monomial else (1, 1)
                low, high = (None if low is None or low < -FAR else low), (None if high is None or high > FAR else high)
                parts.append((low, high, columns, number))
        return Row(parts)

    def put_row(self, height, known):
        row = self.row(height, known, self.sign)
        for low, high, columns, number in row.parts:
            if not columns and number and (high if number > 0 else low) is None:
                raise Unknown("a weight has no least value" if self.m.minimize else "a weight has no greatest value")
        self.rows.append(row)

    def see(self, weight):
        """Takes note of how great weights are."""
        low, high = self.modes.atoms.span(weight)
        if low is None or high is None or max(-low, high) > FAR**2:
            raise Unknown("a weight has no limits")
        self.least, self.greatest = min(self.least, low), max(self.greatest, -low, high)

    def take(self, move):
        modes, weight = self.modes, move.weight or {}
        self.see(weight)
        ends = modes.ends(move)
        now = self.columns.height(move.mode, move.now)
        if not any(sure for _, sure in ends):
            then = self.columns.height(modes.mode_of(move.then), move.then)
            difference = {monomial: dict(columns) for monomial, columns in now.items()}
            for monomial, columns in then.items():
                mine = difference.setdefault(monomial, {})
                for j, a in columns.items():
                    mine[j] = mine.get(j, 0) - a
            self.put_row(difference, weight)
        for base, _ in ends:
            known = modes.known_at(base, move)
            if known is None:
                continue
            cost = {} if base.cost is None else modes.symbolic.lazily(lambda b=base: modes.symbolic.number(b.cost.tree, move.then, ()), False)
            self.see(added(weight, cost))
            self.varies |= any(modes.atoms.with_known(cost, known))
            self.put_row(self.with_known(now, known), modes.atoms.with_known(added(weight, cost), known))

    def with_known(self, height, known):
        out = {}
        for monomial, columns in height.items():
            for settled, factor in self.modes.atoms.with_known({monomial: 1}, known).items():
                mine = out.setdefault(settled, {})
                for j, a in columns.items():
                    mine[j] = mine.get(j, 0) + factor * a
        return out

    # ---- values of potentials

    def value(self, potential, state):
        """The dual bound in a state, rounded as it is written."""
        total = sum(a * potential.whole[j] for j, a in self.columns.at(state).items())
        total += potential.unit - 1 if self.m.minimize else 0
        return total // potential.unit if total >= 0 or self.is_split else -(-total // potential.unit)

    def holds(self, whole, unit):
        """Whether all inequalities hold for these numbers, and what is written is a dual bound: by whole numbers alone."""
        self.clock()
        if unit > 1 and self.least < 0 and self.m.minimize and not self.is_split:
            return False
        return all(row.holds(whole, unit) for row in (self.rows if unit == 1 else [*self.rows, *self.floors]))


class Program:
    """The linear program of the inequalities, by HiGHS."""

    def __init__(self, inequalities, solver, clock):
        self.inequalities, self.solver, self.clock = inequalities, solver, clock
        self.count = len(inequalities.columns)
        self.limit = float(min(10**9, max(1000, inequalities.greatest * (10 + 2 * sum(inequalities.modes.count(p) for p in inequalities.modes.sets) + 2 * len(inequalities.inner)))))
        self.width, self.entries, self.right, self.slack, self.seen, self.not_below_0 = self.count, [], [], [], set(), set()
        for row in (*inequalities.rows, *inequalities.floors):
            self.put(row)
        self.used = {j for columns in self.entries for j in columns}

    def put(self, row):
        """Rows of the program: a part with a span is a column of its own, at least as great as at both ends."""
        columns, number = dict(row.free[0]), row.free[1]
        size = sum(map(abs, columns.values()))
        for low, high, mine, own in row.parts:
            if not mine:
                number += max(own * end for end in (low, high) if end is not None)
                continue
            if low is None:
                self.line({j: -a for j, a in mine.items()}, own, 0)
            if high is None:
                self.line(mine, -own, 0)
            ends = [end for end in (low, high) if end is not None]
            if ends:
                y, self.width = self.width, self.width + 1
                columns[y] = 1
            for end in ends:
                if end:
                    self.line({**{j: end * a for j, a in mine.items()}, y: -1}, -end * own, 0)
                else:
                    self.not_below_0.add(y)
            size += max(map(abs, ends), default=0) * sum(map(abs, mine.values()))
        self.line(columns, -number, size)

    def line(self, columns, right, size):
        key = (tuple(sorted(columns.items())), right)
        if key not in self.seen:
            self.seen.add(key)
            self.entries.append(columns)
            self.right.append(right)
            self.slack.append(size)

    def solve(self, aim, narrower=0.0, fixed=None):
        """The columns that are best for an aim, some of them with numbers that are fixed; None where none was found in time."""
        right = [r - narrower * size for r, size in zip(self.right, self.slack)]
        objective = [0.0] * self.width
        for j, a in aim.items():
            objective[j] = -self.inequalities.sign * float(a)
        bounds = [(-self.limit, self.limit)] * self.count + [(0 if y in self.not_below_0 else None, None) for y in range(self.count, self.width)]
        for j, x in (fixed or {}).items():
            bounds[j] = (x, x)
        found = self.solver(objective, self.entries, right, bounds, self.clock.left())
        if found is None:
            self.clock()
            return None
        return [x if j in self.used else 0.0 for j, x in enumerate(found)]

    def potentials(self, aim):
        """The best potential for an aim in whole numbers, where it was found. Of tolls one without a quotient comes first, and alone where it is nearly as good."""
        found = self.solve(aim)
        if found is None:
            return []
        best, q = self.exact(found), self.inequalities
        whole = None if not q.columns.by_mode or best is not None and best.unit == 1 else self.floored(aim, found)
        best = best or self.narrowed(aim)
        if whole is not None and best is not None:
            less, most = q.value(whole, q.m.target), q.value(best, q.m.target)
            best = None if abs(most - less) <= NEARLY * abs(most) else best
        return [self.tidy(potential) for potential in (whole, best) if potential is not None]

    def floored(self, aim, found):
        """An answer in whole numbers: first those that integers are multiplied by are rounded, then those of members, down, and those of modes are the best ones
        with them."""
        places, sign = self.inequalities.columns.places, self.inequalities.sign
        fixed = {j: round(found[j]) for key, j in places.items() if key[0] in ("product", "integer")}
        if any(abs(found[j] - x) > NEAR for j, x in fixed.items()):
            found = self.solve(aim, 0.0, fixed)
        if found is None:
            return None
        fixed |= {j: sign * math.floor(sign * found[j] + NEAR) for key, j in places.items() if key[0] == "member"}
        found = self.solve(aim, 0.0, fixed)
        if found is None:
            return None
        whole = [fixed.get(j, round(x)) for j, x in enumerate(found[: self.count])]
        return Potential(whole, 1) if self.inequalities.holds(whole, 1) else None

    def tidy(self, potential):
        """The same potential without numbers for members that are in, or out, in every state: these go to the modes."""
        whole, q = list(potential.whole), self.inequalities
        for member, is_in, modes in q.columns.settled():
            for mode in modes if is_in else ():
                whole[mode] += whole[member]
            whole[member] = 0
        return Potential(whole, potential.unit) if q.holds(whole, potential.unit) else potential

    def exact(self, found):
        """The answer itself, where it has a small denominator."""
        for unit in (*DENOMINATORS, self.common(found)):
            if unit is None:
                continue
            whole = [round(x * unit) for x in found[: self.count]]
            if all(abs(x * unit - n) < NEAR * unit for x, n in zip(found, whole)) and self.inequalities.holds(whole, unit):
                return Potential(whole, unit)
        return None

    def common(self, found):
        unit = 1
        for x in found[: self.count]:
            unit = math.lcm(unit, Fraction(x).limit_denominator(2000).denominator)
            if unit > MOST_DENOMINATOR:
                return None
        return unit

    def narrowed(self, aim):
        """An answer that still holds where each number is rounded by itself."""
        for unit in (LAST_DENOMINATOR, 1):
            found = self.solve(aim, 0.51 / unit)
            if found is not None:
                whole = [round(x * unit) for x in found[: self.count]]
                if self.inequalities.holds(whole, unit):
                    return Potential(whole, unit)
        return None


def drawn_states(m, seed):
    """Inner states on lists of steps that are drawn by chance, each with how far it stands on its list: 0 to 1."""
    play, draw, met = values.Play(m), random.Random(seed), []
    for _ in range(DIVES):
        if len(met) > MOST_STATES:
            break
        state, way = m.target, []
        for _ in range(LONGEST):
            try:
                if play.forbidding(state) or play.base_cost(state) is not None:
                    break
                way.append(state)
                steps = list(play.steps_from(state))
                if not steps:
                    break
                state = play.after(draw.choice(steps), state, None)[2]
            except values.Fault:
                break
        met += [(state, k / len(way)) for k, state in enumerate(way)]
    return met


def own_bound(play, state):
    """The tightest of the model's own bounds in a state; None where there is none."""
    best = None
    for k, b in enumerate(play.model.bounds, 1):
        try:
            said = play.value(b, state, (), f"bound {k}")
        except values.Fault:
            continue
        best = said if best is None or play.better(best, said) else best
    return best


class Deriver:
    """The potentials of a model: the first is the best for the target, further ones are taken where they are better in the midst."""

    def __init__(self, inequalities, program, tell):
        self.inequalities, self.program, self.tell = inequalities, program, tell
        self.m, self.play, self.found = inequalities.m, values.Play(inequalities.m), []

    @functools.cached_property
    def met(self):
        """Inner states that are drawn, each with how far it stands on its list."""
        return [(state, far) for state, far in drawn_states(self.m, 1) if self.inequalities.modes.mode_of(state) in self.inequalities.inner]

    def behind(self):
        """An aim at all states: each mode as often, each member that may be in or out by half, and integers in the middle of their spans."""
        aim, modes, columns = {}, self.inequalities.modes, self.inequalities.columns

        def put(column, a):
            aim[column] = aim.get(column, 0) + Fraction(a) / len(self.inequalities.inner)

        for mode, known in self.inequalities.inner.items():
            put(columns.of("mode", mode), 1)
            spans = {p: known.spans[p] for p in modes.integers if max(-known.spans[p][0], known.spans[p][1]) <= FAR}
            for p, span in spans.items():
                put(columns.of("integer", mode, p), Fraction(sum(span), 2))
            for p in modes.sets:
                for k, bit in enumerate(known.bits[p]):
                    half = Fraction(1, 2) if bit is None else int(bit)
                    put(columns.of("member", mode, p, k), half)
                    for q in columns.timed:
                        put(columns.of("product", mode, p, k, q), half * Fraction(sum(spans.get(q, (0,))), 2))
        return aim

    def at(self, states):
        """An aim at the average of some states."""
        aim = {}
        for state in states:
            for j, a in self.inequalities.columns.at(state).items():
                aim[j] = aim.get(j, 0) + Fraction(a, len(states))
        return aim

    def aims(self):
        target = self.at([self.m.target])
        yield "the target", sum_of(target, 1, self.behind(), Fraction(1, 1000))
        for low, high in ((0.25, 0.6), (0.5, 0.85), (0.05, 0.35)):
            states = [state for state, far in self.met if low <= far <= high]
            if states:
                yield f"states from {int(100 * low)} to {int(100 * high)} % of the way", sum_of(self.at(states), 1, target, Fraction(1, 1000))
        yield "all modes", sum_of(self.behind(), 1, target, Fraction(1, 1000))

    def tightest(self, state, potentials):
        said = [own_bound(self.play, state), *(self.inequalities.value(p, state) for p in potentials)]
        said = [x for x in said if x is not None]
        return None if not said else max(said) if self.m.minimize else min(said)

    def gain(self, potential):
        """By how much a further potential is better in some of the states that were drawn, as a share of what all say there."""
        states = [state for state, _ in self.met[:: max(1, len(self.met) // ENOUGH)]]
        before = [self.tightest(state, self.found) for state in states]
        after = [self.tightest(state, [*self.found, potential]) for state in states]
        moved = sum(abs(b) + 1 if a is None else abs(b - a) for a, b in zip(before, after))
        return moved / max(1, sum(map(abs, after)))

    def derive(self, most):
        """At most so many potentials; what was found is kept where the time is over."""
        for name, aim in self.aims():
            self.tell(f"the potential that is best for {name} is worked out")
            try:
                found = self.program.potentials(aim)
            except Unknown:
                if self.found:
                    break
                raise
            for potential in found:
                self.take(potential)
            # the next aim looks at states that are drawn
            if len(self.found) >= most:
                break
        return self.found

    def take(self, potential):
        """Takes a potential where it says enough more than those that were found."""
        if any(potential.whole == one.whole and potential.unit == one.unit for one in self.found):
            return
        if not self.found and self.is_better(potential) or self.gain(potential) > (0.01 if self.found else 0):
            self.found.append(potential)

    def is_better(self, potential):
        """Whether it says more at the target than the model's own bounds."""
        own = own_bound(self.play, self.m.target)
        return own is None or self.play.better(own, self.inequalities.value(potential, self.m.target))


def sum_of(a, f, b, g):
    return {j: f * a.get(j, 0) + g * b.get(j, 0) for j in {*a, *b}}

