"""Expressions that are drawn by chance: what the program makes of the text is what Python works out of the tree."""

from __future__ import annotations

import math
import unittest
from random import Random
from typing import Any, List

import dypdl.didppy as dp

from . import programs


class Drawn:
    """A model whose target state is a base state, and expressions over its variables and tables."""

    def __init__(self, chance: Random) -> None:
        self.chance, self.model = chance, dp.Model(float_cost=True, scale=1000)
        model, n = self.model, chance.randrange(2, 6)
        self.kind = model.add_object_type(n, "kind")
        self.sets = [model.add_set_var(self.kind, chance.sample(range(n), chance.randrange(n + 1)), f"s{k}") for k in range(2)]
        self.elements = [model.add_element_var(self.kind, chance.randrange(n), f"e{k}") for k in range(2)]
        self.whole = [model.add_int_var(chance.randrange(-9, 10), f"x{k}") for k in range(2)]
        self.real = [model.add_float_var(chance.randrange(-90, 90) / 10, "r")]
        cells = [chance.randrange(-5, 9) for _ in range(n)]
        self.lines = [model.add_int_table(cells, name="line"), model.add_int_table({k: c for k, c in enumerate(cells) if c > 0}, default=2, name="some")]
        self.decimals = model.add_float_table([c / 4 for c in cells], name="decimal")
        self.square = model.add_int_table([[chance.randrange(-5, 9) for _ in range(n)] for _ in range(n)], name="square")
        self.yes = model.add_bool_table([chance.random() < 0.5 for _ in range(n)], name="yes")
        self.groups = model.add_set_table([chance.sample(range(n), chance.randrange(n + 1)) for _ in range(n)], object_type=self.kind, name="groups")
        self.pick = chance.choice

    def set(self, depth: int) -> Any:
        if depth <= 0:
            return self.pick([*self.sets, self.groups[self.pick(self.elements)], self.model.create_set_const(self.kind, [0])])
        a, b = self.set(depth - 1), self.set(depth - 1)
        return self.pick([lambda: a | b, lambda: a & b, lambda: a - b, lambda: ~a, lambda: a ^ b, lambda: a.add(self.pick(self.elements)), lambda: a.remove(0),
                          lambda: self.condition(depth - 1).if_then_else(a, b), lambda: self.groups.union(a), lambda: self.groups.intersection(a),
                          lambda: self.model.add_set_state_fun(a)])()

    def number(self, depth: int) -> Any:
        if depth <= 0:
            return self.pick([*self.whole, *self.elements, self.chance.randrange(-4, 5), self.lines[0][self.pick(self.elements)]])
        a, b, s = self.number(depth - 1), self.number(depth - 1), self.set(depth - 1)
        quotient = self.model.add_int_state_fun(a if isinstance(a, dp.IntExpr) else self.whole[0])
        return self.pick([
            lambda: a + b, lambda: a - b, lambda: a * b, lambda: dp.max(a, b), lambda: dp.min(a, b, 2), lambda: quotient // 3, lambda: quotient % -2,
            lambda: quotient // b if isinstance(b, dp.IntExpr) else quotient, lambda: s.len(), lambda: self.pick(self.lines)[s], lambda: self.square[self.pick(self.elements), s],
            lambda: self.square[s, s], lambda: self.pick(self.lines).max(s), lambda: self.pick(self.lines).min(s), lambda: self.lines[0].product(s),
            lambda: self.square.min(self.pick(self.elements), s), lambda: self.square.max(s, s), lambda: self.condition(depth - 1).if_then_else(a, b),
            lambda: self.pick([math.floor, math.ceil, math.trunc, round])(self.decimal(depth - 1)), lambda: abs(dp.max(a, quotient)),
            lambda: self.model.add_int_state_fun(self.square[self.elements[0], self.elements[1]] * 2 + self.lines[0][self.elements[0]]),
            lambda: self.pick([math.floor, math.ceil, math.trunc])((quotient + 0) / (self.whole[0] + 0))])()

    def decimal(self, depth: int) -> Any:
        a = self.number(depth - 1)
        first = a + self.real[0]
        return self.pick([lambda: first, lambda: first / 4, lambda: first * 0.5, lambda: self.decimals[self.set(depth - 1)] - first, lambda: dp.max(first, 0.25),
                          lambda: self.decimals.max(self.set(depth - 1)) + 0, lambda: first / -8, lambda: self.real[0] * self.decimals[self.elements[0]]])()

    def condition(self, depth: int) -> Any:
        s, a, b = self.set(depth - 1), self.number(depth - 1), self.number(depth - 1)
        e = self.pick(self.elements)
        compared = [lambda: self.whole[0] + a < b, lambda: self.whole[0] + a == b, lambda: self.whole[1] - a >= b, lambda: self.real[0] / 2 <= a, lambda: self.decimal(depth - 1) != b]
        sets = [lambda: s.contains(e), lambda: s.is_empty(), lambda: s <= self.sets[0], lambda: s == self.sets[1], lambda: self.yes[e], lambda: s.isdisjoint(self.sets[0])]
        if depth <= 0:
            return self.pick([*sets[:2], self.whole[0].__le__ and (lambda: self.whole[0] <= 2)])()
        j = dp.Parameter("j", self.pick([self.kind, *self.sets]))
        inner = [lambda: self.condition(depth - 1) & self.condition(depth - 1), lambda: self.condition(depth - 1) | self.condition(depth - 1), lambda: ~self.condition(depth - 1),
                 lambda: self.model.add_bool_state_fun(self.condition(depth - 1)), lambda: dp.forall(j, self.lines[0][j] + self.whole[0] <= 3) | self.condition(depth - 1)]
        return self.pick(compared + sets + inner)()


@unittest.skipUnless(programs.PROGRAM, programs.WHY)
class Values(unittest.TestCase):
    def test_costs(self) -> None:
        seen: List[str] = []
        for seed in range(150):
            with self.subTest(seed=seed):
                seen.append(self.one(Drawn(Random(seed)), seed))
        self.assertGreater(seen.count("value"), 90)
        self.assertGreater(seen.count("none"), 3)

    def one(self, drawn: Drawn, seed: int) -> str:
        model = drawn.model
        expression = drawn.condition(2).if_then_else(drawn.number(2), drawn.number(3)) + 0
        try:
            wanted = expression.eval(model.target_state)
        except dp.NoValue:
            wanted = None
        model.add_base_case([], cost=expression)
        try:
            found = dp.CABS(model, quiet=True).search().cost
        except dp.Fault:
            found = None
        self.assertEqual(found, wanted, repr(expression))
        return "none" if wanted is None else "value"


if __name__ == "__main__":
    unittest.main()
