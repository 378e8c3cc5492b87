"""Families of conditions that are drawn by chance: folded into one, they hold in the same states."""

from __future__ import annotations

import unittest
from random import Random
from typing import Any, List

import dypdl.didppy as dp
from dypdl.evaluation import value_of
from dypdl.folding import Folding


class Families(unittest.TestCase):
    def test_the_same_states(self) -> None:
        folded = sum(self.one(Random(seed)) for seed in range(150))
        self.assertGreater(folded, 80)

    def one(self, chance: Random) -> int:
        """How many families were folded in a drawn model."""
        model = dp.Model()
        n = chance.randrange(3, 8)
        kind = model.add_object_type(n, "kind")
        held = model.add_set_var(kind, chance.sample(range(n), chance.randrange(n)), "held")
        other = model.add_set_var(kind, [], "other")
        at, x = model.add_element_var(kind, 0, "at"), model.add_int_var(0, "x")
        line, square = model.add_int_table([chance.randrange(9) for _ in range(n)], name="line"), model.add_int_table([[chance.randrange(9) for _ in range(n)] for _ in range(n)], name="square")
        near = model.add_set_table([chance.sample(range(n), chance.randrange(n)) for _ in range(n)], kind, name="near")
        numbers, sets, yes = [chance.randrange(4) for _ in range(n)], [chance.sample(range(n), chance.randrange(n)) for _ in range(n)], [chance.random() < 0.5 for _ in range(n)]
        forms = [
            lambda j: x + square[at, j] <= line[j], lambda j: x > j, lambda j: numbers[j] + x < 4, lambda j: other.isdisjoint(near[j]), lambda j: (x > 1) | (at != j),
            lambda j: other.issubset(model.create_set_const(kind, sets[j])), lambda j: (x < numbers[j]) & other.contains(j), lambda j: (x == 2) | yes[j], lambda j: line[other] * j > 3,
            lambda j: sum((line[k] for k in sets[j]), start=x) > 2]
        effect = chance.choice([held.remove(at), held & other, held.add(at), (x > 0).if_then_else(held, held - other)])
        model.add_transition(dp.Transition("go", None, [(held, effect)]))
        conditions: List[Any] = []
        for _ in range(chance.randrange(1, 3)):
            form = chance.choice(forms)
            members = sorted(chance.sample(range(n), chance.randrange(n + 1)))
            conditions += [~held.contains(j) | form(j) for j in members]
            conditions += chance.choice([[], [x < 9]])
        trees = [condition.tree for condition in conditions]
        made = Folding(model).folded(trees)
        for _ in range(30):
            state = model.target_state
            # a set that no effect adds to has no more than in the target
            grows = "add" in repr(effect)
            state[held] = [k for k in range(n) if chance.random() < 0.6 and (grows or k in held.target)]
            state[other] = [k for k in range(n) if chance.random() < 0.5]
            state[at], state[x] = chance.randrange(n), chance.randrange(-1, 6)
            self.assertEqual(*(all(value_of(tree, state.values) for tree in some) for some in (trees, made)), f"{state} {conditions}")
        return sum(tree.op == "forall" for tree in made)


if __name__ == "__main__":
    unittest.main()
