"""The value of an expression in a state, worked out in Python: for `State`, for tables of state functions, and to tell of a fault.

Numbers are exact: whole numbers, and Fractions where a value is not whole.
"""

from __future__ import annotations

import math
from fractions import Fraction
from itertools import product
from typing import Any, Callable, Dict, List, Mapping, Optional

from .errors import NoValue
from .exact import Exact, whole_if
from .trees import Tree

Values = Mapping[Any, Any]  # of variables and parameters: a number or a frozenset


def value_of(tree: Tree, values: Values, cost: Optional[Exact] = None) -> Any:
    """A number, a frozenset or a truth value. Raises NoValue where there is none."""
    return Evaluator(values, cost).of(tree)


class Evaluator:
    """Expressions in one state, with the values of parameters among those of variables, and the cost that `cost` stands for."""

    def __init__(self, values: Values, cost: Optional[Exact] = None) -> None:
        self.values, self.cost = values, cost

    def of(self, tree: Tree) -> Any:
        return CALLS[tree.op](self, tree)

    def all(self, tree: Tree) -> List[Any]:
        return [self.of(part) for part in tree.operands()]

    def known(self, tree: Tree) -> Any:
        try:
            return self.values[tree.parts[0]]
        except KeyError:
            raise NoValue(f"`{tree.parts[0]}` has no value here", tree.place) from None

    def function(self, tree: Tree) -> Any:
        return self.of(tree.parts[0].tree)

    def the_cost(self, tree: Tree) -> Exact:
        if self.cost is None:
            raise NoValue("`state_cost()` has a value in a transition's cost alone", tree.place)
        return self.cost

    # ---- tables

    def cell(self, tree: Tree) -> Any:
        return self.read(tree, [self.of(part) for part in tree.operands()])

    def read(self, tree: Tree, at: List[Any]) -> Any:
        try:
            return tree.parts[0].cell(tuple(at))
        except IndexError as error:
            raise NoValue(str(error), tree.place) from None

    def cells(self, tree: Tree) -> List[Any]:
        """The cells over all members of the sets among the arguments."""
        given = self.all(tree)
        over = [sorted(value) if isinstance(value, frozenset) else [value] for value in given]
        return [self.read(tree, list(at)) for at in product(*over)]

    def sum_over(self, tree: Tree) -> Exact:
        return simple(sum(self.cells(tree)))

    def product_over(self, tree: Tree) -> Exact:
        return simple(math.prod(self.cells(tree)))

    def extreme(self, tree: Tree) -> Exact:
        cells = self.cells(tree)
        if not cells:
            raise NoValue(f"the {tree.op} cell over an empty set has no value", tree.place)
        return max(cells) if tree.op == "greatest" else min(cells)

    def union_over(self, tree: Tree) -> "frozenset[int]":
        return frozenset().union(*self.cells(tree))

    def intersection_over(self, tree: Tree) -> "frozenset[int]":
        cells = self.cells(tree)
        if not cells:
            raise NoValue("the intersection over an empty set has no value", tree.place)
        return frozenset.intersection(*cells)

    # ---- numbers

    def divided(self, tree: Tree) -> Exact:
        a, b = self.all(tree)
        if b == 0:
            raise NoValue(f"{a} is divided by 0", tree.place)
        if tree.op == "ratio":
            return simple(Fraction(a) / Fraction(b))
        towards = abs(a) // abs(b) * (1 if (a < 0) == (b < 0) else -1)
        return towards if tree.op == "quotient" else a - b * towards

    def rounded(self, tree: Tree) -> int:
        inner = Fraction(self.of(tree.parts[0]))
        if tree.op == "round":
            return math.floor(abs(inner) + Fraction(1, 2)) * (1 if inner >= 0 else -1)
        return {"floor": math.floor, "ceil": math.ceil, "trunc": math.trunc}[tree.op](inner)

    def choice(self, tree: Tree) -> Any:
        return self.of(tree.parts[1 if self.of(tree.parts[0]) else 2])

    # ---- sets and conditions

    def complement(self, tree: Tree) -> "frozenset[int]":
        return frozenset(range(tree.of.number)) - self.of(tree.parts[0])

    def with_member(self, tree: Tree) -> "frozenset[int]":
        element, members = self.all(tree)
        self.test_member(element, tree)
        return members | {element} if tree.op == "add" else members - {element}

    def test_member(self, element: int, tree: Tree) -> None:
        of = tree.parts[1].of
        if of is not None and not 0 <= element < of.number:
            raise NoValue(f"{element} is no member of `{of}`, which has {of.number}", tree.place)

    def is_in(self, tree: Tree) -> bool:
        element, members = self.all(tree)
        self.test_member(element, tree)
        return element in members

    def for_all(self, tree: Tree) -> bool:
        parameter, body = tree.parts
        inner = dict(self.values)
        for k in parameter.choices(self.values):
            inner[parameter] = k
            if not Evaluator(inner, self.cost).of(body):
                return False
        return True


def simple(number: Any) -> Exact:
    return whole_if(number) if isinstance(number, Fraction) else number


def by_parts(call: Callable[..., Any]) -> Callable[[Evaluator, Tree], Any]:
    return lambda evaluator, tree: call(*evaluator.all(tree))


def first_part(evaluator: Evaluator, tree: Tree) -> Any:
    return tree.parts[0]


CALLS: Dict[str, Callable[[Evaluator, Tree], Any]] = {
    "number": first_part, "truth": first_part, "members": first_part,
    "variable": Evaluator.known, "parameter": Evaluator.known, "function": Evaluator.function, "cost": Evaluator.the_cost,
    "cell": Evaluator.cell, "sum": Evaluator.sum_over, "product": Evaluator.product_over, "greatest": Evaluator.extreme, "least": Evaluator.extreme,
    "union_over": Evaluator.union_over, "intersection_over": Evaluator.intersection_over,
    "+": by_parts(lambda *v: simple(sum(v))), "*": by_parts(lambda *v: simple(math.prod(v))), "-": by_parts(lambda a, b: simple(a - b)),
    "max": by_parts(max), "min": by_parts(min), "quotient": Evaluator.divided, "rest": Evaluator.divided, "ratio": Evaluator.divided,
    "floor": Evaluator.rounded, "ceil": Evaluator.rounded, "trunc": Evaluator.rounded, "round": Evaluator.rounded,
    "size": by_parts(len), "if": Evaluator.choice,
    "union": by_parts(lambda *v: frozenset().union(*v)), "intersection": by_parts(lambda *v: frozenset.intersection(*v)),
    "difference": by_parts(lambda a, b: a - b), "complement": Evaluator.complement, "add": Evaluator.with_member, "remove": Evaluator.with_member,
    "=": by_parts(lambda a, b: a == b), "!=": by_parts(lambda a, b: a != b), "<": by_parts(lambda a, b: a < b), "<=": by_parts(lambda a, b: a <= b),
    ">": by_parts(lambda a, b: a > b), ">=": by_parts(lambda a, b: a >= b), "not": by_parts(lambda a: not a),
    "is_in": Evaluator.is_in, "is_subset": by_parts(lambda a, b: a <= b), "is_empty": by_parts(lambda a: not a),
    "and": lambda evaluator, tree: all(evaluator.of(part) for part in tree.parts),
    "or": lambda evaluator, tree: any(evaluator.of(part) for part in tree.parts),
    "forall": Evaluator.for_all,
}
