"""Expressions as trees. What Python operators make, what a YAML file says, and what is written are all of this one form.

| op | parts | kind |
|---|---|---|
| `number` | a whole number or a Fraction | number |
| `variable`, `parameter`, `function` | the variable, the parameter, the state function | its own |
| `cell` | a table, a number for each argument | that of the table |
| `sum`, `product`, `greatest`, `least` | a table of numbers, a number or a set for each argument | number |
| `+` `*` `max` `min` | two or more numbers | number |
| `-`, `quotient`, `rest`, `ratio` | two numbers: a difference; whole division toward 0, and what it leaves; a division that is exact | number |
| `floor`, `ceil`, `trunc`, `round` | a number | number |
| `size` | a set | number |
| `cost` | - (what the steps behind a transition cost) | number |
| `if` | a condition, and two of one kind | that kind |
| `members` | a frozenset | set |
| `union` `intersection` | two or more sets | set |
| `difference`, `complement` | two sets, one set | set |
| `add`, `remove` | a number and a set | set |
| `union_over`, `intersection_over` | a table of sets, a number or a set for each argument | set |
| `truth` | True or False | condition |
| `=` `!=` | two numbers or two sets | condition |
| `<` `<=` `>` `>=` | two numbers | condition |
| `and` `or` | two or more conditions | condition |
| `not`, `is_empty`, `is_in`, `is_subset` | as they are named; `is_in` has the number first | condition |
| `forall` | a parameter, a condition | condition |
"""

from __future__ import annotations

from typing import Any, Iterator, Optional, Tuple

NUMBER, SET, CONDITION = "number", "set", "condition"
FLAT = ("+", "*", "max", "min", "union", "intersection", "and", "or")
MOST_OPERANDS = 400  # of a chain that is written as one list


class Tree:
    """One expression: what it does, its parts, its kind, the object type of a set, and the place that made it."""

    __slots__ = ("kind", "of", "op", "parts", "place")

    def __init__(self, op: str, parts: Tuple[Any, ...], kind: str, of: Any = None, place: Any = None) -> None:
        self.op, self.parts, self.kind, self.of, self.place = op, parts, kind, of, place

    def __repr__(self) -> str:
        return f"Tree({self.op!r}, {self.parts!r})"

    def operands(self) -> Iterator["Tree"]:
        """The parts that are trees themselves."""
        return (part for part in self.parts if isinstance(part, Tree))

    def with_parts(self, parts: Tuple[Any, ...]) -> "Tree":
        return Tree(self.op, parts, self.kind, self.of, self.place)


def walk(tree: Tree) -> Iterator[Tree]:
    """A tree and all trees in it, the outer ones first."""
    stack = [tree]
    while stack:
        top = stack.pop()
        yield top
        stack.extend(top.operands())


def number(value: Any, place: Any = None) -> Tree:
    return Tree("number", (value,), NUMBER, None, place)


def truth(value: bool, place: Any = None) -> Tree:
    return Tree("truth", (value,), CONDITION, None, place)


def literal(tree: Tree) -> Optional[Any]:
    """The number or truth value that a tree writes down; None where it is no such tree."""
    return tree.parts[0] if tree.op in ("number", "truth") else None


def chain(op: str, parts: Any, kind: str, of: Any = None, place: Any = None) -> Tree:
    """A tree of an operator that takes any number of operands; operands that are such a tree at the front are taken in."""
    parts = tuple(parts)
    first = parts[0]
    if op in FLAT and first.op == op:
        parts = (*first.parts, *parts[1:])
    return Tree(op, parts, kind, of, place)
