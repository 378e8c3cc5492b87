"""Families of conditions as one `forall`.

In DIDPPy a condition for each member is written by a loop: `~unvisited.contains(j) | (time + way[at, j] <= due[j])` for each j. That is one
condition for all members of `unvisited`, which the solver looks at for those alone that are in the set. Conditions that stand side by side are
folded where they differ in numbers and sets alone: those that are j itself become the parameter, and others a table over j.
"""

from __future__ import annotations

from fractions import Fraction
from typing import Any, Dict, List, Optional, Sequence, Tuple

from .model import Model
from .simplify import joined
from .tables import BoolTable, FloatTable, IntTable, SetTable, Table
from .trees import CONDITION, Tree, number
from .variables import Parameter, SetVar

FEWEST, MOST_MISSING = 3, 3
LEAVES = ("number", "members", "truth")


class Folding:
    """Folds the conditions of one model. What it does not fold it gives back as it was."""

    def __init__(self, model: Model) -> None:
        self.model = model
        self.within: Dict[SetVar, Optional["frozenset[int]"]] = {}
        self.tables: Dict[Any, Table] = {}

    def folded(self, conditions: Sequence[Tree]) -> List[Tree]:
        found: List[Tree] = []
        k = 0
        while k < len(conditions):
            end = self.run(conditions, k)
            one = self.family(conditions[k:end]) if end - k >= FEWEST else None
            if one is None:
                found.append(conditions[k])
                k += 1
            else:
                found.append(one)
                k = end
        return found

    def run(self, conditions: Sequence[Tree], start: int) -> int:
        """Where the conditions end, from this one on, that are of one family by their form, with members that ascend."""
        gate = gate_of(conditions[start])
        if gate is None:
            return start
        form, last, end = form_of(conditions[start]), gate[1], start + 1
        while end < len(conditions):
            following = gate_of(conditions[end])
            if following is None or following[0] is not gate[0] or following[1] <= last or form_of(conditions[end]) != form:
                break
            last, end = following[1], end + 1
        return end

    def family(self, conditions: Sequence[Tree]) -> Optional[Tree]:
        gates = [gate_of(condition) for condition in conditions]
        variable: SetVar = gates[0][0]  # type: ignore[index]
        members = [gate[1] for gate in gates]  # type: ignore[index]
        rest = [condition.parts[1:] for condition in conditions]
        parameter = Parameter("j", variable)
        pattern = [self.unified([parts[k] for parts in rest], members, parameter) for k in range(len(rest[0]))]
        if any(part is None for part in pattern):
            return None
        body = joined("or", [*self.left_out(variable, members, parameter), *pattern], conditions[0].place)  # type: ignore[list-item]
        return Tree("forall", (parameter, body), CONDITION, None, conditions[0].place)

    def left_out(self, variable: SetVar, members: List[int], parameter: Parameter) -> List[Tree]:
        """Conditions that hold for the members of the set that the family says nothing of."""
        possible = self.possible(variable)
        there = range(variable.object_type.number) if possible is None else sorted(possible)  # type: ignore[union-attr]
        named = set(members)
        missing = [k for k in there if k not in named]
        if len(missing) <= MOST_MISSING:
            return [Tree("=", (parameter.tree, number(k)), CONDITION) for k in missing]
        key = ("left out", variable.object_type, tuple(missing))
        if key not in self.tables:
            self.tables[key] = BoolTable({(k,): True for k in missing}, False, "left_out", types=[variable.object_type])  # type: ignore[list-item]
        return [Tree("cell", (self.tables[key], parameter.tree), CONDITION)]

    def possible(self, variable: SetVar) -> Optional["frozenset[int]"]:
        """What a set can have at most, where no effect adds to it: what it has in the target. None where one may add."""
        if variable not in self.within:
            effects = [tree for step, _ in self.model.steps for v, tree in step.effects if v is variable]
            self.within[variable] = variable.target if all(shrinks(tree, variable) for tree in effects) else None
        return self.within[variable]

    def unified(self, trees: Sequence[Any], members: List[int], parameter: Parameter) -> Optional[Tree]:
        """One tree that is each of these with its member in the parameter's place; None where there is none."""
        first = trees[0]
        if any(tree.op != first.op or len(tree.parts) != len(first.parts) for tree in trees):
            return None
        if first.op in LEAVES:
            return self.leaf([tree.parts[0] for tree in trees], first, members, parameter)
        parts: List[Any] = []
        for column in zip(*(tree.parts for tree in trees)):
            if isinstance(column[0], Tree):
                part = self.unified(column, members, parameter)
                if part is None:
                    return None
                parts.append(part)
            elif all(one is column[0] for one in column):
                parts.append(column[0])
            else:
                return None
        return first.with_parts(tuple(parts))

    def leaf(self, values: List[Any], first: Tree, members: List[int], parameter: Parameter) -> Tree:
        if all(value == values[0] for value in values):
            return first
        if first.op == "number" and values == members:
            return parameter.tree
        table = self.table(first, {(j,): value for j, value in zip(members, values)}, parameter)
        return Tree("cell", (table, parameter.tree), first.kind, first.of, first.place)

    def table(self, first: Tree, cells: Dict[Tuple[int, ...], Any], parameter: Parameter) -> Table:
        """A table over the members; one that is asked for again is the same."""
        key = (first.op, first.of, parameter.object_type, tuple(cells.items()))
        if key not in self.tables:
            self.tables[key] = self.new_table(first, cells, parameter)
        return self.tables[key]

    def new_table(self, first: Tree, cells: Dict[Tuple[int, ...], Any], parameter: Parameter) -> Table:
        types = [parameter.object_type]
        if first.op == "members":
            return SetTable(cells, (), "of_each", of=first.of, types=types)
        if first.op == "truth":
            return BoolTable(cells, False, "of_each", types=types)
        kind: Any = FloatTable if any(isinstance(value, Fraction) for value in cells.values()) else IntTable
        return kind(cells, 0, "of_each", types=types)


def gate_of(condition: Tree) -> Optional[Tuple[SetVar, int]]:
    """The set variable and the member of a condition of the form: the member is not in the set, or .."""
    if condition.op != "or" or condition.parts[0].op != "not":
        return None
    inner = condition.parts[0].parts[0]
    if inner.op != "is_in" or inner.parts[0].op != "number" or inner.parts[1].op != "variable":
        return None
    return inner.parts[1].parts[0], inner.parts[0].parts[0]


def form_of(tree: Tree) -> Any:
    """What a tree is but for its plain numbers, sets and truth values."""
    op = tree.op
    if op in LEAVES:
        return op
    return (op, *[form_of(part) if type(part) is Tree else id(part) for part in tree.parts])


def shrinks(tree: Tree, variable: SetVar) -> bool:
    """Whether a set is sure to have nothing that the variable has not."""
    op = tree.op
    if op == "variable":
        return tree.parts[0] is variable
    if op == "remove":
        return shrinks(tree.parts[1], variable)
    if op == "difference":
        return shrinks(tree.parts[0], variable)
    if op == "intersection":
        return any(shrinks(part, variable) for part in tree.parts)
    return op == "if" and shrinks(tree.parts[1], variable) and shrinks(tree.parts[2], variable)

