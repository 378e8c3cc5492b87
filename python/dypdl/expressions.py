"""Expressions in Python: numbers, elements, sets and conditions, with the operators that DIDPPy gives them.

`&`, `|` and `~` stand for and, or and not; `//` and `%` round toward 0, as the solver does, and not down as Python does; `/` is exact and makes a
FloatExpr. An expression has no truth value in Python: it stands for a value in each state of a search.
"""

from __future__ import annotations

import builtins
import math
from fractions import Fraction
from typing import TYPE_CHECKING, Any, Iterable, Iterator, Optional

from . import trees
from .errors import LeftOut
from .evaluation import value_of
from .exact import exact, shown, whole
from .places import here
from .trees import CONDITION, NUMBER, SET, Tree, chain

if TYPE_CHECKING:
    from .model import Model
    from .transitions import State
    from .variables import ObjectType


class Expression:
    """What all expressions share: a tree, and that they are no Python truth values. `IntExpr(3)` is the number 3 as an expression."""

    def __init__(self, value: Any) -> None:
        self.tree: Tree = value if isinstance(value, Tree) else self._tree_of(value)

    def _tree_of(self, value: Any) -> Tree:
        return number_tree(value)

    def __bool__(self) -> bool:
        raise TypeError("an expression has no truth value in Python: write & | ~ for and, or, not, and if_then_else for if")

    def __repr__(self) -> str:
        return f"<{type(self).__name__} {described(self.tree)}>"

    __hash__ = object.__hash__

    def eval(self, state: "State", model: "Optional[Model]" = None) -> Any:
        """The value in a state: a number, a set of numbers, or a truth value. Raises NoValue where there is none."""
        return value_of(self.tree, state.values)

    def eval_cost(self, cost: Any, state: "State", model: "Optional[Model]" = None) -> Any:
        """The same of an expression with `state_cost()` in it, which is `cost`."""
        return value_of(self.tree, state.values, exact(cost))


class NumberExpr(Expression):
    """A number in each state."""

    def _made(self, op: str, a: Any, b: Any) -> "NumberExpr":
        first, second = number_tree(a), number_tree(b)
        kind: Any = IntExpr if is_whole(a) and is_whole(b) else FloatExpr
        return kind(chain(op, (first, second), NUMBER, None, here()))

    def _compared(self, op: str, other: Any) -> "Condition":
        return Condition(Tree(op, (self.tree, number_tree(other)), CONDITION, None, here()))

    def __add__(self, other: Any) -> "NumberExpr":
        return self._made("+", self, other)

    def __radd__(self, other: Any) -> "NumberExpr":
        return self._made("+", other, self)

    def __sub__(self, other: Any) -> "NumberExpr":
        return self._made("-", self, other)

    def __rsub__(self, other: Any) -> "NumberExpr":
        return self._made("-", other, self)

    def __mul__(self, other: Any) -> "NumberExpr":
        return self._made("*", self, other)

    def __rmul__(self, other: Any) -> "NumberExpr":
        return self._made("*", other, self)

    def __truediv__(self, other: Any) -> "FloatExpr":
        return FloatExpr(Tree("ratio", (self.tree, number_tree(other)), NUMBER, None, here()))

    def __rtruediv__(self, other: Any) -> "FloatExpr":
        return FloatExpr(Tree("ratio", (number_tree(other), self.tree), NUMBER, None, here()))

    def __floordiv__(self, other: Any) -> "IntExpr":
        return IntExpr(Tree("quotient", (whole_tree(self), whole_tree(other)), NUMBER, None, here()))

    def __rfloordiv__(self, other: Any) -> "IntExpr":
        return IntExpr(Tree("quotient", (whole_tree(other), whole_tree(self)), NUMBER, None, here()))

    def __mod__(self, other: Any) -> "IntExpr":
        return IntExpr(Tree("rest", (whole_tree(self), whole_tree(other)), NUMBER, None, here()))

    def __rmod__(self, other: Any) -> "IntExpr":
        return IntExpr(Tree("rest", (whole_tree(other), whole_tree(self)), NUMBER, None, here()))

    def __pow__(self, other: Any) -> "NumberExpr":
        if not isinstance(other, int) or isinstance(other, bool) or not 1 <= other <= 16:
            raise TypeError("a power is one of 1 to 16: others are not whole, so the solver cannot compute them")
        product: NumberExpr = self
        for _ in range(other - 1):
            product = product * self
        return product

    def __neg__(self) -> "NumberExpr":
        return self._made("-", 0, self)

    def __pos__(self) -> "NumberExpr":
        return self

    def __abs__(self) -> "NumberExpr":
        return self._made("max", self, -self)

    def __eq__(self, other: Any) -> "Condition":  # type: ignore[override]
        return self._compared("=", other)

    def __ne__(self, other: Any) -> "Condition":  # type: ignore[override]
        return self._compared("!=", other)

    def __lt__(self, other: Any) -> "Condition":
        return self._compared("<", other)

    def __le__(self, other: Any) -> "Condition":
        return self._compared("<=", other)

    def __gt__(self, other: Any) -> "Condition":
        return self._compared(">", other)

    def __ge__(self, other: Any) -> "Condition":
        return self._compared(">=", other)

    __hash__ = object.__hash__

    def _rounded(self, op: str) -> "IntExpr":
        return IntExpr(Tree(op, (self.tree,), NUMBER, None, here()))

    def __floor__(self) -> "IntExpr":
        return self._rounded("floor")

    def __ceil__(self) -> "IntExpr":
        return self._rounded("ceil")

    def __trunc__(self) -> "IntExpr":
        return self._rounded("trunc")

    def __round__(self, digits: Optional[int] = None) -> "IntExpr":
        """To the nearest whole number; halves go away from 0."""
        if digits:
            raise TypeError("round is to whole numbers alone")
        return self._rounded("round")


class IntExpr(NumberExpr):
    """A whole number, from -(2^62 - 1) to 2^62 - 1."""

    def _tree_of(self, value: Any) -> Tree:
        return whole_tree(value)

    @staticmethod
    def state_cost() -> "IntExpr":
        """What the steps behind a transition cost; for a transition's cost alone."""
        return IntExpr(Tree("cost", (), NUMBER, None, here()))


class ElementExpr(IntExpr):
    """A member of an object type, which is a number from 0 on."""


class FloatExpr(NumberExpr):
    """An exact number that need not be whole. Where one is stored it must be a multiple of 1/scale (see Model)."""

    @staticmethod
    def state_cost() -> "FloatExpr":
        """What the steps behind a transition cost; for a transition's cost alone."""
        return FloatExpr(Tree("cost", (), NUMBER, None, here()))


class Condition(Expression):
    """True or false in each state."""

    def _tree_of(self, value: Any) -> Tree:
        return condition_tree(value)

    def __and__(self, other: Any) -> "Condition":
        return Condition(chain("and", (self.tree, condition_tree(other)), CONDITION, None, here()))

    def __rand__(self, other: Any) -> "Condition":
        return Condition(chain("and", (condition_tree(other), self.tree), CONDITION, None, here()))

    def __or__(self, other: Any) -> "Condition":
        return Condition(chain("or", (self.tree, condition_tree(other)), CONDITION, None, here()))

    def __ror__(self, other: Any) -> "Condition":
        return Condition(chain("or", (condition_tree(other), self.tree), CONDITION, None, here()))

    def __invert__(self) -> "Condition":
        return Condition(Tree("not", (self.tree,), CONDITION, None, here()))

    def if_then_else(self, a: Any, b: Any) -> Any:
        """`a` where the condition holds, else `b`: two numbers, two sets, or two conditions."""
        if isinstance(a, SetExpr) or isinstance(b, SetExpr):
            of = (a if isinstance(a, SetExpr) else b).tree.of
            return SetExpr(Tree("if", (self.tree, set_tree(a, of), set_tree(b, of)), SET, of, here()))
        if isinstance(a, (Condition, bool)):
            return Condition(Tree("if", (self.tree, condition_tree(a), condition_tree(b)), CONDITION, None, here()))
        element = all(isinstance(part, ElementExpr) for part in (a, b))
        kind: Any = ElementExpr if element else IntExpr if is_whole(a) and is_whole(b) else FloatExpr
        return kind(Tree("if", (self.tree, number_tree(a), number_tree(b)), NUMBER, None, here()))


class SetExpr(Expression):
    """A set of members of one object type in each state."""

    def _tree_of(self, value: Any) -> Tree:
        return set_tree(value, None)

    def _set(self, op: str, *parts: Tree) -> "SetExpr":
        return SetExpr(Tree(op, parts, SET, self.tree.of, here()))

    def _joined(self, op: str, other: Any) -> "SetExpr":
        return SetExpr(chain(op, (self.tree, set_tree(other, self.tree.of)), SET, self.tree.of, here()))

    def add(self, element: Any) -> "SetExpr":
        """The set with one member more."""
        return self._set("add", member_tree(element, self.tree.of), self.tree)

    def remove(self, element: Any) -> "SetExpr":
        """The set without a member; the same set where it is none."""
        return self._set("remove", member_tree(element, self.tree.of), self.tree)

    discard = remove

    def union(self, other: Any) -> "SetExpr":
        return self._joined("union", other)

    def intersection(self, other: Any) -> "SetExpr":
        return self._joined("intersection", other)

    def difference(self, other: Any) -> "SetExpr":
        return self._set("difference", self.tree, set_tree(other, self.tree.of))

    def complement(self) -> "SetExpr":
        """The members of the object type that are not in the set."""
        return self._set("complement", self.tree)

    __or__, __and__, __sub__, __invert__ = union, intersection, difference, complement

    def __xor__(self, other: Any) -> "SetExpr":
        second = SetExpr(set_tree(other, self.tree.of))
        return (self - second) | (second - self)

    def _tested(self, op: str, *parts: Tree) -> Condition:
        return Condition(Tree(op, parts, CONDITION, None, here()))

    def contains(self, element: Any) -> Condition:
        """Whether a member is in the set."""
        return self._tested("is_in", member_tree(element, self.tree.of), self.tree)

    def issubset(self, other: Any) -> Condition:
        return self._tested("is_subset", self.tree, set_tree(other, self.tree.of))

    def issuperset(self, other: Any) -> Condition:
        return self._tested("is_subset", set_tree(other, self.tree.of), self.tree)

    def isdisjoint(self, other: Any) -> Condition:
        return self._joined("intersection", other).is_empty()

    def is_empty(self) -> Condition:
        return self._tested("is_empty", self.tree)

    def len(self) -> IntExpr:
        """How many members the set has."""
        return IntExpr(Tree("size", (self.tree,), NUMBER, None, here()))

    def eq(self, other: Any) -> Condition:
        return self._tested("=", self.tree, set_tree(other, self.tree.of))

    def __eq__(self, other: Any) -> Condition:  # type: ignore[override]
        return self.eq(other)

    def __ne__(self, other: Any) -> Condition:  # type: ignore[override]
        return self._tested("!=", self.tree, set_tree(other, self.tree.of))

    def __le__(self, other: Any) -> Condition:
        return self.issubset(other)

    def __ge__(self, other: Any) -> Condition:
        return self.issuperset(other)

    def __lt__(self, other: Any) -> Condition:
        return self.issubset(other) & (self != other)

    def __gt__(self, other: Any) -> Condition:
        return self.issuperset(other) & (self != other)

    __hash__ = object.__hash__


class SetConst(SetExpr):
    """A set that is the same in each state. It is also a Python collection of its members, in ascending order."""

    def __init__(self, members: Iterable[Any], of: "ObjectType") -> None:
        super().__init__(set_tree(list(members), of))

    @property
    def members(self) -> "frozenset[int]":
        return self.tree.parts[0]

    def __iter__(self) -> Iterator[int]:
        return iter(sorted(self.members))

    def __len__(self) -> int:
        return builtins.len(self.members)

    def __contains__(self, element: Any) -> bool:
        return element in self.members

    def len(self) -> int:  # type: ignore[override]
        return builtins.len(self.members)


# ---- Python values where an expression is wanted

def is_whole(value: Any) -> bool:
    """Whether a number is sure to be whole."""
    return isinstance(value, IntExpr) or (not isinstance(value, NumberExpr) and isinstance(exact(value), int) and not isinstance(value, float))


def number_tree(value: Any) -> Tree:
    if isinstance(value, NumberExpr):
        return value.tree
    if isinstance(value, Expression):
        raise TypeError(f"a number is wanted, and {value!r} is a {type(value).__name__}")
    return trees.number(exact(value))


def whole_tree(value: Any) -> Tree:
    if isinstance(value, FloatExpr):
        raise TypeError(f"a whole number is wanted, and {value!r} need not be one: round it by math.floor, math.ceil, math.trunc or round")
    if isinstance(value, NumberExpr):
        return value.tree
    if isinstance(value, Expression):
        raise TypeError(f"a whole number is wanted, and {value!r} is a {type(value).__name__}")
    return trees.number(whole(value))


def member_tree(value: Any, of: "Optional[ObjectType]") -> Tree:
    tree = whole_tree(value)
    if of is not None and tree.op == "number" and not 0 <= tree.parts[0] < of.number:
        raise IndexError(f"{shown(tree.parts[0])} is no member of `{of}`, which has {of.number}, from 0 on")
    return tree


def set_tree(value: Any, of: "Optional[ObjectType]") -> Tree:
    """A set expression, or a Python set, list or tuple of members of that object type."""
    if isinstance(value, SetExpr):
        if of is not None and value.tree.of is not None and value.tree.of is not of:
            raise TypeError(f"a set of `{of}` is wanted, and {value!r} is one of `{value.tree.of}`")
        return value.tree
    if isinstance(value, Expression) or isinstance(value, (str, bytes, dict)) or not hasattr(value, "__iter__"):
        raise TypeError(f"a set is wanted, and {shown(value)} is none")
    if of is None:
        raise TypeError("plain numbers say nothing of their object type: write model.create_set_const(object_type, members)")
    return Tree("members", (frozenset(member(item, of) for item in value),), SET, of, here())


def member(value: Any, of: "Optional[ObjectType]") -> int:
    """A Python number that is to be a member of an object type."""
    number = whole(value, "a member")
    if number < 0 or (of is not None and number >= of.number):
        raise IndexError(f"{shown(number)} is no member of `{of}`, which has {of.number if of else 'none'}, from 0 on")
    return number


def placed(tree: Tree) -> Tree:
    """A tree with the line that calls, where it is a leaf: a plain number has no place, and a bare variable that of its declaration."""
    return tree if any(True for _ in tree.operands()) else Tree(tree.op, tree.parts, tree.kind, tree.of, here())


def condition_tree(value: Any) -> Tree:
    if isinstance(value, Condition):
        return value.tree
    if isinstance(value, bool) or type(value).__name__ in ("bool_", "bool"):
        return trees.truth(bool(value), here())
    raise TypeError(f"a condition is wanted, and {shown(value)} is none")


# ---- functions

def _folded(op: str, python: Any, items: Any) -> Any:
    if builtins.len(items) == 1 and not isinstance(items[0], Expression):
        items = tuple(items[0])
    if not any(isinstance(item, Expression) for item in items):
        return python(items)
    if builtins.len(items) == 1:
        return items[0]
    kind: Any = IntExpr if all(is_whole(item) for item in items) else FloatExpr
    return kind(chain(op, [number_tree(item) for item in items], NUMBER, None, here()))


def max(*items: Any) -> Any:
    """The greatest of two or more numbers, or of a list of them; a plain number where all are plain."""
    return _folded("max", builtins.max, items)


def min(*items: Any) -> Any:
    """The least of two or more numbers, or of a list of them; a plain number where all are plain."""
    return _folded("min", builtins.min, items)


def sqrt(value: Any) -> float:
    """The root of a plain number. That of an expression is refused: no scale holds it."""
    return _plain_only(math.sqrt, "a root", value)


def log(value: Any, base: Any = math.e) -> float:
    """The logarithm of a plain number. That of an expression is refused: no scale holds it."""
    return _plain_only(math.log, "a logarithm", value, base)


def _plain_only(call: Any, what: str, *values: Any) -> float:
    if any(isinstance(value, Expression) for value in values):
        raise LeftOut(f"{what} of an expression is no multiple of 1/scale: write a table with its values, for each member or for each whole number", here())
    return call(*values)


def described(tree: Tree, depth: int = 4) -> str:
    """An expression in prefix form, cut where it is deep."""
    def shown_part(part: Any) -> str:
        if isinstance(part, Tree):
            return described(part, depth - 1)
        if isinstance(part, frozenset):
            return "{" + ", ".join(map(str, sorted(part))) + "}"
        if isinstance(part, Fraction):
            return str(part)
        return str(part)

    if tree.op in ("number", "variable", "parameter", "function", "members", "truth"):
        return shown_part(tree.parts[0])
    if tree.op == "cost":
        return "cost"
    if depth <= 0:
        return "(..)"
    head = "" if tree.op == "cell" else f"{tree.op} "
    return f"({head}{' '.join(map(shown_part, tree.parts))})"
