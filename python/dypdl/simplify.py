"""Trees with their plain parts worked out: `2 + x + 3` is `x + 5`, and `not not c` is `c`.

What has a value keeps it. Nothing that might have none is left out, but for a part that a literal condition decides.
"""

from __future__ import annotations

import math
from typing import Any, Callable, Dict, Iterable, List

from .trees import CONDITION, NUMBER, Tree, literal, number, truth

COMPARE: Dict[str, Callable[[Any, Any], bool]] = {
    "=": lambda a, b: a == b, "!=": lambda a, b: a != b, "<": lambda a, b: a < b, "<=": lambda a, b: a <= b, ">": lambda a, b: a > b, ">=": lambda a, b: a >= b,
}


def plus(parts: Iterable[Tree], place: Any = None) -> Tree:
    """The sum of numbers."""
    flat, fixed = flattened("+", parts), 0
    others: List[Tree] = []
    for part in flat:
        if part.op == "number":
            fixed += part.parts[0]
        else:
            others.append(part)
    if fixed < 0 and len(others) == 1:
        return Tree("-", (others[0], number(-fixed, place)), NUMBER, None, place)
    if fixed or not others:
        others.append(number(fixed, place))
    return others[0] if len(others) == 1 else Tree("+", tuple(others), NUMBER, None, place)


def minus(a: Tree, b: Tree, place: Any = None) -> Tree:
    if b.op == "number":
        return plus((a, number(-b.parts[0], place)), place)
    return Tree("-", (a, b), NUMBER, None, place)


def times(parts: Iterable[Tree], place: Any = None) -> Tree:
    """The product of numbers."""
    fixed, others = 1, []
    for part in flattened("*", parts):
        if part.op == "number":
            fixed *= part.parts[0]
        else:
            others.append(part)
    if fixed != 1 or not others:
        others.insert(0, number(fixed, place))
    return others[0] if len(others) == 1 else Tree("*", tuple(others), NUMBER, None, place)


def extreme(op: str, parts: Iterable[Tree], place: Any = None) -> Tree:
    """The greatest (`max`) or least (`min`) of numbers."""
    call = max if op == "max" else min
    fixed: List[Any] = []
    others: List[Tree] = []
    for part in flattened(op, parts):
        if part.op == "number":
            fixed.append(part.parts[0])
        else:
            others.append(part)
    if fixed:
        others.append(number(call(fixed), place))
    return others[0] if len(others) == 1 else Tree(op, tuple(others), NUMBER, None, place)


def divided(op: str, a: Tree, b: Tree, place: Any = None) -> Tree:
    """`quotient` toward 0, or `rest`."""
    if a.op == "number" and b.op == "number" and b.parts[0]:
        towards = abs(a.parts[0]) // abs(b.parts[0]) * (1 if (a.parts[0] < 0) == (b.parts[0] < 0) else -1)
        return number(towards if op == "quotient" else a.parts[0] - b.parts[0] * towards, place)
    if op == "quotient" and literal(b) == 1:
        return a
    return Tree(op, (a, b), NUMBER, None, place)


def choice(test: Tree, a: Tree, b: Tree, place: Any = None) -> Tree:
    known = literal(test)
    if known is not None:
        return a if known else b
    return Tree("if", (test, a, b), a.kind, a.of, place)


def compared(op: str, a: Tree, b: Tree, place: Any = None) -> Tree:
    if a.op == "number" and b.op == "number":
        return truth(COMPARE[op](a.parts[0], b.parts[0]), place)
    return Tree(op, (a, b), CONDITION, None, place)


def joined(op: str, parts: Iterable[Tree], place: Any = None) -> Tree:
    """`and` and `or`: up to the first operand that is sure to decide."""
    decides, kept = op == "or", []
    for part in flattened(op, parts):
        known = literal(part)
        if known is None:
            kept.append(part)
        elif known == decides:
            kept.append(part)
            break
    if not kept:
        return truth(not decides, place)
    if literal(kept[0]) is not None:
        return kept[0]
    return kept[0] if len(kept) == 1 else Tree(op, tuple(kept), CONDITION, None, place)


def negated(part: Tree, place: Any = None) -> Tree:
    known = literal(part)
    if known is not None:
        return truth(not known, place)
    if part.op == "not":
        return part.parts[0]
    return Tree("not", (part,), CONDITION, None, place)


def has_member(k: int, members: Tree) -> Tree:
    """Whether a set has a plain member."""
    if members.op == "complement":
        return negated(has_member(k, members.parts[0]))
    return Tree("is_in", (number(k), members), CONDITION)


def flattened(op: str, parts: Iterable[Tree]) -> List[Tree]:
    found: List[Tree] = []
    for part in parts:
        if part.op == op:
            found.extend(part.parts)
        else:
            found.append(part)
    return found


def never_negative(tree: Tree) -> bool:
    """Whether a number is sure to be 0 or more."""
    op = tree.op
    if op == "number":
        return tree.parts[0] >= 0
    if op in ("size", "parameter"):
        return True
    if op == "variable":
        return tree.parts[0].kind == "element"
    if op in ("cell", "sum"):
        table = tree.parts[0].table
        return table.default >= 0 and all(cell >= 0 for cell in table.given.values())
    if op in ("+", "*", "min"):
        return all(map(never_negative, tree.parts))
    if op == "max":
        return any(map(never_negative, tree.parts))
    return op == "if" and never_negative(tree.parts[1]) and never_negative(tree.parts[2])


def substituted(tree: Tree, values: Dict[Any, Tree]) -> Tree:
    """A tree with trees in place of some parameters."""
    if tree.op == "parameter":
        return values.get(tree.parts[0], tree)
    if not any(True for _ in tree.operands()):
        return tree
    return tree.with_parts(tuple(substituted(part, values) if isinstance(part, Tree) else part for part in tree.parts))


def least_common(numbers: Iterable[int]) -> int:
    """The least common multiple."""
    found = 1
    for one in numbers:
        found = found * one // math.gcd(found, one)
    return found
