"""From what Python and YAML-DyPDL can say to what the solver reads: whole numbers, and the operators of docs/LANGUAGE.md.

- A number that need not be whole is a whole one over a divisor; where it is stored it is a multiple of 1/scale, held as that many.
- Least, greatest and product over a set are written out over the members.
- A state function is written out where it stands, or as a table where it is one of few elements.
- A set that is written down is a table without arguments.
"""

from __future__ import annotations

import math
from fractions import Fraction
from itertools import product
from typing import Any, Callable, Dict, List, Optional, Tuple, Union

from .errors import LeftOut, ModelError, NoValue
from .evaluation import value_of
from .exact import LARGEST, shown
from .instances import Instances
from .model import Model
from .simplify import choice, compared, divided, extreme, has_member, joined, least_common, minus, negated, never_negative, plus, substituted, times
from .tables import Table
from .trees import CONDITION, MOST_OPERANDS, NUMBER, SET, Tree, number, truth, walk
from .variables import ObjectType, StateFunction

Ratio = Tuple[Tree, Union[int, Tree]]  # a whole number over a divisor, which is above 0 where it is plain
MOST_WRITTEN_OUT = 4096
MOST_LEVELS = 100  # of an `if` in an `if` ..
MOST_TABLE = 65536
COMPARISONS = ("=", "!=", "<", "<=", ">", ">=")
ROUNDINGS = ("floor", "ceil", "trunc", "round")
OVER = ("sum", "product", "greatest", "least")


class Lowering:
    """Writes the trees of one model. `told` collects what was written out, in words."""

    def __init__(self, model: Model, instances: Instances) -> None:
        self.model, self.instances, self.scale = model, instances, model.scale
        self.functions: Dict[StateFunction, Tree] = {}
        self.told: Dict[str, int] = {}

    def tell(self, what: str) -> None:
        self.told[what] = self.told.get(what, 0) + 1

    # ---- what is wanted

    def whole(self, tree: Tree) -> Tree:
        """A number that must be whole."""
        above, below = self.ratio(tree)
        if isinstance(below, Tree):
            why = "a quotient that need not be whole stands where a whole number is wanted: round it by floor, ceil, trunc or round"
            raise LeftOut(why, tree.place)
        if below == 1:
            return above
        if above.op == "number" and above.parts[0] % below == 0:
            return number(above.parts[0] // below, tree.place)
        what = f"`{Fraction(above.parts[0], below)}`" if above.op == "number" else f"a multiple of 1/{below}"
        raise LeftOut(f"a whole number is wanted here, and {what} is none", tree.place)

    def stored(self, tree: Tree, what: str) -> Tree:
        """A number as it is held: so many times 1/scale."""
        above, below = self.ratio(tree)
        if isinstance(below, Tree):
            raise LeftOut(f"{what} is a quotient whose divisor is no plain number, so it is no multiple of 1/{self.scale} in each state: round it", tree.place)
        if self.scale % below == 0:
            return times((above, number(self.scale // below)), tree.place)
        if above.op == "number" and above.parts[0] * self.scale % below == 0:
            return number(above.parts[0] * self.scale // below, tree.place)
        raise LeftOut(f"{what} is a multiple of 1/{below}, which scale={self.scale} does not hold{self.better_scale(below)}", tree.place)

    def better_scale(self, below: int) -> str:
        wanted = least_common((self.scale, below))
        for power in range(1, 13):
            if 10**power % wanted == 0:
                wanted = 10**power
                break
        return f"; scale={wanted} does" if wanted <= 10**12 else ": round it to a decimal first"

    def bound(self, tree: Tree) -> Tree:
        """A dual bound as it is held. What does not fit is rounded to the side on which it stays true."""
        above, below = self.ratio(tree)
        if not isinstance(below, Tree) and self.scale % below == 0:
            return times((above, number(self.scale // below)), tree.place)
        self.tell("a dual bound was rounded to the side on which it stays true")
        return self.rounded("ceil" if self.model.maximize else "floor", times((above, number(self.scale))), below, tree.place)

    def value(self, variable: Any, tree: Tree) -> Tree:
        """What a variable becomes."""
        if variable.kind == "set":
            return self.set(tree)
        return self.stored(tree, f"the value of `{variable}`") if variable.kind == "continuous" else self.whole(tree)

    # ---- costs

    def cost(self, tree: Tree) -> Tuple[Optional[str], Optional[Tree]]:
        """The operator and the weight of a cost; None twice where the step adds nothing."""
        op, weight = self.joined_cost(tree)
        if weight is None:
            return None, None
        if self.model.float_cost:
            return op, self.stored(weight, "the cost of a step")
        return op, self.whole(weight)

    def joined_cost(self, tree: Tree) -> Tuple[Optional[str], Optional[Tree]]:
        if tree.op == "cost":
            return None, None
        if tree.op == "function":
            return self.joined_cost(tree.parts[0].tree)
        if not has_cost(tree):
            raise LeftOut("the cost of a step is state_cost() joined with a number by +, max or min, and this one has no state_cost()", tree.place)
        if tree.op == "-" and not has_cost(tree.parts[1]):
            tree = Tree("+", (tree.parts[0], minus(number(0), tree.parts[1], tree.place)), NUMBER, None, tree.place)
        if tree.op == "if" and not has_cost(tree.parts[0]):
            return self.chosen_cost(tree)
        if tree.op not in ("+", "max", "min") or sum(map(has_cost, tree.parts)) != 1:
            raise LeftOut("a cost has one form: state_cost() joined with a number by +, max or min", tree.place)
        inner_op, inner = self.joined_cost(next(part for part in tree.parts if has_cost(part)))
        if inner_op not in (None, tree.op):
            raise LeftOut(f"a cost has one operator, and this one has `{inner_op}` and `{tree.op}`", tree.place)
        weights = [part for part in tree.parts if not has_cost(part)] + ([inner] if inner is not None else [])
        return tree.op, weights[0] if len(weights) == 1 else Tree(tree.op, tuple(weights), NUMBER, None, tree.place)

    def chosen_cost(self, tree: Tree) -> Tuple[Optional[str], Optional[Tree]]:
        """A choice between two costs is one cost with a choice between two weights."""
        test, *branches = tree.parts
        (op, a), (other, b) = map(self.joined_cost, branches)
        op, other = op or other, other or op
        if op != other or (op in ("max", "min") and (a is None or b is None)):
            raise LeftOut("the two costs of a choice are not joined by one operator", tree.place)
        if op is None:
            return None, None
        none = number(0, tree.place)
        return op, Tree("if", (test, none if a is None else a, none if b is None else b), NUMBER, None, tree.place)

    # ---- numbers

    def ratio(self, tree: Tree) -> Ratio:
        """A number as a whole one over a divisor."""
        op = tree.op
        if op == "number":
            return self.fixed(tree)
        if op == "variable":
            return tree, self.scale if tree.parts[0].kind == "continuous" else 1
        if op == "parameter":
            return tree, 1
        if op == "function":
            return self.function(tree)
        if op == "cost":
            raise LeftOut("state_cost() stands in the cost of a transition alone", tree.place)
        if op in ("cell", *OVER):
            return self.of_table(tree)
        if op in ("+", "-", "max", "min"):
            return self.in_common(tree)
        if op == "*":
            return self.multiplied(tree)
        if op == "ratio":
            return self.exact_quotient(tree)
        if op == "if":
            (a, b), below = self.common([self.ratio(part) for part in tree.parts[1:]], tree)
            return choice(self.condition(tree.parts[0]), a, b, tree.place), below
        if op in ROUNDINGS:
            above, below = self.ratio(tree.parts[0])
            return self.rounded(op, above, below, tree.place), 1
        if op in ("quotient", "rest"):
            return divided(op, self.whole(tree.parts[0]), self.whole(tree.parts[1]), tree.place), 1
        if op == "size":
            return Tree("size", (self.set(tree.parts[0]),), NUMBER, None, tree.place), 1
        raise ModelError(f"`{op}` is no number", tree.place)

    def fixed(self, tree: Tree) -> Ratio:
        value = tree.parts[0]
        if isinstance(value, Fraction):
            return number(value.numerator, tree.place), value.denominator
        return tree, 1

    def common(self, ratios: List[Ratio], tree: Tree) -> Tuple[List[Tree], Union[int, Tree]]:
        """Numbers over one divisor."""
        plain = [below for _, below in ratios if isinstance(below, int)]
        if len(plain) < len(ratios):
            if len(ratios) == 2 and tree.op in ("+", "-"):
                (a, below), (b, other) = ratios
                return [times((a, as_tree(other))), times((b, as_tree(below)))], times((as_tree(below), as_tree(other)))
            raise LeftOut("a quotient whose divisor is no plain number cannot stand here: round it", tree.place)
        below = least_common(plain)
        return [times((above, number(below // own)), tree.place) for above, own in ratios], below

    def in_common(self, tree: Tree) -> Ratio:
        parts, below = self.common([self.ratio(part) for part in tree.parts], tree)
        if tree.op == "+":
            return plus(parts, tree.place), below
        if tree.op == "-":
            return minus(parts[0], parts[1], tree.place), below
        return extreme(tree.op, parts, tree.place), below

    def multiplied(self, tree: Tree) -> Ratio:
        ratios = [self.ratio(part) for part in tree.parts]
        above = times([part for part, _ in ratios], tree.place)
        below = times([as_tree(part) for _, part in ratios], tree.place)
        return reduced(above, below.parts[0] if below.op == "number" else below)

    def exact_quotient(self, tree: Tree) -> Ratio:
        (a, below_a), (b, below_b) = map(self.ratio, tree.parts)
        above, below = times((a, as_tree(below_b)), tree.place), times((b, as_tree(below_a)), tree.place)
        if below.op != "number":
            return above, below
        if below.parts[0] == 0:
            raise ModelError("a division by 0", tree.place)
        if below.parts[0] < 0:
            above, below = minus(number(0), above, tree.place), number(-below.parts[0])
        return reduced(above, below.parts[0])

    def rounded(self, op: str, above: Tree, below: Union[int, Tree], place: Any) -> Tree:
        """A quotient rounded to a whole number. The solver's own division goes toward 0."""
        if not isinstance(below, Tree):
            return self.rounded_plain(op, above, below, place)
        towards = Tree("quotient", (above, below), NUMBER, None, place)
        if op == "trunc":
            return towards
        if op == "round":
            raise LeftOut("rounding to the nearest needs a plain number as divisor", place)
        # what is left has the sign of the dividend, so its product with the divisor is above 0 where the quotient is and was cut
        left = times((Tree("rest", (above, below), NUMBER, None, place), below))
        if op == "ceil":
            return plus((towards, choice(compared(">", left, number(0)), number(1), number(0))), place)
        return minus(towards, choice(compared("<", left, number(0)), number(1), number(0)), place)

    def rounded_plain(self, op: str, above: Tree, below: int, place: Any) -> Tree:
        if above.op == "number":
            exact = Fraction(above.parts[0], below)
            calls: Dict[str, Callable[[Fraction], int]] = {"floor": math.floor, "ceil": math.ceil, "trunc": math.trunc}
            return number(half_away(exact) if op == "round" else calls[op](exact), place)
        if below == 1:
            return above
        if op == "round":
            above, more, below = times((number(2), above)), below, 2 * below
            up, down = plus((above, number(more))), minus(above, number(more))
        else:
            up = plus((above, number(below - 1))) if op == "ceil" else above
            down = minus(above, number(below - 1)) if op == "floor" else above
        upper = divided("quotient", up, number(below), place)
        if op == "trunc" or never_negative(above):
            return upper
        return choice(compared("<", above, number(0)), divided("quotient", down, number(below), place), upper, place)

    # ---- tables

    def of_table(self, tree: Tree) -> Ratio:
        table: Table = tree.parts[0]
        below = self.scale if table.continuous else 1
        arguments = [self.argument(part) for part in tree.parts[1:]]
        if tree.op == "cell" and table.types is None and all(part.op == "number" for part in arguments):
            try:
                return self.fixed(number(table.cell(tuple(part.parts[0] for part in arguments)), tree.place))
            except IndexError as error:
                raise ModelError(str(error), tree.place) from None
        if tree.op in ("cell", "sum"):
            return Tree(tree.op, (self.instances.used(table, arguments, tree.place), *arguments), NUMBER, None, tree.place), below
        if tree.op == "product" and table.continuous:
            raise LeftOut("a product of numbers that need not be whole has no scale", tree.place)
        self.tell(f"`{tree.op}` over a set was written out over its members")
        return self.over_members(tree, table, arguments), below

    def argument(self, tree: Tree) -> Tree:
        return self.set(tree) if tree.kind == SET else self.whole(tree)

    def over_members(self, tree: Tree, table: Table, arguments: List[Tree]) -> Tree:
        """Least, greatest or product over the members of sets."""
        sets = [k for k, part in enumerate(arguments) if part.kind == SET]
        counts = [arguments[k].of.number for k in sets]
        if math.prod(counts) > MOST_WRITTEN_OUT:
            raise LeftOut(f"`{tree.op}` over sets of {' times '.join(map(str, counts))} members is more than {MOST_WRITTEN_OUT} that are written out", tree.place)
        choices = list(product(*map(range, counts)))
        for k, count in zip(sets, counts):
            if table.types is None and not table.is_dict and count > table.shape[k]:
                raise ModelError(f"`{table}` has {table.shape[k]} rows, and goes over a set of `{arguments[k].of}`, which has {count} members", tree.place)
        cells, tests = [], []
        for members in choices:
            at = list(arguments)
            for k, member in zip(sets, members):
                at[k] = number(member)
            cells.append(self.cell_at(table, at, tree.place))
            tests.append(joined("and", [has_member(m, arguments[k]) for k, m in zip(sets, members)]))
        return self.written_out(tree, table, [arguments[k] for k in sets], cells, tests)

    def cell_at(self, table: Table, at: List[Tree], place: Any) -> Tree:
        if all(part.op == "number" for part in at):
            value = table.cell(tuple(part.parts[0] for part in at))
            return number(self.held(value, f"a cell of `{table}`", place) if table.continuous else value, place)
        return Tree("cell", (self.instances.used(table, at, place), *at), NUMBER, None, place)

    def held(self, value: Any, what: str, place: Any) -> int:
        """A number that is known, as so many times 1/scale."""
        scaled = Fraction(value) * self.scale
        if scaled.denominator != 1:
            raise LeftOut(f"{what} is {shown(float(value))}, which scale={self.scale} does not hold{self.better_scale(Fraction(value).denominator)}", place)
        if abs(scaled.numerator) > LARGEST:
            raise ModelError(f"{what} is beyond 2^62 - 1 times 1/{self.scale}", place)
        return scaled.numerator

    def written_out(self, tree: Tree, table: Table, sets: List[Tree], cells: List[Tree], tests: List[Tree]) -> Tree:
        place = tree.place
        if tree.op == "product":
            return times([choice(test, cell, number(1), place) for test, cell in zip(tests, cells)] or [number(1)], place)
        no_value = Tree("quotient", (number(1), number(0)), NUMBER, None, place)  # over an empty set there is none
        if not cells:
            return no_value
        if all(cell.op == "number" for cell in cells) and len({cell.parts[0] for cell in cells}) <= MOST_LEVELS:
            return self.in_order(tree.op, cells, tests, no_value, place)
        known = [*table.given.values(), table.default]
        beyond = min(known) if tree.op == "greatest" else max(known)
        other = number(self.held(beyond, "a cell", place) if table.continuous else beyond)
        op = "max" if tree.op == "greatest" else "min"
        best = Tree(op, tuple(choice(test, cell, other, place) for test, cell in zip(tests, cells)), NUMBER, None, place)
        empty = joined("or", [Tree("is_empty", (part,), CONDITION) for part in sets])
        return choice(empty, no_value, best if len(cells) > 1 else best.parts[0], place)

    def in_order(self, op: str, cells: List[Tree], tests: List[Tree], otherwise: Tree, place: Any) -> Tree:
        """The first of the values, best first, of which a member is there."""
        by_value: Dict[int, List[Tree]] = {}
        for cell, test in zip(cells, tests):
            by_value.setdefault(cell.parts[0], []).append(test)
        best = otherwise
        for value in sorted(by_value, reverse=op == "least"):
            best = choice(joined("or", by_value[value]), number(value, place), best, place)
        return best

    # ---- state functions

    def function(self, tree: Tree) -> Ratio:
        function: StateFunction = tree.parts[0]
        table = self.tabled(function)
        if table is not None:
            return table, 1
        return self.ratio(function.tree)

    def tabled(self, function: StateFunction) -> Optional[Tree]:
        """The cell of a table in place of a function of few elements; None where it is no such function."""
        if function not in self.functions:
            self.functions[function] = self.table_of(function) or truth(False)
        found = self.functions[function]
        if found.op == "truth":
            self.tell(f"`{function}` was written out where it stands")
        return None if found.op == "truth" else found

    def table_of(self, function: StateFunction) -> Optional[Tree]:
        body = function.tree
        known = {part.parts[0]: part for part in walk(expanded(body)) if part.op in ("variable", "parameter")}
        if not 1 <= len(known) <= 4 or sum(1 for _ in walk(expanded(body))) < 4:
            return None
        if any(getattr(thing, "kind", "element") != "element" or part.op == "parameter" for thing, part in known.items()) or has_cost(body):
            return None
        counts = [variable.object_type.number for variable in known]
        if math.prod(counts) > MOST_TABLE or not is_index(expanded(body), set(known)):
            return None
        cells = {}
        try:
            for at in product(*map(range, counts)):
                cells[at] = value_of(body, dict(zip(known, at)))
        except NoValue:
            return None
        if body.kind == NUMBER and not all(isinstance(cell, int) and abs(cell) <= LARGEST for cell in cells.values()):
            return None
        self.tell(f"`{function}` was written as a table of {len(cells)} cells")
        instance = self.instances.filled(function.name, body.kind, [variable.object_type for variable in known], cells, body.of)
        return Tree("cell", (instance, *known.values()), body.kind, body.of, body.place)

    # ---- sets

    def set(self, tree: Tree) -> Tree:
        op, place = tree.op, tree.place
        if op == "variable":
            return tree
        if op == "members":
            return self.constant(tree.parts[0], tree.of, place)
        if op == "function":
            return self.tabled(tree.parts[0]) or self.set(tree.parts[0].tree)
        if op == "cell":
            arguments = [self.whole(part) for part in tree.parts[1:]]
            return Tree("cell", (self.instances.used(tree.parts[0], arguments, place), *arguments), SET, tree.of, place)
        if op in ("union_over", "intersection_over"):
            return self.sets_over(tree)
        if op in ("add", "remove"):
            return Tree(op, (self.whole(tree.parts[0]), self.set(tree.parts[1])), SET, tree.of, place)
        if op == "if":
            return choice(self.condition(tree.parts[0]), self.set(tree.parts[1]), self.set(tree.parts[2]), place)
        return Tree(op, tuple(map(self.set, tree.parts)), SET, tree.of, place)

    def constant(self, members: "frozenset[int]", of: ObjectType, place: Any) -> Tree:
        return Tree("cell", (self.instances.constant(members, of),), SET, of, place)

    def sets_over(self, tree: Tree) -> Tree:
        """All members of cells of a table of sets, or what all of them have, over the members of sets."""
        table, place = tree.parts[0], tree.place
        arguments = [self.argument(part) for part in tree.parts[1:]]
        sets = [k for k, part in enumerate(arguments) if part.kind == SET]
        counts = [arguments[k].of.number for k in sets]
        if math.prod(counts) > MOST_WRITTEN_OUT:
            raise LeftOut(f"more than {MOST_WRITTEN_OUT} sets would be written out", place)
        everything = frozenset(range(tree.of.number))
        other = self.constant(frozenset() if tree.op == "union_over" else everything, tree.of, place)
        parts = []
        for members in product(*map(range, counts)):
            at = list(arguments)
            for k, member in zip(sets, members):
                at[k] = number(member)
            test = joined("and", [has_member(m, arguments[k]) for k, m in zip(sets, members)])
            if all(part.op == "number" for part in at):
                try:
                    cell = self.constant_cell(table, at, tree)
                except IndexError as error:
                    raise ModelError(str(error), place) from None
            else:
                cell = Tree("cell", (self.instances.used(table, at, place), *at), SET, tree.of, place)
            if tree.op == "intersection_over" or not is_no_set(table, at):
                parts.append(choice(test, cell, other, place))
        self.tell("`union` or `intersection` over a set was written out over its members")
        op = "union" if tree.op == "union_over" else "intersection"
        whole = other if not parts else parts[0] if len(parts) == 1 else Tree(op, tuple(parts), SET, tree.of, place)
        if op == "union":
            return whole
        no_value = Tree("add", (Tree("quotient", (number(1), number(0)), NUMBER), other), SET, tree.of, place)
        return choice(joined("or", [Tree("is_empty", (arguments[k],), CONDITION) for k in sets]), no_value, whole, place)

    def constant_cell(self, table: Table, at: List[Tree], tree: Tree) -> Tree:
        table.cell(tuple(part.parts[0] for part in at))
        return Tree("cell", (self.instances.used(table, at, tree.place), *at), SET, tree.of, tree.place)

    # ---- conditions

    def condition(self, tree: Tree) -> Tree:
        op, place = tree.op, tree.place
        if op == "truth":
            return tree
        if op == "function":
            return self.tabled(tree.parts[0]) or self.condition(tree.parts[0].tree)
        if op == "cell":
            return self.truth_cell(tree)
        if op in COMPARISONS:
            return self.comparison(tree)
        if op in ("and", "or"):
            return joined(op, map(self.condition, tree.parts), place)
        if op == "not":
            return negated(self.condition(tree.parts[0]), place)
        if op == "is_in":
            return Tree(op, (self.whole(tree.parts[0]), self.set(tree.parts[1])), CONDITION, None, place)
        if op in ("is_empty", "is_subset"):
            return Tree(op, tuple(map(self.set, tree.parts)), CONDITION, None, place)
        if op == "if":
            return choice(*map(self.condition, tree.parts), place=place)
        if op == "forall":
            return self.condition(self.each(tree))
        raise ModelError(f"`{op}` is no condition", place)

    def truth_cell(self, tree: Tree) -> Tree:
        table, arguments = tree.parts[0], [self.whole(part) for part in tree.parts[1:]]
        if table.types is None and all(part.op == "number" for part in arguments):
            try:
                return truth(table.cell(tuple(part.parts[0] for part in arguments)), tree.place)
            except IndexError as error:
                raise ModelError(str(error), tree.place) from None
        return Tree("cell", (self.instances.used(table, arguments, tree.place), *arguments), CONDITION, None, tree.place)

    def comparison(self, tree: Tree) -> Tree:
        op, place = tree.op, tree.place
        if tree.parts[0].kind == SET:
            return Tree(op, tuple(map(self.set, tree.parts)), CONDITION, None, place)
        (a, below_a), (b, below_b) = map(self.ratio, tree.parts)
        if isinstance(below_a, int) and isinstance(below_b, int):
            below = least_common((below_a, below_b))
            return compared(op, times((a, number(below // below_a))), times((b, number(below // below_b))), place)
        # both sides times the square of each divisor, whose sign is not known
        first = times((a, as_tree(below_a), as_tree(below_b), as_tree(below_b)))
        return compared(op, first, times((b, as_tree(below_b), as_tree(below_a), as_tree(below_a))), place)

    def each(self, tree: Tree) -> Tree:
        """A `forall` inside an expression, written out over all that its parameter may be."""
        parameter, body = tree.parts
        if parameter.object_type.number > MOST_OPERANDS:
            raise LeftOut(f"a forall inside an expression over more than {MOST_OPERANDS} members", tree.place)
        self.tell("a forall inside an expression was written out")
        parts = []
        for k in range(parameter.object_type.number):
            one = substituted(body, {parameter: number(k)})
            if not isinstance(parameter.over, ObjectType):
                gate = Tree("not", (Tree("is_in", (number(k), parameter.over.tree), CONDITION),), CONDITION)
                one = Tree("or", (gate, one), CONDITION)
            parts.append(one)
        return joined("and", parts, tree.place)


def as_tree(below: Union[int, Tree]) -> Tree:
    return below if isinstance(below, Tree) else number(below)


def reduced(above: Tree, below: Union[int, Tree]) -> Ratio:
    """A plain factor of the dividend taken out of the divisor."""
    if isinstance(below, Tree):
        return above, below
    factor = above if above.op == "number" else above.parts[0] if above.op == "*" and above.parts[0].op == "number" else None
    common = math.gcd(factor.parts[0], below) if factor is not None else 1
    if common == 1:
        return above, below
    rest = number(factor.parts[0] // common, above.place)  # type: ignore[union-attr]
    return (rest if above.op == "number" else times((rest, *above.parts[1:]), above.place)), below // common


def half_away(exact: Fraction) -> int:
    return math.floor(abs(exact) + Fraction(1, 2)) * (1 if exact >= 0 else -1)


def has_cost(tree: Tree) -> bool:
    return any(part.op == "cost" or (part.op == "function" and has_cost(part.parts[0].tree)) for part in walk(tree))


def expanded(tree: Tree) -> Tree:
    """A tree with the bodies of state functions in their place."""
    if tree.op == "function":
        return expanded(tree.parts[0].tree)
    if not any(True for _ in tree.operands()):
        return tree
    return tree.with_parts(tuple(expanded(part) if isinstance(part, Tree) else part for part in tree.parts))


def is_index(tree: Tree, wanted: "set[Any]") -> bool:
    """Whether each of these variables is read as a member in each state, so that a number that is none has no value anyhow."""
    found = set()

    def look(part: Tree) -> None:
        certain = part.parts[:1] if part.op in ("if", "and", "or") else part.parts
        for k, inner in enumerate(certain):
            if isinstance(inner, Tree):
                if inner.op == "variable" and (part.op in ("cell", *OVER) or (part.op == "is_in" and k == 0) or (part.op in ("add", "remove") and k == 0)):
                    found.add(inner.parts[0])
                look(inner)

    look(tree)
    return wanted <= found


def is_no_set(table: Table, at: List[Tree]) -> bool:
    """Whether a cell is sure to be the empty set."""
    return all(part.op == "number" for part in at) and not table.cell(tuple(part.parts[0] for part in at))

