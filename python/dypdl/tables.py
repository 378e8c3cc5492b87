"""Tables of data: whole numbers, decimals, elements, truth values and sets, with up to four arguments.

`table[i]`, `table[i, j]` are cells; a set in place of a number adds up the cells of its members. A table is given as a list (of lists, for each
argument one more), or as a dict from a number or a tuple to a cell, with a default for all others. Arrays of numpy will do.
"""

from __future__ import annotations

from itertools import product
from typing import TYPE_CHECKING, Any, Dict, Iterator, List, Optional, Tuple

from .exact import exact, shown, whole
from .expressions import Condition, ElementExpr, Expression, FloatExpr, IntExpr, SetConst, SetExpr, member, whole_tree
from .places import here
from .trees import CONDITION, NUMBER, SET, Tree

if TYPE_CHECKING:
    from .variables import ObjectType

MOST_ARGUMENTS = 4


class Table:
    """A table. `shape` is the length of each argument; a cell that a dict leaves out is `default`.

    kind: `number`, `condition` or `set`; `continuous` where cells need not be whole; `types` are the object types of the arguments where they
    are known from the start.
    """

    kind, continuous, element = NUMBER, False, False

    def __init__(self, cells: Any, default: Any, name: Optional[str], of: "Optional[ObjectType]" = None, types: "Optional[List[ObjectType]]" = None) -> None:
        self.name, self.of, self.types, self.place = name, of, types, here()
        self.default = self.checked(default, "the default")
        self.given: Dict[Tuple[int, ...], Any] = {}
        if hasattr(cells, "tolist"):
            cells = cells.tolist()
        self.is_dict = isinstance(cells, dict)
        self.shape: Tuple[int, ...] = self.read_dict(cells) if self.is_dict else self.read_list(cells)
        if types is not None:
            self.shape = tuple(o.number for o in types)

    def __str__(self) -> str:
        return self.name or "a table"

    def checked(self, cell: Any, what: str) -> Any:
        """A cell as it is kept. Raises TypeError or ValueError where it is none."""
        return whole(cell, what)

    def is_cell(self, given: Any) -> bool:
        """Whether a value in a list is a cell, and no list of more."""
        return not isinstance(given, (list, tuple))

    def read_list(self, cells: Any) -> Tuple[int, ...]:
        if not isinstance(cells, (list, tuple)):
            raise TypeError(f"a table is a list, a dict or an array, and {shown(cells)} is none")
        shape: List[int] = []
        level: Any = cells
        while not self.is_cell(level):
            shape.append(len(level))
            level = level[0] if level else None
        self.test_shape(tuple(shape))
        self.read_level(cells, (), shape)
        return tuple(shape)

    def read_level(self, level: Any, at: Tuple[int, ...], shape: List[int]) -> None:
        """Keeps the cells of a list at some depth."""
        if len(at) == len(shape):
            if not self.is_cell(level):
                raise ValueError(f"the cell {list(at)} is {shown(level)}, and one cell is wanted")
            self.given[at] = self.checked(level, f"the cell {list(at)}")
            return
        wanted = shape[len(at)]
        if not isinstance(level, (list, tuple)) or len(level) != wanted:
            raise ValueError(f"all rows of a table are of one length, and the row {list(at)} is {shown(level)}, beside {wanted} cells of the first")
        for k, item in enumerate(level):
            self.read_level(item, (*at, k), shape)

    def read_dict(self, cells: "Dict[Any, Any]") -> Tuple[int, ...]:
        for key, cell in cells.items():
            at = tuple(whole(k, "the key of a cell") for k in (key if isinstance(key, tuple) else (key,)))
            if self.given and len(at) != len(next(iter(self.given))):
                raise ValueError(f"all keys of a table have as many numbers, and {shown(key)} has {len(at)}")
            if min(at, default=-1 if self.types != [] else 0) < 0:
                raise ValueError(f"the key of a cell is one number from 0 on, or a tuple of them, and not {shown(key)}")
            self.given[at] = self.checked(cell, f"the cell {list(at)}")
        if not self.given:
            return () if self.types is None else tuple(o.number for o in self.types)
        shape = tuple(1 + max(at[d] for at in self.given) for d in range(len(next(iter(self.given)))))
        self.test_shape(shape)
        return shape

    def test_shape(self, shape: Tuple[int, ...]) -> None:
        if len(shape) > MOST_ARGUMENTS:
            raise ValueError(f"a table has at most {MOST_ARGUMENTS} arguments, and this one has {len(shape)}")

    # ---- cells

    def cell(self, at: Tuple[int, ...]) -> Any:
        """A cell. Raises IndexError where there is none."""
        found = self.given.get(at)
        if found is not None or at in self.given:
            return found
        if len(at) != len(self.shape) or any(k < 0 for k in at) or (not self.is_dict and any(k >= n for k, n in zip(at, self.shape))):
            raise IndexError(f"`{self}` has no cell {list(at)}: its arguments go up to {[n - 1 for n in self.shape]}")
        return self.default

    def positions(self) -> Iterator[Tuple[int, ...]]:
        return product(*map(range, self.shape))

    def index(self, index: Any) -> Tuple[Any, ...]:
        at = index if isinstance(index, tuple) else (index,)
        wanted = len(self.shape)
        if len(at) != wanted and (self.given or not self.is_dict or self.types is not None):
            raise TypeError(f"`{self}` has {wanted} argument{'s' * (wanted != 1)}, and {len(at)} {'is' if len(at) == 1 else 'are'} given")
        if not self.given and self.is_dict and not self.shape:
            self.shape = (1,) * len(at)  # an empty dict: all cells are the default
        return at

    def trees(self, at: Tuple[Any, ...]) -> Tuple[Tree, ...]:
        """The trees of numbers and sets as arguments; plain numbers must be cells that are there."""
        found = []
        for place, part in enumerate(at):
            if isinstance(part, SetExpr):
                found.append(part.tree)
                continue
            if isinstance(part, (set, frozenset, list)):
                raise TypeError("a set of plain numbers says nothing of its object type: write model.create_set_const(object_type, members)")
            tree = whole_tree(part)
            if tree.op == "number" and (tree.parts[0] < 0 or (not self.is_dict and tree.parts[0] >= self.shape[place])):
                raise IndexError(f"`{self}` has no cell {shown(part)}: argument {place + 1} goes up to {self.shape[place] - 1}")
            found.append(tree)
        return tuple(found)

    def made(self, op: str, parts: Tuple[Tree, ...]) -> Tree:
        return Tree(op, (self, *parts), NUMBER if op not in ("cell", "union_over", "intersection_over") else self.kind, self.of, here())


class NumberTable(Table):
    """What tables of numbers share: sums, and least, greatest and product over sets."""

    expression: Any = IntExpr

    def __getitem__(self, index: Any) -> Any:
        at = self.index(index)
        parts = self.trees(at)
        return self.expression(self.made("sum" if any(part.kind == SET for part in parts) else "cell", parts))

    def _over(self, op: str, index: Tuple[Any, ...]) -> Any:
        at = self.index(index[0] if len(index) == 1 else index)
        parts = self.trees(at)
        return self.expression(self.made(op if any(part.kind == SET for part in parts) else "cell", parts))

    def max(self, *index: Any) -> Any:
        """The greatest cell over the sets among the arguments. Over an empty set it has no value."""
        return self._over("greatest", index)

    def min(self, *index: Any) -> Any:
        """The least cell over the sets among the arguments. Over an empty set it has no value."""
        return self._over("least", index)

    def sum(self, *index: Any) -> Any:
        """The sum of cells over the sets among the arguments, which `table[..]` is too."""
        return self._over("sum", index)

    def product(self, *index: Any) -> Any:
        """The product of cells over the sets among the arguments; 1 over an empty set."""
        return self._over("product", index)


class IntTable(NumberTable):
    """A table of whole numbers."""


class FloatTable(NumberTable):
    """A table of exact numbers; each must be a multiple of 1/scale of the model."""

    continuous, expression = True, FloatExpr

    def checked(self, cell: Any, what: str) -> Any:
        return exact(cell, what)


class ElementTable(Table):
    """A table of elements."""

    element = True

    def checked(self, cell: Any, what: str) -> Any:
        found = whole(cell, what)
        if found < 0:
            raise ValueError(f"{what} is an element, from 0 on, and not {found}")
        return found

    def __getitem__(self, index: Any) -> ElementExpr:
        parts = self.trees(self.index(index))
        if any(part.kind == SET for part in parts):
            raise TypeError("elements are not added up: a cell of a table of elements has numbers as arguments")
        return ElementExpr(self.made("cell", parts))


class BoolTable(Table):
    """A table of truth values."""

    kind = CONDITION

    def checked(self, cell: Any, what: str) -> bool:
        if isinstance(cell, bool) or type(cell).__name__ == "bool_":
            return bool(cell)
        raise TypeError(f"{what} is True or False, and not {shown(cell)}")

    def __getitem__(self, index: Any) -> Condition:
        parts = self.trees(self.index(index))
        if any(part.kind == SET for part in parts):
            raise TypeError("truth values are not added up: a cell of a table of truth values has numbers as arguments")
        return Condition(self.made("cell", parts))


class SetTable(Table):
    """A table of sets of one object type. In a list a cell is a SetConst, a set, or a list of plain numbers."""

    kind = SET

    def checked(self, cell: Any, what: str) -> "frozenset[int]":
        if isinstance(cell, SetConst):
            if self.of is not None and cell.tree.of is not self.of:
                raise TypeError(f"{what} is a set of `{self.of}`, and not of `{cell.tree.of}`")
            return cell.members
        if isinstance(cell, Expression) or isinstance(cell, (str, bytes, dict)) or not hasattr(cell, "__iter__"):
            raise TypeError(f"{what} is a set of `{self.of}`, and not {shown(cell)}")
        return frozenset(member(item, self.of) for item in cell)

    def is_cell(self, given: Any) -> bool:
        return isinstance(given, (set, frozenset, SetConst)) or (isinstance(given, (list, tuple)) and not any(hasattr(item, "__iter__") for item in given))

    def read_list(self, cells: Any) -> Tuple[int, ...]:
        if isinstance(cells, (list, tuple)) and cells and self.is_cell(cells):
            raise TypeError("a table of sets is a list of sets, and this is one set")
        return (0,) if isinstance(cells, (list, tuple)) and not cells else super().read_list(cells)

    def __getitem__(self, index: Any) -> SetExpr:
        parts = self.trees(self.index(index))
        if any(part.kind == SET for part in parts):
            raise TypeError("a cell of a table of sets has numbers as arguments: write table.union(..) or table.intersection(..) over a set")
        return SetExpr(self.made("cell", parts))

    def _over(self, op: str, index: Tuple[Any, ...]) -> SetExpr:
        parts = self.trees(self.index(index[0] if len(index) == 1 else index))
        return SetExpr(self.made(op if any(part.kind == SET for part in parts) else "cell", parts))

    def union(self, *index: Any) -> SetExpr:
        """All members of the cells over the sets among the arguments; the empty set over an empty one."""
        return self._over("union_over", index)

    def intersection(self, *index: Any) -> SetExpr:
        """What all cells over the sets among the arguments have. Over an empty set it has no value."""
        return self._over("intersection_over", index)
