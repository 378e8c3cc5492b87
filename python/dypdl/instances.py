"""Tables as they are written: which table, with which object types as arguments, under which name.

In Python a table has no object types for its arguments, and in YAML-DyPDL it has. Where a set is summed over, the argument has that set's object
type; else it has one with as many members as the table has rows. A table that is summed over sets of two object types is written twice.
"""

from __future__ import annotations

from typing import Any, Dict, FrozenSet, List, Optional, Sequence, Tuple

from .errors import ModelError
from .model import Model
from .tables import BoolTable, IntTable, SetTable, Table
from .trees import CONDITION, NUMBER, SET, Tree
from .variables import ObjectType

MOST_ARGUMENTS = 4


class Instance:
    """A table as it is written. `types` has None for an argument whose object type is still open; `hints` are object types that would do there."""

    def __init__(self, table: Table, types: List[Optional[ObjectType]]) -> None:
        self.table, self.types = table, types
        self.hints: List[Optional[ObjectType]] = [None] * len(types)
        self.name = ""

    def __str__(self) -> str:
        return self.table.name or "a table"

    def rows(self, k: int) -> int:
        return self.table.shape[k]


class Instances:
    """All tables of a model as they are written, and the object types that are made for them."""

    def __init__(self, model: Model) -> None:
        self.model = model
        self.all: List[Instance] = []
        self.by_table: Dict[Table, List[Instance]] = {}
        self.constants: Dict[Tuple[ObjectType, FrozenSet[int]], Instance] = {}
        self.made_types: Dict[int, ObjectType] = {}
        for table in model.tables:
            if table.types is not None:
                self.add(table, list(table.types))

    def add(self, table: Table, types: Sequence[Optional[ObjectType]]) -> Instance:
        instance = Instance(table, list(types))
        self.all.append(instance)
        self.by_table.setdefault(table, []).append(instance)
        return instance

    def used(self, table: Table, arguments: Sequence[Tree], place: Any) -> Instance:
        """The instance of a table that takes these arguments."""
        if len(table.shape) > MOST_ARGUMENTS:
            raise ModelError(f"`{table}` has more than {MOST_ARGUMENTS} arguments", place)
        wanted = [part.of if part.kind == SET else None for part in arguments]
        for k, of in enumerate(wanted):
            if of is not None and table.types is None and not table.is_dict and of.number > table.shape[k]:
                raise ModelError(f"`{table}` has {table.shape[k]} rows in argument {k + 1}, and is summed over a set of `{of}`, which has {of.number} members", place)
        for instance in self.by_table.get(table, ()):
            if table.types is not None or all(a is None or self.fits(instance, k, a) for k, a in enumerate(wanted)):
                self.test_declared(instance, wanted, place)
                instance.types = [known or a for known, a in zip(instance.types, wanted)]
                self.hint(instance, arguments)
                return instance
        instance = self.add(table, wanted if table.types is None else list(table.types))
        self.test_declared(instance, wanted, place)
        self.hint(instance, arguments)
        return instance

    def fits(self, instance: Instance, k: int, of: ObjectType) -> bool:
        known = instance.types[k]
        return known is of or (known is None and (instance.table.is_dict or of.number == instance.rows(k)))

    def test_declared(self, instance: Instance, wanted: Sequence[Optional[ObjectType]], place: Any) -> None:
        for k, (known, of) in enumerate(zip(instance.types, wanted)):
            if of is not None and known is not None and known is not of:
                raise ModelError(f"argument {k + 1} of `{instance}` is of the object type `{known}`, and not of `{of}`", place)

    def hint(self, instance: Instance, arguments: Sequence[Tree]) -> None:
        """Remembers object types of elements that a table is read at, which have as many members as it has rows."""
        for k, part in enumerate(arguments):
            of = getattr(part.parts[0], "object_type", None) if part.op in ("variable", "parameter") and part.kind == NUMBER else None
            if of is not None and of.number == instance.rows(k):
                instance.hints[k] = of

    def constant(self, members: FrozenSet[int], of: ObjectType) -> Instance:
        """A table without arguments that holds a set."""
        key = (of, members)
        if key not in self.constants:
            name = "none" if not members else "all" if len(members) == of.number else "set_" + "_".join(map(str, sorted(members)[:6]))
            self.constants[key] = self.add(SetTable({(): members}, (), f"{name}_{of}", of=of, types=[]), [])
        return self.constants[key]

    def filled(self, name: str, kind: str, types: List[ObjectType], cells: Dict[Tuple[int, ...], Any], of: Optional[ObjectType] = None) -> Instance:
        """A table that this package fills: of numbers, truth values or sets."""
        maker: Any = {NUMBER: IntTable, CONDITION: BoolTable, SET: SetTable}[kind]
        more = {"of": of} if kind == SET else {}
        return self.add(maker(cells, {NUMBER: 0, CONDITION: False, SET: ()}[kind], name, types=types, **more), types)

    def closed(self) -> None:
        """Gives each argument that is still open an object type: one that was hinted at, or one that is made for it."""
        for instance in self.all:
            for k, known in enumerate(instance.types):
                if known is None:
                    instance.types[k] = self.of_rows(instance, k)

    def of_rows(self, instance: Instance, k: int) -> ObjectType:
        rows = instance.rows(k)
        types = [known for known in [instance.hints[k], *instance.types, *self.model.object_types] if known is not None]
        if instance.table.is_dict:  # a dict has its default in all other cells, so it is as long as any object type
            longest = max(types, key=lambda known: known.number, default=None)
            return longest if longest is not None and longest.number >= rows else self.made(rows)
        return next((known for known in types if known.number == rows), None) or self.made(rows)

    def made(self, rows: int) -> ObjectType:
        """An object type with so many members that is made for tables."""
        if rows not in self.made_types:
            self.made_types[rows] = ObjectType(f"index_{rows}", rows)
        return self.made_types[rows]
