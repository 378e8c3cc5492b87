"""What a state is made of: object types, variables, parameters that range over them, and state functions."""

from __future__ import annotations

from typing import Any, Mapping, Optional, Sequence, Tuple, Union

from .exact import LARGEST_ELEMENT, Exact, exact, shown, whole
from .expressions import Condition, ElementExpr, FloatExpr, IntExpr, SetExpr, condition_tree, number_tree, set_tree, whole_tree
from .places import Place, here
from .trees import CONDITION, NUMBER, SET, Tree


def text(value: Any, what: str) -> str:
    if not isinstance(value, str):
        raise TypeError(f"{what} is a text, and not {shown(value)}")
    return value


def member_names(names: Sequence[str]) -> Tuple[str, ...]:
    """Names of members. Raises ValueError where one is empty, stands twice, or has a blank at its ends or a control character."""
    if isinstance(names, str):
        raise TypeError("the names of members are a list of texts")
    found = tuple(text(name, "the name of a member") for name in names)
    for name in found:
        if not name or name.strip() != name or not name.isprintable() or len(name.encode("utf-8", "replace")) > 200:
            raise ValueError(f"the name of a member is a text of 1 to 200 bytes on one line, without a blank at its ends, and not {shown(name)}")
    if len(set(found)) < len(found):
        raise ValueError("two members have one name")
    return found


class ObjectType:
    """A kind of things. Its members are the numbers from 0 to `number - 1`; `members` are their names, where they have some."""

    def __init__(self, name: str, number: int, place: Optional[Place] = None, members: Sequence[str] = ()) -> None:
        self.name, self.number, self.place, self.members = name, number, place, tuple(members)

    def shown(self, k: int) -> str:
        """A member by its name, or as a number."""
        return self.members[k] if k < len(self.members) else str(k)

    def __str__(self) -> str:
        return self.name

    def __repr__(self) -> str:
        return f"ObjectType({self.name!r}, {self.number})"


class Variable:
    """What all state variables share: a name, the value in the target state, and which values are preferred.

    kind: `integer`, `continuous`, `element` or `set`; `less_is_better` is None where nothing is preferred.
    """

    kind = "integer"
    name: str
    target: Any
    tree: Tree

    def declare(self, name: str, target: Any, object_type: Optional[ObjectType] = None, less_is_better: Optional[bool] = None) -> None:
        self.name, self.object_type, self.less_is_better, self.place = name, object_type, less_is_better, here()
        self.target = self.checked(target)
        self.tree = Tree("variable", (self,), SET if self.kind == "set" else NUMBER, object_type if self.kind == "set" else None, self.place)

    def checked(self, value: Any) -> Any:
        """A value that the variable may hold. Raises TypeError, ValueError or IndexError where it may not."""
        return whole(value, f"a value of `{self.name}`")

    def effect(self, value: Any) -> Tree:
        """An expression that the variable may become."""
        return whole_tree(value)

    def __str__(self) -> str:
        return self.name


class IntVar(Variable, IntExpr):
    """A whole number."""

    def __init__(self, *given: Any) -> None:
        self.declare(*given)


class IntResourceVar(IntVar):
    """A whole number of which less, or more, is preferred."""


class FloatVar(Variable, FloatExpr):
    """A multiple of 1/scale."""

    kind = "continuous"

    def __init__(self, *given: Any) -> None:
        self.declare(*given)

    def checked(self, value: Any) -> Exact:
        return exact(value, f"a value of `{self.name}`")

    def effect(self, value: Any) -> Tree:
        return number_tree(value)


class FloatResourceVar(FloatVar):
    """A multiple of 1/scale of which less, or more, is preferred."""


class ElementVar(Variable, ElementExpr):
    """A member of an object type. It may hold 0 to 2^32 - 1; as an index it must be a member."""

    kind = "element"

    def __init__(self, *given: Any) -> None:
        self.declare(*given)

    def checked(self, value: Any) -> int:
        found = whole(value, f"a value of `{self.name}`")
        if not 0 <= found <= LARGEST_ELEMENT:
            raise ValueError(f"an element is a number from 0 on, and `{self.name}` is to be {found}")
        return found


class ElementResourceVar(ElementVar):
    """A member of an object type of which less, or more, is preferred."""


class SetVar(Variable, SetExpr):
    """A set of members of an object type."""

    kind = "set"

    def __init__(self, *given: Any) -> None:
        self.declare(*given)

    def checked(self, value: Any) -> "frozenset[int]":
        tree = set_tree(value, self.object_type)
        if tree.op != "members":
            raise TypeError(f"a set of plain numbers is wanted for `{self.name}`, and no expression")
        return tree.parts[0]

    def effect(self, value: Any) -> Tree:
        return set_tree(value, self.object_type)


class Parameter(ElementExpr):
    """A number that a transition, or a `forall`, ranges over: the members of an object type, or those that a set variable has in the state."""

    def __init__(self, name: str, over: Union[ObjectType, SetVar]) -> None:
        if not isinstance(over, (ObjectType, SetVar)):
            raise TypeError(f"a parameter ranges over an object type or a set variable, and not over {shown(over)}")
        self.name, self.over, self.place = text(name, "the name of a parameter"), over, here()
        super().__init__(Tree("parameter", (self,), NUMBER, None, self.place))

    @property
    def object_type(self) -> ObjectType:
        return self.over if isinstance(self.over, ObjectType) else self.over.object_type  # type: ignore[return-value]

    def choices(self, values: Mapping[Any, Any]) -> Sequence[int]:
        """The numbers that it may be in a state."""
        return range(self.over.number) if isinstance(self.over, ObjectType) else sorted(values[self.over])

    def __str__(self) -> str:
        return self.name


def forall(parameter: Parameter, condition: Any) -> Condition:
    """Whether a condition holds for each choice of a parameter. It stands alone: as a constraint, a precondition, or in a base case."""
    if not isinstance(parameter, Parameter):
        raise TypeError(f"forall ranges over a parameter, and not over {shown(parameter)}")
    return Condition(Tree("forall", (parameter, condition_tree(condition)), CONDITION, None, here()))


class StateFunction:
    """A name for an expression of the state."""

    def __init__(self, name: str, tree: Tree, place: Optional[Place]) -> None:
        self.name, self.tree, self.place = name, tree, place

    def __str__(self) -> str:
        return self.name
