"""States, the steps between them, and where plans end."""

from __future__ import annotations

import copy
from fractions import Fraction
from typing import TYPE_CHECKING, Any, Dict, Iterable, List, Mapping, Optional, Sequence, Tuple

from .evaluation import value_of
from .exact import exact, shown
from .expressions import Condition, Expression, IntExpr, NumberExpr, SetExpr, condition_tree, number_tree, placed
from .places import Place, here
from .trees import SET, Tree
from .variables import Parameter, Variable, text

if TYPE_CHECKING:
    from .model import Model


class State:
    """Values of all variables: `state[variable]`. `State(model)` is the target state."""

    def __init__(self, model: "Model", values: Optional[Mapping[Any, Any]] = None) -> None:
        self.values: Dict[Any, Any] = dict(values) if values is not None else {v: v.target for v in model.variables}

    def __getitem__(self, variable: Variable) -> Any:
        if variable not in self.values:
            raise KeyError(f"`{variable}` is no variable of this model")
        return plain(self.values[variable])

    def __setitem__(self, variable: Variable, value: Any) -> None:
        if variable not in self.values:
            raise KeyError(f"`{variable}` is no variable of this model")
        self.values[variable] = variable.checked(value)

    def __eq__(self, other: Any) -> bool:
        return isinstance(other, State) and self.values == other.values

    def __hash__(self) -> int:
        return hash(tuple(self.values.values()))

    def __repr__(self) -> str:
        parts = (f"{v} = {sorted(value) if isinstance(value, frozenset) else plain(value)}" for v, value in self.values.items())
        return f"State({', '.join(parts)})"


def plain(value: Any) -> Any:
    """A value as it is handed to a user: a float where it is not whole."""
    return float(value) if isinstance(value, Fraction) else value


Effects = Iterable[Tuple[Variable, Any]]


class Transition:
    """A step. It may be taken where all preconditions hold; all effects are computed in the old state and take place together.

    name: any text. cost: an expression with `state_cost()` in it, which stands for what the steps behind cost: `state_cost() + n`, or `max` or
    `min` of both. effects: pairs of a variable and an expression. parameters: a transition stands for one step for each choice of them.
    """

    def __init__(self, name: str, cost: Any = None, effects: Optional[Effects] = None, preconditions: Optional[Iterable[Any]] = None,
                 parameters: Optional[Iterable[Parameter]] = None) -> None:
        self.name, self.place = text(name, "the name of a transition"), here()
        self.parameters = list(parameters or ())
        for parameter in self.parameters:
            if not isinstance(parameter, Parameter):
                raise TypeError(f"a parameter is wanted, and {shown(parameter)} is none")
        self._cost = IntExpr.state_cost() if cost is None else cost
        number_tree(self._cost)
        self.effects: List[Tuple[Variable, Tree]] = []
        self._preconditions: List[Tree] = []
        self.given: Dict[Parameter, int] = {}
        for variable, value in effects.items() if isinstance(effects, dict) else effects or ():
            self.add_effect(variable, value)
        if isinstance(preconditions, Expression):
            raise TypeError("preconditions are a list of conditions")
        for condition in preconditions or ():
            self.add_precondition(condition)

    def __repr__(self) -> str:
        return f"Transition({self.name!r})"

    @property
    def cost(self) -> Any:
        return self._cost

    @cost.setter
    def cost(self, value: Any) -> None:
        number_tree(value)
        self._cost = value

    @property
    def preconditions(self) -> List[Condition]:
        return [Condition(tree) for tree in self._preconditions]

    @property
    def precondition_trees(self) -> List[Tree]:
        return self._preconditions

    def __getitem__(self, variable: Variable) -> Any:
        """What a variable becomes; itself where there is no effect on it."""
        for known, tree in self.effects:
            if known is variable:
                return SetExpr(tree) if tree.kind == SET else NumberExpr(tree)
        return variable

    def __setitem__(self, variable: Variable, value: Any) -> None:
        self.effects = [pair for pair in self.effects if pair[0] is not variable]
        self.add_effect(variable, value)

    def add_effect(self, variable: Variable, value: Any) -> None:
        """Adds an effect. Raises ValueError where the variable has one already."""
        if not isinstance(variable, Variable):
            raise TypeError(f"an effect is on a variable, and {shown(variable)} is none")
        if any(known is variable for known, _ in self.effects):
            raise ValueError(f"`{self.name}` has two effects on `{variable}`")
        self.effects.append((variable, placed(variable.effect(value))))

    def add_precondition(self, condition: Any) -> None:
        self._preconditions.append(placed(condition_tree(condition)))

    # ---- in a state

    def _values(self, state: State) -> Dict[Any, Any]:
        return {**state.values, **self.given}

    def is_applicable(self, state: State, model: "Optional[Model]" = None) -> bool:
        """Whether the step may be taken in a state. Raises NoValue where a precondition has no value."""
        values = self._values(state)
        if any(k not in parameter.choices(values) for parameter, k in self.given.items()):
            return False
        return all(value_of(tree, values) for tree in self._preconditions)

    def apply(self, state: State, model: "Optional[Model]" = None) -> State:
        """The state after the step."""
        values, following = self._values(state), dict(state.values)
        for variable, tree in self.effects:
            following[variable] = value_of(tree, values)
        return State(model, following)  # type: ignore[arg-type]

    def eval_cost(self, cost: Any, state: State, model: "Optional[Model]" = None) -> Any:
        """The cost of a plan that begins with this step, where the steps behind it cost `cost`."""
        return plain(value_of(number_tree(self._cost), self._values(state), exact(cost)))

    def bound_to(self, numbers: Sequence[int]) -> "Transition":
        """The step for one choice of the parameters, whose name has the members behind it: `visit 3`, or `visit Berlin`."""
        step = copy.copy(self)
        step.given = dict(zip(self.parameters, numbers))
        step.name = " ".join([self.name, *(parameter.object_type.shown(k) for parameter, k in step.given.items())])
        return step

    @property
    def arguments(self) -> Tuple[int, ...]:
        """The choice of the parameters, of a step in a solution."""
        return tuple(self.given.values())


class BaseCase:
    """Conditions under which a plan ends, and what that costs."""

    def __init__(self, conditions: List[Tree], cost: Optional[Tree], place: Optional[Place]) -> None:
        self.conditions, self.cost, self.place = conditions, cost, place
