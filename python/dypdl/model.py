"""Models as DIDPPy builds them: object types, variables, tables, transitions, base cases, constraints and dual bounds.

A model is written as YAML-DyPDL by `texts()`, and solved by the classes of `solvers`.
"""

from __future__ import annotations

import copy
from typing import Any, Iterable, List, Optional, Sequence, Tuple

from .errors import LeftOut
from .evaluation import value_of
from .exact import exact, shown, whole
from .expressions import (
    Condition, ElementExpr, Expression, FloatExpr, IntExpr, NumberExpr, SetConst, SetExpr, condition_tree, number_tree, placed, set_tree, whole_tree,
)
from .places import assigned_name, here
from .tables import BoolTable, ElementTable, FloatTable, IntTable, SetTable, Table
from .transitions import BaseCase, State, Transition, plain
from .trees import Tree
from .variables import (
    ElementResourceVar, ElementVar, FloatResourceVar, FloatVar, IntResourceVar, IntVar, ObjectType, SetVar, StateFunction, member_names, text,
)

MOST_SCALE = 10**12


class Model:
    """A model: what a state is, which steps there are, where plans begin and end, and hints.

    maximize: whether the greatest cost is wanted. float_cost: whether costs are exact numbers that need not be whole; then `scale` says of what they
    are multiples: with `scale=100` of hundredths. What is no multiple of 1/scale is refused where it is to be stored. Nothing is rounded, but dual
    bounds, to the side on which they stay true.
    """

    def __init__(self, maximize: bool = False, float_cost: bool = False, scale: Optional[int] = None, name: str = "model") -> None:
        if float_cost and scale is None:
            raise LeftOut("costs that are not whole need a scale: Model(float_cost=True, scale=100) counts them in hundredths", here())
        self.scale = 1 if scale is None else whole(scale, "the scale")
        if not 1 <= self.scale <= MOST_SCALE:
            raise ValueError(f"the scale is a number from 1 to {MOST_SCALE}, and not {shown(scale)}")
        self.has_scale = scale is not None
        self.maximize, self.float_cost, self.name = bool(maximize), bool(float_cost), text(name, "the name of a model")
        self.problem_name = "one"
        self.object_types: List[ObjectType] = []
        self.variables: List[Any] = []
        self.tables: List[Table] = []
        self.functions: List[StateFunction] = []
        self.steps: List[Tuple[Transition, bool]] = []
        self.base_cases: List[BaseCase] = []
        self.constraints: List[Tree] = []
        self.bounds: List[Tree] = []

    def _name(self, name: Optional[str], stem: str, others: Sequence[Any]) -> str:
        return text(name, "a name") if name is not None else assigned_name() or f"{stem}{len(others)}"

    # ---- object types and variables

    def add_object_type(self, number: Optional[int] = None, name: Optional[str] = None, members: Sequence[str] = ()) -> ObjectType:
        """An object type with so many members. They may have names, `members=["depot", "Berlin"]`; then their number need not be said."""
        names = member_names(members)
        count = len(names) if number is None and names else whole(number, "the number of members")
        if count < 0 or count < len(names):
            raise ValueError(f"an object type has 0 members or more, and as many as there are names, and not {count}")
        self.object_types.append(ObjectType(self._name(name, "objects", self.object_types), count, here(), names))
        return self.object_types[-1]

    def get_number_of_object(self, object_type: ObjectType) -> int:
        return self._own(object_type, self.object_types).number

    def set_number_of_object(self, object_type: ObjectType, number: int) -> None:
        count = whole(number, "the number of members")
        if count < 0:
            raise ValueError(f"an object type has 0 members or more, and not {count}")
        self._own(object_type, self.object_types).number = count

    def _own(self, thing: Any, things: Sequence[Any]) -> Any:
        if not any(thing is known for known in things):
            raise ValueError(f"{shown(thing)} is none of this model")
        return thing

    def _variable(self, kind: Any, stem: str, name: Optional[str], *given: Any) -> Any:
        variable = kind(self._name(name, stem, self.variables), *given)
        self.variables.append(variable)
        return variable

    def add_element_var(self, object_type: ObjectType, target: int, name: Optional[str] = None) -> ElementVar:
        return self._variable(ElementVar, "element", name, target, self._own(object_type, self.object_types))

    def add_element_resource_var(self, object_type: ObjectType, target: int, less_is_better: bool = False, name: Optional[str] = None) -> ElementResourceVar:
        return self._variable(ElementResourceVar, "element", name, target, self._own(object_type, self.object_types), bool(less_is_better))

    def add_set_var(self, object_type: ObjectType, target: Any, name: Optional[str] = None) -> SetVar:
        return self._variable(SetVar, "set", name, target, self._own(object_type, self.object_types))

    def add_int_var(self, target: int, name: Optional[str] = None) -> IntVar:
        return self._variable(IntVar, "integer", name, target)

    def add_int_resource_var(self, target: int, less_is_better: bool = False, name: Optional[str] = None) -> IntResourceVar:
        return self._variable(IntResourceVar, "integer", name, target, None, bool(less_is_better))

    def _need_scale(self) -> None:
        if not self.has_scale:
            raise LeftOut("numbers that are not whole need a scale: Model(scale=100) counts them in hundredths", here())

    def add_float_var(self, target: Any, name: Optional[str] = None) -> FloatVar:
        self._need_scale()
        return self._variable(FloatVar, "number", name, target)

    def add_float_resource_var(self, target: Any, less_is_better: bool = False, name: Optional[str] = None) -> FloatResourceVar:
        self._need_scale()
        return self._variable(FloatResourceVar, "number", name, target, None, bool(less_is_better))

    def set_target(self, variable: Any, target: Any) -> None:
        known = self._own(variable, self.variables)
        known.target = known.checked(target)

    def get_target(self, variable: Any) -> Any:
        return plain(self._own(variable, self.variables).target)

    def get_var(self, name: str) -> Any:
        """The variable of that name. Raises KeyError where there is none."""
        return self._named(name, self.variables)

    def get_object_type(self, name: str) -> ObjectType:
        """The object type of that name. Raises KeyError where there is none."""
        return self._named(name, self.object_types)

    def _named(self, name: str, things: Sequence[Any]) -> Any:
        for thing in things:
            if thing.name == name:
                return thing
        raise KeyError(f"nothing of this model is called {shown(name)}")

    # ---- tables

    def _table(self, kind: Any, cells: Any, default: Any, name: Optional[str], **more: Any) -> Any:
        table = kind(cells, default, self._name(name, "table", self.tables), **more)
        self.tables.append(table)
        return table

    def add_int_table(self, table: Any, default: int = 0, name: Optional[str] = None) -> IntTable:
        return self._table(IntTable, table, 0 if default is None else default, name)

    def add_float_table(self, table: Any, default: Any = 0, name: Optional[str] = None) -> FloatTable:
        self._need_scale()
        return self._table(FloatTable, table, 0 if default is None else default, name)

    def add_element_table(self, table: Any, default: int = 0, name: Optional[str] = None) -> ElementTable:
        return self._table(ElementTable, table, 0 if default is None else default, name)

    def add_bool_table(self, table: Any, default: bool = False, name: Optional[str] = None) -> BoolTable:
        return self._table(BoolTable, table, bool(default), name)

    def add_set_table(self, table: Any, object_type: Optional[ObjectType] = None, default: Any = (), name: Optional[str] = None) -> SetTable:
        """A table of sets. The object type may be left out where a cell is a SetConst."""
        of = object_type if object_type is not None else type_of_sets(table)
        if of is None:
            raise TypeError("of which object type the sets of the table are is not said: object_type=")
        return self._table(SetTable, table, () if default is None else default, name, of=self._own(of, self.object_types))

    def create_set_const(self, object_type: ObjectType, value: Iterable[int]) -> SetConst:
        """A set that is the same in each state."""
        return SetConst(value, self._own(object_type, self.object_types))

    # ---- state functions

    def _function(self, kind: Any, tree: Tree, name: Optional[str]) -> Any:
        function = StateFunction(self._name(name, "function", self.functions), tree, here())
        self.functions.append(function)
        return kind(Tree("function", (function,), tree.kind, tree.of, here()))

    def add_int_state_fun(self, expr: Any, name: Optional[str] = None) -> IntExpr:
        """A name for an expression. It is written out where it is used, or as a table where it is one of few elements."""
        return self._function(IntExpr, whole_tree(expr), name)

    def add_element_state_fun(self, expr: Any, name: Optional[str] = None) -> ElementExpr:
        return self._function(ElementExpr, whole_tree(expr), name)

    def add_float_state_fun(self, expr: Any, name: Optional[str] = None) -> FloatExpr:
        return self._function(FloatExpr, number_tree(expr), name)

    def add_bool_state_fun(self, expr: Any, name: Optional[str] = None) -> Condition:
        return self._function(Condition, condition_tree(expr), name)

    def add_set_state_fun(self, expr: Any, name: Optional[str] = None) -> SetExpr:
        return self._function(SetExpr, set_tree(expr, None), name)

    # ---- steps, ends, constraints, hints

    def add_transition(self, transition: Transition, forced: bool = False, backward: bool = False) -> int:
        """Adds a step, and gives its number. Of the forced steps the first that may be taken is the only one. The transition is copied."""
        if not isinstance(transition, Transition):
            raise TypeError(f"a Transition is wanted, and {shown(transition)} is none")
        if backward:
            raise LeftOut("steps from the end (backward=True) are left out: the solver searches from the target on", here())
        step = copy.copy(transition)
        step.effects, step._preconditions = list(transition.effects), list(transition.precondition_trees)
        self.steps.append((step, bool(forced)))
        return len(self.steps) - 1

    @property
    def transitions(self) -> List[Transition]:
        return [step for step, _ in self.steps]

    def get_transition(self, number: int) -> Transition:
        return self.steps[number][0]

    def add_base_case(self, conditions: Iterable[Any], cost: Any = None) -> None:
        """Where all conditions hold a plan ends; what is still to be paid there is `cost`, 0 where nothing is said."""
        if isinstance(conditions, Expression):
            raise TypeError("a base case is a list of conditions")
        self.base_cases.append(BaseCase([placed(condition_tree(c)) for c in conditions], None if cost is None else placed(number_tree(cost)), here()))

    def add_base_state(self, state: State, cost: Any = None) -> None:
        """A plan ends in this state."""
        conditions = [v == (SetConst(state.values[v], v.object_type) if v.kind == "set" else FloatExpr(number_tree(state.values[v]))) for v in self.variables]
        self.add_base_case(conditions, cost)

    def add_state_constr(self, condition: Any) -> None:
        """A condition that each state of a plan meets."""
        self.constraints.append(placed(condition_tree(condition)))

    def add_dual_bound(self, bound: Any) -> None:
        """A hint: no plan from a state on is better than this. The solver believes it; `honest()` looks for lies."""
        self.bounds.append(placed(number_tree(bound)))

    @property
    def state_constrs(self) -> List[Condition]:
        return [Condition(tree) for tree in self.constraints]

    @property
    def dual_bounds(self) -> List[NumberExpr]:
        return [NumberExpr(tree) for tree in self.bounds]

    # ---- in a state

    @property
    def target_state(self) -> State:
        return State(self)

    def check_constraints(self, state: State) -> bool:
        return all(value_of(tree, state.values) for tree in self.constraints)

    def is_base(self, state: State) -> bool:
        return any(all(value_of(c, state.values) for c in base.conditions) for base in self.base_cases)

    def eval_base_cost(self, state: State) -> Any:
        """What is still to be paid in a base state; None where it is none."""
        found = [0 if base.cost is None else value_of(base.cost, state.values) for base in self.base_cases
                 if all(value_of(c, state.values) for c in base.conditions)]
        return None if not found else plain(max(found) if self.maximize else min(found))

    def eval_dual_bound(self, state: State) -> Any:
        """The tightest dual bound in a state; None where there is none."""
        found = [value_of(tree, state.values) for tree in self.bounds]
        return None if not found else plain(min(found) if self.maximize else max(found))

    def validate_forward(self, transitions: Sequence[Transition], cost: Any, quiet: bool = True) -> bool:
        """Whether steps are a plan of that cost, worked out in Python, by the model as it was written here."""
        why = self._invalid(transitions, cost)
        if why and not quiet:
            print(why)
        return why is None

    def _invalid(self, transitions: Sequence[Transition], cost: Any) -> Optional[str]:
        states = [self.target_state]
        for number, step in enumerate(transitions):
            if not self.check_constraints(states[-1]):
                return f"a constraint is false after {number} steps"
            if self.is_base(states[-1]):
                return f"a base case holds after {number} steps, and there are more"
            if not step.is_applicable(states[-1], self):
                return f"`{step.name}` cannot be taken after {number} steps"
            states.append(step.apply(states[-1], self))
        found = self.eval_base_cost(states[-1])
        if found is None or not self.check_constraints(states[-1]):
            return "the last state is no base state, or a constraint is false in it"
        for step, state in zip(reversed(transitions), reversed(states[:-1])):
            found = step.eval_cost(found, state, self)
        return None if exact(found) == exact(cost) else f"it costs {found}, and not {cost}"

    # ---- texts and tools

    def texts(self) -> Tuple[str, str]:
        """The domain and the problem in YAML-DyPDL, as the program reads them. Raises ModelError where something cannot be said."""
        from .writer import written

        model = written(self)
        return model.domain, model.problem

    def honest(self, **options: Any) -> Any:
        """Looks for lies in the dual bounds and preferences; see tools.honest."""
        from .tools import honest

        return honest(self, **options)


def type_of_sets(cells: Any) -> Optional[ObjectType]:
    """The object type of the first SetConst among the cells of a table."""
    if isinstance(cells, SetConst):
        return cells.tree.of
    inner = cells.values() if isinstance(cells, dict) else cells if isinstance(cells, (list, tuple)) else ()
    return next((found for found in map(type_of_sets, inner) if found is not None), None)
