"""What a search found: a plan, how good it is, and what that rests on."""

from __future__ import annotations

from fractions import Fraction
from typing import Any, Dict, List, NamedTuple, Optional, Sequence, Tuple

from .tools import plan
from .transitions import Transition
from .writer import Written


class RestsOn(NamedTuple):
    """The hints that `is_optimal`, `is_infeasible` and `best_bound` rest on, each in words with its place.

    proved: the program proved them of this model. believed: they were taken on trust; if one is a lie the answer may be wrong. unused: the program
    could not prove them, and left them out. That the cost is that of the plan rests on none of them.
    """

    proved: Tuple[str, ...] = ()
    believed: Tuple[str, ...] = ()
    unused: Tuple[str, ...] = ()

    @property
    def is_proved(self) -> bool:
        """Whether no hint was taken on trust."""
        return not self.believed

    def __str__(self) -> str:
        if not any(self):
            return "no hint"
        if not self.believed:
            return "proved" + (f" (left out: {', '.join(self.unused)})" if self.unused else "")
        return "believed: " + ", ".join(self.believed)


class Solution:
    """The best plan so far, and what is known of all plans.

    cost: of the plan, None where there is none yet. best_bound: no plan is better than this, None where nothing is known. is_optimal: whether no plan
    is better. is_infeasible: whether there is none. transitions: the steps. expanded: how many nodes were looked at. time: seconds since the
    search began. time_out: whether the time limit ended it. certificate: the text that shows why no plan is better, where the solver was asked for
    one (`certificate=True`) and the search came to its end.
    """

    def __init__(self, written: Written) -> None:
        self._written = written
        self._cost: Optional[int] = None
        self._bound: Optional[int] = None
        self.is_optimal = self.is_infeasible = self.time_out = False
        self.transitions: List[Transition] = []
        self.names: List[str] = []
        self.expanded = 0
        self.generated: Optional[int] = None  # the program does not tell it
        self.time = 0.0
        self.certificate: Optional[str] = None
        self.rests_on = RestsOn()

    @property
    def exact_cost(self) -> Optional[Fraction]:
        """The cost as an exact number."""
        return None if self._cost is None else Fraction(self._cost, self._unit)

    @property
    def cost(self) -> Any:
        """The cost: a whole number, or with `float_cost` the float that is nearest to the exact cost."""
        return self._shown(self._cost)

    @property
    def best_bound(self) -> Any:
        return self._shown(self._bound)

    @property
    def _unit(self) -> int:
        return self._written.model.scale if self._written.model.float_cost else 1

    def _shown(self, held: Optional[int]) -> Any:
        if held is None or not self._written.model.float_cost:
            return held
        return held / self._unit

    def __repr__(self) -> str:
        return (f"Solution(cost={self.cost}, steps={len(self.transitions)}, is_optimal={self.is_optimal}, is_infeasible={self.is_infeasible}, "
                f"best_bound={self.best_bound}, time={self.time:.2f})")

    def plan(self, svg: Optional[str] = None, options: Sequence[Any] = (), program: Optional[str] = None) -> str:
        """The plan as a drawing for the terminal, by tools/plan; `svg` names a file for a picture. Raises ValueError where there is no plan."""
        if self._cost is None:
            raise ValueError("there is no plan to draw")
        return plan(self._written, self.names, svg, options, program)


def rests_on(written: Written, prune: str, told: Dict[str, bool]) -> RestsOn:
    """What an answer rests on. `told` says of each hint whether the program proved it."""
    if prune == "off":
        return RestsOn()
    hints = hints_of(written)
    if prune == "on":
        return RestsOn(believed=tuple(hints.values()))
    proved = tuple(words for hint, words in hints.items() if told.get(hint))
    return RestsOn(proved=proved, unused=tuple(words for hint, words in hints.items() if not told.get(hint)))


def hints_of(written: Written) -> Dict[str, str]:
    """Each hint of a model as the program names it, and in words with its place."""
    model = written.model
    found = {f"bound {k}": f"dual bound {k} ({tree.place})" for k, tree in enumerate(model.bounds, 1)}
    for variable in model.variables:
        if variable.less_is_better is not None:
            name = written.names[variable]
            found[f"preference {name}"] = f"preference of {'less' if variable.less_is_better else 'greater'} `{name}` ({variable.place})"
    return found
