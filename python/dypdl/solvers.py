"""Solvers as DIDPPy names them. `CABS` is the program's beam search, `CAASDy` its best-first search; all others are searched by one of these."""

from __future__ import annotations

import copy
import sys
import threading
import time
import warnings
from typing import Any, Dict, Iterator, List, Optional, Tuple

from .errors import Fault, LeftOut, NoValue, ProgramError, Refused
from .evaluation import value_of
from .exact import exact, shown, whole
from .model import Model
from .places import PACKAGE
from .program import OTHER_ENDS, TOP, Bound, Ended, Event, Found, HintTold, Refusal, Run, Verdict, Visited, find_program
from .solution import Solution, rests_on
from .tools import files_of
from .writer import Written, written

MOST_BUDGET = 2**40
MOST_THREADS = 64
LIMITS = {  # the numbers of refusals that a model comes to by its size, as docs/REFUSALS.md has them
    "24": "an expression has more than 200 forms in one another",
    "35": "the transitions make more than 65,536 steps, one for each choice of their parameters",
    "49": "a list, an object type (4,096 members) or all tables together are above their limit (docs/LANGUAGE.md, Limits)",
}
FIRST_BUDGET, GROWTH = 256, 8  # of the runs that tell the pace
PART_FOR_PACE, PART_OF_TIME = 0.1, 0.8  # of the time: for those runs, and of what is left then for the last one


class FOperator:
    """How DIDPPy joins a cost so far and a bound. The solver takes the operator of the model's own costs."""

    Plus, Max, Min, Overwrite = "+", "max", "min", "overwrite"


class BeamParallelizationMethod:
    """Ways of DIDPPy to share a beam among threads. The solver has one of its own."""

    Hdbs2, Hdbs1, Sbs = "hdbs2", "hdbs1", "sbs"


class Solver:
    """A search of one model. `search()` gives the best solution; `search_next()` each better one in its turn.

    time_limit: seconds, after which the best plan so far stands. threads: 1 to 64. quiet: whether better costs are not printed as they are found.
    prune: `"on"` believes dual bounds and preferences, `"proved"` uses those alone that the program proves, `"off"` uses none. certificate: whether a
    search that comes to its end writes why no plan is better. budget: how many visits it may make. folder: where the two files of the model stay.
    program: its path, where it is not to be looked for.
    """

    engine = "beam"

    def __init__(self, model: Model, f_operator: Any = FOperator.Plus, primal_bound: Any = None, time_limit: Optional[float] = None, quiet: bool = False,
                 threads: int = 1, keep_all_layers: bool = False, prune: Any = "on", certificate: bool = False, budget: Optional[int] = None,
                 folder: Optional[str] = None, program: Optional[str] = None) -> None:
        if not isinstance(model, Model):
            raise TypeError(f"a Model is wanted, and {shown(model)} is none")
        self.model, self.quiet, self.folder, self.keep_all_layers, self.wants_certificate = model, quiet, folder, keep_all_layers, certificate
        self.prune = {True: "on", False: "off"}.get(prune, prune) if isinstance(prune, bool) else prune
        if self.prune not in ("on", "off", "proved"):
            raise ValueError(f"prune is 'on', 'off' or 'proved', and not {shown(prune)}")
        self.threads, self.budget = whole(threads, "the number of threads"), whole(MOST_BUDGET if budget is None else budget, "the budget")
        if not 1 <= self.budget <= MOST_BUDGET:
            raise ValueError(f"a budget is a number of visits from 1 to 2^40, and not {shown(budget)}")
        if self.threads < 1:
            raise ValueError(f"there is one thread or more, and not {self.threads}")
        if self.threads > MOST_THREADS:
            warn(f"the solver has at most {MOST_THREADS} workers, and takes them in place of {self.threads} threads")
        self.time_limit = None if time_limit is None else float(exact(time_limit, "a time limit"))
        if self.time_limit is not None and self.time_limit <= 0:
            raise ValueError(f"a time limit is above 0 seconds, and not {time_limit}")
        if primal_bound is not None:
            warn("the solver takes no primal_bound, and searches without it")
        if f_operator == FOperator.Overwrite:
            warn("the solver joins a cost so far and a bound by the operator of the model's costs, and not by FOperator.Overwrite")
        self.program = find_program(program)
        self.told: Dict[str, bool] = {}
        self._searching: Optional[Iterator[Solution]] = None
        self._last: Optional[Solution] = None

    # ---- the two ways to search

    def search(self) -> Solution:
        """The best solution that is found. Raises ModelError where the model cannot be said, Fault where it has no value, ProgramError."""
        ended = False
        while not ended:
            solution, ended = self.search_next()
        return solution

    def search_next(self) -> Tuple[Solution, bool]:
        """The next better solution, and whether the search is over; then it is the last one, with all that is known of it."""
        if self._searching is None:
            self._searching = self._search()
        found = next(self._searching, None)
        if found is not None:
            self._last = found
            return found, False
        assert self._last is not None
        return self._last, True

    def _search(self) -> Iterator[Solution]:
        model = written(self.model)
        now = Solution(model)
        with files_of(model, self.folder) as files:
            self._build(files)
            began = time.monotonic()
            for budget, limit in self._runs(began, now):
                yield from self._run(model, files, now, began, budget, limit)
                if not self._is_open(now):
                    break
                now.time_out = now.time_out or budget < self.budget
        now.time = time.monotonic() - began
        now.rests_on = rests_on(model, self.prune, self.told)
        self._last = now

    def _is_open(self, now: Solution) -> bool:
        return not now.is_optimal and not now.is_infeasible

    def _build(self, files: Tuple[str, str]) -> None:
        """Among the sources the first call may have to build the program: that is no time of the search."""
        if self.time_limit is not None and self.program == f"{TOP}/dypdl":
            run = Run(self.program, ["show", *files])
            try:
                for _ in run.lines():
                    pass
            finally:
                run.close()

    def _runs(self, began: float, now: Solution) -> Iterator[Tuple[int, Optional[float]]]:
        """The budgets of the runs, and the time at which each is stopped.

        Where a bound can be told, a search ends by its budget, since it tells one then. Short runs, each longer than the one before, tell the pace.
        """
        if self.time_limit is None:
            yield self.budget, None
            return
        end = began + self.time_limit
        if not self._tells_bound():
            yield self.budget, end
            return
        budget = min(FIRST_BUDGET, self.budget)
        while True:
            start, before = time.monotonic(), now.expanded
            yield budget, end
            took, left = time.monotonic() - start, end - time.monotonic()
            fits = int(PART_OF_TIME * left * (now.expanded - before) / max(took, 0.001))
            if budget == self.budget or fits <= 2 * budget:
                return
            is_last = self.time_limit - left > PART_FOR_PACE * self.time_limit
            budget = min(self.budget, fits if is_last else min(fits, GROWTH * budget))

    def _tells_bound(self) -> bool:
        return self.engine == "beam" and self.prune != "off" and bool(self.model.bounds)

    def _words(self, budget: int) -> List[str]:
        words = ["--engine", self.engine, "--budget", str(budget), "--workers", str(min(self.threads, MOST_THREADS)), "--prune", self.prune]
        if self.engine == "beam" and self.keep_all_layers:
            words += ["--keep", "all"]
        if self._tells_bound():
            words += ["--gap", "on"]
        return words + (["--certificate", "on"] if self.wants_certificate else [])

    def _run(self, model: Written, files: Tuple[str, str], now: Solution, began: float, budget: int, limit: Optional[float]) -> Iterator[Solution]:
        """One run of the program. It changes `now`, and yields a copy of it for each better solution."""
        run, timer = Run(self.program, ["solve", *files, *self._words(budget)]), None
        if limit is not None:
            def stop() -> None:
                now.time_out = True
                run.stop()

            timer = threading.Timer(max(0.0, limit - time.monotonic()), stop)
            timer.daemon = True
            timer.start()
        try:
            for event in run.events():
                now.time = time.monotonic() - began
                if self._take(model, now, event, run):
                    yield copy.copy(now)
        finally:
            if timer is not None:
                timer.cancel()
            run.close()

    def _take(self, model: Written, now: Solution, event: Event, run: Run) -> bool:
        """Takes in what a line says, and tells whether it is a better solution."""
        if isinstance(event, Found):
            return self._found(model, now, event)
        if isinstance(event, Visited):
            now.expanded += event.count
        elif isinstance(event, HintTold):
            self.told[event.hint] = event.proved
        elif isinstance(event, Bound):
            now._bound = event.cost
        elif isinstance(event, Verdict):
            self._ended(model, now, event, run)
        elif isinstance(event, Refusal):
            raise refused(model, event, run)
        elif isinstance(event, Ended):
            raise ProgramError(f"`{event.line[:60]}`: {next(why for word, why in OTHER_ENDS.items() if event.line.startswith(word))}", run.wait())
        return False

    def _found(self, model: Written, now: Solution, event: Found) -> bool:
        if now._cost is not None and not (event.cost > now._cost if self.model.maximize else event.cost < now._cost):
            return False
        try:
            now.transitions = [model.step(name) for name in event.steps]
        except KeyError as error:
            raise ProgramError(f"the program names a step that the model does not have: {error}") from None
        now._cost, now.names = event.cost, list(event.steps)
        now.rests_on = rests_on(model, self.prune, self.told)
        if not self.quiet:
            print(f"New primal bound: {now.cost}, expanded: {now.expanded}, elapsed time: {now.time:.2f}", flush=True)
        return True

    def _ended(self, model: Written, now: Solution, verdict: Verdict, run: Run) -> None:
        if verdict.kind == "optimal":
            now.is_optimal, now._bound = True, now._cost
        elif verdict.kind == "infeasible":
            now.is_infeasible = True
        elif verdict.kind == "fault":
            raise fault(model, verdict)
        if self.wants_certificate and verdict.kind in ("optimal", "infeasible"):
            now.certificate = run.rest


class CABS(Solver):
    """The beam search: passes over the lengths of plans, each twice as wide as the one before. Better plans are found early."""

    def __init__(self, model: Model, f_operator: Any = FOperator.Plus, initial_beam_size: int = 1, max_beam_size: Optional[int] = None,
                 keep_all_layers: bool = False, primal_bound: Any = None, time_limit: Optional[float] = None, quiet: bool = False, threads: int = 1,
                 parallelization_method: Any = BeamParallelizationMethod.Hdbs2, **more: Any) -> None:
        if initial_beam_size != 1:
            warn("the first pass has a share of 1, whatever initial_beam_size is")
        if max_beam_size is not None:
            warn("passes get wider until nothing is dropped, whatever max_beam_size is")
        super().__init__(model, f_operator, primal_bound, time_limit, quiet, threads, keep_all_layers, **more)


class CAASDy(Solver):
    """The best-first search: one plan, the best, at the end. It needs memory for all states that it looks at."""

    engine = "best"

    def __init__(self, model: Model, f_operator: Any = FOperator.Plus, primal_bound: Any = None, time_limit: Optional[float] = None, quiet: bool = False,
                 initial_registry_capacity: int = 1000000, threads: int = 1, **more: Any) -> None:
        super().__init__(model, f_operator, primal_bound, time_limit, quiet, threads, **more)


OWN = ("f_operator", "primal_bound", "time_limit", "quiet", "threads", "keep_all_layers", "prune", "certificate", "budget", "folder", "program")


class StandIn(Solver):
    """A solver of DIDPPy that the program does not have: the nearest that it has searches in its place, and finds the same best cost."""

    def __init__(self, model: Model, f_operator: Any = FOperator.Plus, **given: Any) -> None:
        warn(f"{type(self).__name__} is searched by {'CAASDy' if self.engine == 'best' else 'CABS'}, the nearest that the solver has")
        super().__init__(model, f_operator, **{key: value for key, value in given.items() if key in OWN})


class LNBS(StandIn):
    """Searched by the beam search."""


class DDLNS(StandIn):
    """Searched by the beam search."""


class DFBB(StandIn):
    """Searched by the beam search."""


class CBFS(StandIn):
    """Searched by the beam search."""


class ACPS(StandIn):
    """Searched by the beam search."""


class APPS(StandIn):
    """Searched by the beam search."""


class DBDFS(StandIn):
    """Searched by the beam search."""


class BreadthFirstSearch(StandIn):
    """Searched by the beam search."""


class ExpressionBeamSearch(StandIn):
    """Searched by the beam search."""


class WeightedAstar(StandIn):
    """Searched by the best-first search."""

    engine = "best"


class ForwardRecursion(StandIn):
    """Searched by the best-first search."""

    engine = "best"


def warn(what: str) -> None:
    """A warning at the line that called into this package."""
    frame, level = sys._getframe(1), 2
    while frame.f_back is not None and frame.f_code.co_filename.startswith(PACKAGE):
        frame, level = frame.f_back, level + 1
    warnings.warn(what, stacklevel=level)


# ---- refusals and faults, at the Python line that they come from

def refused(model: Written, event: Refusal, run: Run) -> Refused:
    owner = model.owner(event.file, event.row)
    run.listener.join(1)
    number = event.line.split(" ")[-2]
    told = next((line.split(": ", 1)[-1] for line in run.said if line.startswith(f"{number} ")), None)
    why = LIMITS.get(number) or told or "this package has written what the program does not read"
    text = model.line(event.file, event.row)
    return Refused(event.line, f"{why}; it stands in `{text[:100]}{'..' if len(text) > 100 else ''}`", getattr(owner, "place", None))


def fault(model: Written, verdict: Verdict) -> Fault:
    """The error of a fault: the part of the model that has no value, and in words why, where Python comes to the same."""
    tree = model.spot(verdict.spot)
    why, place = "an expression has no value there", getattr(tree, "place", None)
    try:
        values, given = walked(model, verdict.steps), verdict.spot.rsplit(" precondition ", 1)[0]
        for step in ([model.step(cut) for cut in (given, verdict.spot.rsplit(" ", 1)[0], verdict.spot.split(" effect ")[0]) if knows(model, cut)])[:1]:
            values.update(step.given)
        value_of(tree, values, 0)
    except NoValue as error:
        why, place = error.why, error.place or place
    except (KeyError, LeftOut, AttributeError):
        pass
    return Fault(verdict.fault, verdict.spot, verdict.steps, why, place)


def knows(model: Written, text: str) -> bool:
    try:
        model.step(text)
    except KeyError:
        return False
    return True


def walked(model: Written, steps: List[str]) -> Dict[Any, Any]:
    """The values of variables after some steps."""
    state = model.model.target_state
    for name in steps:
        state = model.step(name).apply(state, model.model)
    return dict(state.values)
