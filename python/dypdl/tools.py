"""Tools that look at a model and a plan from outside: whether the hints tell the truth, and a picture of the plan."""

from __future__ import annotations

import os
import re
import tempfile
from contextlib import contextmanager
from typing import TYPE_CHECKING, Any, Iterator, List, NamedTuple, Optional, Tuple

from .errors import ProgramError
from .names import quoted
from .program import run_tool
from .writer import Written, written

if TYPE_CHECKING:
    from .model import Model


class Honesty(NamedTuple):
    """What was found of the hints of a model.

    lies: each lie as it is told, with its state, the steps that lead there, and the plan that refutes it; `count` are how many there were.
    all_states: whether all states were tried; where they were sampled, that no lie was found says little. text: all that the tool printed.
    """

    lies: Tuple[str, ...]
    count: int
    all_states: bool
    text: str

    @property
    def found_no_lie(self) -> bool:
        return self.count == 0

    def __str__(self) -> str:
        return self.text


@contextmanager
def files_of(model: Written, folder: Optional[str] = None) -> Iterator[Tuple[str, str]]:
    """The two files of a model, in a folder of their own that goes away, or in `folder`, where they stay."""
    if folder is None:
        with tempfile.TemporaryDirectory(prefix="dypdl_") as room:
            yield put(model, room)
    else:
        os.makedirs(folder, exist_ok=True)
        yield put(model, folder)


def put(model: Written, folder: str) -> Tuple[str, str]:
    """Writes the two files, and beside them the names of members, which the tools show."""
    paths = os.path.join(folder, "domain.yaml"), os.path.join(folder, "problem.yaml")
    texts = [model.domain, model.problem]
    named = "".join(f"{model.names[of]}: [ {', '.join(map(quoted, of.members))} ]\n" for of in model.model.object_types if of.members)
    for path, text in zip([*paths, *([os.path.join(folder, "names.yaml")] if named else [])], [*texts, named]):
        with open(path, "w", encoding="utf-8", newline="\n") as file:
            file.write(text)
    return paths


def honest(model: "Model", keep_all_layers: bool = False, states: Optional[int] = None, folder: Optional[str] = None, program: Optional[str] = None) -> Honesty:
    """Looks for lies in the dual bounds and preferences of a model, by tools/honest.

    keep_all_layers: asks what `keep_all_layers=True` and `CAASDy` need, too. states: up to how many states are all tried (20000 where nothing is
    said). Costs are told in multiples of 1/scale. Raises ProgramError where the tool is not there or cannot read the model.
    """
    words: List[str] = ["--keep", "all" if keep_all_layers else "layer"]
    if states is not None:
        words += ["--states", str(int(states))]
    with files_of(written(model), folder) as files:
        printed, said, status = run_tool("honest", [*files, *words], program)
    if status not in (0, 1):
        raise ProgramError(f"tools/honest ended with status {status}: {said.strip()}", status)
    return told(printed, status)


def told(printed: str, status: int) -> Honesty:
    """What the tool printed, part by part: of a lie the lines behind the first are set in. The status is 1 where there was one."""
    parts: List[List[str]] = []
    for line in printed.rstrip("\n").split("\n"):
        if line.startswith(" ") and parts:
            parts[-1].append(line)
        else:
            parts.append([line])
    lies = tuple("\n".join(part) for part in parts if len(part) > 1)
    counted = re.match(r"(\d+) lies? (?:was|were) found", parts[-1][0])
    count = 0 if status == 0 else int(counted.group(1)) if counted else max(1, len(lies))
    return Honesty(lies if status else (), count, re.search(r"\ball \d+ inner states", parts[-1][0]) is not None, printed)


def plan(model: Written, steps: List[str], svg: Optional[str] = None, options: Any = (), program: Optional[str] = None) -> str:
    """A drawing of a plan for the terminal, by tools/plan; with `svg` a picture goes into that file. `options` are those of the tool."""
    words = [str(option) for option in options] + ([] if svg is None else ["--svg", os.path.abspath(svg)])
    with files_of(model) as files:
        path = os.path.join(os.path.dirname(files[0]), "plan.txt")
        with open(path, "w", encoding="utf-8", newline="\n") as file:
            file.writelines(f"{step}\n" for step in steps)
        printed, said, status = run_tool("plan", [*files, path, *words], program)
    if status:
        raise ProgramError(f"tools/plan ended with status {status}: {said.strip()}", status)
    return printed
