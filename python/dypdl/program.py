"""The program: where it is, how it is run, and what its lines say.

The output is read by count: a line `solution C N` owns the N lines behind it, and a fault its steps, so that a step whose text looks like another
line misleads nobody.
"""

from __future__ import annotations

import os
import re
import shutil
import signal
import subprocess
import sys
import threading
from typing import Any, Iterator, List, NamedTuple, Optional, Sequence, Set, Union

from .errors import ProgramError
from .places import PACKAGE

TOP = os.path.dirname(os.path.dirname(PACKAGE))  # the repository, or share/dypdl of an installed folder
STATUSES = {"optimal": 0, "infeasible": 10, "stopped": 11, "fault": 12}
OTHER_ENDS = {
    "memory": "memory ran out",
    "read fault": "a file of the model cannot be read",
    "too long": "a text of the model is too long",
    "usage": "it does not know an option that it was given; is it older than this package?",
}
_told: Set[str] = set()  # what the wrapper said on standard error, which is handed on once


def find_program(given: Optional[str] = None) -> str:
    """The path of the program: `given`, or DYPDL_SOLVE, or `dypdl` beside this package, or on the path.

    Raises ProgramError where there is none that can be run.
    """
    wished = given or os.environ.get("DYPDL_SOLVE")
    if wished:
        found = shutil.which(wished)
        if found is None:
            raise ProgramError(f"{wished} is no program that can be run" + ("" if given else " (DYPDL_SOLVE names it)"))
        return os.path.abspath(found)
    beside = [os.path.join(TOP, "dypdl"), os.path.join(TOP, "..", "..", "bin", "dypdl")]
    for path in [*beside, shutil.which("dypdl"), shutil.which("dypdl_solve")]:
        if path and os.path.isfile(path) and os.access(path, os.X_OK):
            return os.path.abspath(path)
    raise ProgramError("there is no program: DYPDL_SOLVE does not name one, and none stands beside this package or on the path")


def find_tool(name: str, program: Optional[str] = None) -> str:
    """The path of a tool, which stands beside this package or beside the program."""
    near = [TOP]
    if program or os.environ.get("DYPDL_SOLVE") or not os.path.isdir(os.path.join(TOP, "tools")):
        try:
            folder = os.path.dirname(os.path.realpath(find_program(program)))
            near += [folder, os.path.join(folder, "..", "share", "dypdl")]
        except ProgramError:
            pass
    for folder in near:
        path = os.path.join(folder, "tools", name)
        if os.path.isfile(path):
            return os.path.abspath(path)
    raise ProgramError(f"the tool {name} stands neither beside this package nor beside the program")


# ---- what the lines say

class Found(NamedTuple):
    """A better solution."""

    cost: int
    steps: List[str]


class Visited(NamedTuple):
    """Nodes that a pass, or the whole search, looked at."""

    count: int


class HintTold(NamedTuple):
    """Of a dual bound (`bound 2`) or a preference (`preference time`), whether the program proved it."""

    hint: str
    proved: bool


class Bound(NamedTuple):
    """No plan is better than this."""

    cost: int


class Verdict(NamedTuple):
    """How the search ended: `optimal`, `infeasible`, `stopped` or `fault`; with the kind, the spot and the steps of a fault."""

    kind: str
    fault: str
    spot: str
    steps: List[str]


class Refusal(NamedTuple):
    """The text of the model was refused."""

    line: str
    file: str
    row: int
    offset: Optional[int]


class Ended(NamedTuple):
    """Another end, in the program's own line."""

    line: str


Event = Union[Found, Visited, HintTold, Bound, Verdict, Refusal, Ended]

FORMS = [
    (re.compile(r"pass \d+ share \d+ visited (\d+) dropped \d+"), lambda m: Visited(int(m[1]))),
    (re.compile(r"search visited (\d+)"), lambda m: Visited(int(m[1]))),
    (re.compile(r"(bound \d+|preference \S+) (proved|open)"), lambda m: HintTold(m[1], m[2] == "proved")),
    (re.compile(r"bound (-?\d+)"), lambda m: Bound(int(m[1]))),
    (re.compile(r"verdict (optimal -?\d+|infeasible|stopped \d+)"), lambda m: Verdict(m[1].split(" ")[0], "", "", [])),
    (re.compile(r"refused (domain|problem):(\d+):\d+(?:\+(\d+))? \d+ \w+"), lambda m: Refusal(m[0], m[1], int(m[2]), int(m[3]) if m[3] else None)),
    (re.compile(r"memory|read fault \w+|too long \w+|usage: .*"), lambda m: Ended(m[0])),
]
SOLUTION = re.compile(r"solution (-?\d+) (\d+)")
FAULT = re.compile(r"verdict fault (\w+) at (.*) after (\d+)")
PASSED_OVER = re.compile(r"announced? -?\d+.*")


def events(lines: Iterator[str]) -> Iterator[Event]:
    """What the lines of a run say, each as soon as it is whole. Raises ProgramError at a line that is none, or where one is missing."""
    for line in lines:
        found = SOLUTION.fullmatch(line)
        if found:
            yield Found(int(found[1]), owned(lines, int(found[2])))
            continue
        found = FAULT.fullmatch(line)
        if found:
            yield Verdict("fault", found[1], found[2], owned(lines, int(found[3])))
            continue
        if PASSED_OVER.fullmatch(line):
            continue
        for wanted, make in FORMS:
            found = wanted.fullmatch(line)
            if found:
                yield make(found)  # type: ignore[misc]
                break
        else:
            raise ProgramError(f"the program printed a line that is none of its own: {line[:200]!r}")


def owned(lines: Iterator[str], count: int) -> List[str]:
    """The lines that stand behind one that says how many they are."""
    found = []
    for _ in range(count):
        line = next(lines, None)
        if line is None:
            raise ProgramError("the output of the program was cut: a list of steps ends early")
        found.append(line)
    return found


class Run:
    """A run of the program. `events` are what it says; once they have ended, `rest` is what stands behind the verdict."""

    def __init__(self, program: str, words: Sequence[str]) -> None:
        try:
            self.child = subprocess.Popen([program, *words], stdin=subprocess.DEVNULL, stdout=subprocess.PIPE, stderr=subprocess.PIPE, start_new_session=True)
        except OSError as error:
            raise ProgramError(f"{program}: {error.strerror}: it cannot be run") from None
        self.program, self.stopped, self.rest = program, False, ""
        self.said: List[str] = []
        self.listener = threading.Thread(target=self._listen, daemon=True)
        self.listener.start()

    def _listen(self) -> None:
        """Keeps what stands on standard error. What `./dypdl` tells of a build or of an unproved program is handed on."""
        for raw in self.child.stderr:  # type: ignore[union-attr]
            line = raw.decode("utf-8", "replace").rstrip("\n")
            self.said.append(line)
            if line.startswith("dypdl: ") and line not in _told:
                _told.add(line)
                print(line, file=sys.stderr)

    def lines(self) -> Iterator[str]:
        """The whole lines of the output."""
        for raw in self.child.stdout:  # type: ignore[union-attr]
            if raw.endswith(b"\n"):
                yield raw[:-1].decode("utf-8", "replace")
            elif not self.stopped:
                raise ProgramError(f"the output of the program was cut in the midst of a line: {raw[:100]!r}")

    def events(self) -> Iterator[Event]:
        lines = self.lines()
        try:
            for event in events(lines):
                if isinstance(event, Verdict):
                    self.rest = "".join(line + "\n" for line in lines)
                    self.test_status(event)
                yield event
                if isinstance(event, (Verdict, Refusal, Ended)):
                    return
        except ProgramError:
            if not self.stopped:
                raise
        if not self.stopped:
            status = self.wait()
            raise ProgramError(f"{self.program} ended {status_shown(status)} without a verdict{self.last_words()}", status)

    def test_status(self, verdict: Verdict) -> None:
        status = self.wait()
        if status != STATUSES[verdict.kind] and not self.stopped:
            raise ProgramError(f"{self.program} ended {status_shown(status)} behind its verdict `{verdict.kind}`{self.last_words()}", status)

    def last_words(self) -> str:
        self.listener.join(1)
        return "".join(f"\n    {line}" for line in self.said[-6:])

    def wait(self) -> int:
        return self.child.wait()

    def stop(self) -> None:
        """Ends the run, with all processes that it began: asked at first, and after three seconds without asking."""
        self.stopped = True
        if self.child.poll() is None:
            self.send(signal.SIGTERM)
            try:
                self.child.wait(3)
            except subprocess.TimeoutExpired:
                self.send(signal.SIGKILL)

    def send(self, number: int) -> None:
        try:
            os.killpg(self.child.pid, number)  # the run is the first of a group of its own
        except ProcessLookupError:
            pass

    def close(self) -> None:
        """Leaves nothing behind."""
        self.stop()
        self.child.wait()
        self.listener.join(1)
        for pipe in (self.child.stdout, self.child.stderr):
            if pipe is not None:
                pipe.close()


def status_shown(status: int) -> str:
    return f"by signal {-status}" if status < 0 else f"with status {status}"


def run_tool(name: str, words: Sequence[str], program: Optional[str] = None) -> Any:
    """What a tool prints, what it says on standard error, and its status."""
    command = [sys.executable, find_tool(name, program), *words]
    places = {**os.environ, **({"DYPDL_SOLVE": program} if program else {})}
    done = subprocess.run(command, stdin=subprocess.DEVNULL, capture_output=True, env=places, check=False)
    return done.stdout.decode("utf-8", "replace"), done.stderr.decode("utf-8", "replace"), done.returncode
