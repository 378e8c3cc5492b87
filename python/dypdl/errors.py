"""What can go wrong, each with the line of Python (or of a YAML file) that it is about."""

from __future__ import annotations

from typing import Any, Optional, Sequence


class DypdlError(Exception):
    """The base of all errors of this package that are no plain TypeError, ValueError or IndexError."""


class ModelError(DypdlError, ValueError):
    """The model cannot be written as it stands. `place` is where the part of it was made, or None."""

    def __init__(self, why: str, place: Any = None) -> None:
        super().__init__(f"{place}: {why}" if place is not None else why)
        self.why, self.place = why, place


class LeftOut(ModelError):
    """What DIDPPy or YAML-DyPDL has, and what cannot be said to this solver."""


class Refused(ModelError):
    """The program refused the text of the model. `line` is what it printed."""

    def __init__(self, line: str, why: str, place: Any = None) -> None:
        super().__init__(f"{line}: {why}", place)
        self.line = line


class NoValue(DypdlError, ArithmeticError):
    """An expression has no value in a state that was evaluated in Python: an index that is no member, a division by 0."""

    def __init__(self, why: str, place: Any = None) -> None:
        super().__init__(f"{place}: {why}" if place is not None else why)
        self.why, self.place = why, place


class Fault(DypdlError, ArithmeticError):
    """The search came to a state in which an expression has no value.

    `kind` is `Range`, `ZeroDivisor`, `Negative` or `Index`; `spot` says where in the model, as the program prints it; `steps` are the names of the
    steps that lead to the state; `place` is the line that made the expression.
    """

    def __init__(self, kind: str, spot: str, steps: Sequence[str], why: str, place: Any = None) -> None:
        after = f"after {len(steps)} steps ({', '.join(steps[-4:])})" if steps else "in the target state"
        super().__init__((f"{place}: " if place is not None else "") + f"{kind} at {spot}, {after}: {why}")
        self.kind, self.spot, self.steps, self.why, self.place = kind, spot, list(steps), why, place


class ProgramError(DypdlError, RuntimeError):
    """The program was not found, could not be run, ended in a way that it never should, or its output was cut."""

    def __init__(self, why: str, status: Optional[int] = None) -> None:
        super().__init__(why)
        self.status = status
