"""The line of Python that made a part of a model, and the name that it was given there."""

from __future__ import annotations

import ast
import itertools
import linecache
import os
import re
import sys
from types import FrameType
from typing import Dict, List, NamedTuple, Optional, Tuple

PACKAGE = os.path.dirname(os.path.abspath(__file__))
_is_inside: Dict[str, bool] = {}  # of each file that was met, whether it is one of this package
ASSIGNED = re.compile(r"\s*([^\W\d]\w*)\s*(?::[^=]+)?=\s*[\w.]+\.(?:add|create)_\w+\(")


class Place(NamedTuple):
    """A line of a file. It is shown as `models/tour.py:14`."""

    file: str
    line: int

    def __str__(self) -> str:
        beside = os.path.relpath(self.file) if os.path.isabs(self.file) else self.file
        return f"{self.file if beside.startswith('..') else beside}:{self.line}"


def caller() -> Optional[FrameType]:
    """The frame that called into this package; None where there is none."""
    frame: Optional[FrameType] = sys._getframe(1)
    while frame is not None:
        file = frame.f_code.co_filename
        inside = _is_inside.get(file)
        if inside is None:
            inside = _is_inside[file] = file.startswith(PACKAGE + os.sep)
        if not inside:
            break
        frame = frame.f_back
    return frame


def here() -> Optional[Place]:
    """The line that called into this package; None where there is none."""
    frame = caller()
    return Place(frame.f_code.co_filename, frame.f_lineno) if frame is not None else None


def assigned_name() -> Optional[str]:
    """The Python variable that the calling line assigns to: `at` of `at = model.add_element_var(..)`. It names what has no name of its own, so that
    texts and errors can be read. None where the line says none."""
    frame = caller()
    if frame is None:
        return None
    return name_in(linecache.getline(frame.f_code.co_filename, frame.f_lineno), column(frame))


def column(frame: FrameType) -> Optional[int]:
    """Where in its line the call stands that a frame is at; None in a Python that does not know it."""
    positions = getattr(frame.f_code, "co_positions", None)
    if positions is None:
        return None
    return next(itertools.islice(positions(), frame.f_lasti // 2, None), (None,) * 4)[2]


def name_in(line: str, at: Optional[int]) -> Optional[str]:
    """What the call that begins at a column of a line is assigned to. Where the column is not known, the line must have one assignment alone."""
    indent = len(line) - len(line.lstrip())
    try:
        statements = ast.parse(line.strip()).body
    except (SyntaxError, ValueError):  # the call goes on over further lines
        found = ASSIGNED.match(line)
        return found.group(1) if found else None
    pairs = [pair for statement in statements for pair in assignments(statement)]
    if at is None:
        return pairs[0][0] if len(pairs) == 1 else None
    return next((name for name, value in pairs if value.col_offset + indent == at), None)


def assignments(statement: ast.stmt) -> List[Tuple[str, ast.expr]]:
    """The names and values of `a = x` and of `a, b = x, y`."""
    if not isinstance(statement, ast.Assign) or len(statement.targets) != 1:
        return []
    target, value = statement.targets[0], statement.value
    targets, values = [target], [value]
    if isinstance(target, ast.Tuple) and isinstance(value, ast.Tuple):
        targets, values = list(target.elts), list(value.elts)
    return [(one.id, other) for one, other in zip(targets, values) if isinstance(one, ast.Name)]
