"""The program that the tests run: DYPDL_SOLVE names it. Without it, tests that need one are left out."""

from __future__ import annotations

import os

PROGRAM = os.environ.get("DYPDL_SOLVE", "")
WHY = "DYPDL_SOLVE names no build of the program"
TOP = os.path.dirname(os.path.dirname(os.path.dirname(os.path.abspath(__file__))))
