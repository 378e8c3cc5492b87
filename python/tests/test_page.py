"""The Python on docs/PYTHON.md, and the example, as they stand."""

from __future__ import annotations

import contextlib
import io
import os
import re
import runpy
import unittest

from . import programs

PAGE = os.path.join(programs.TOP, "docs", "PYTHON.md")


@unittest.skipUnless(programs.PROGRAM, programs.WHY)
class Page(unittest.TestCase):
    def test_the_model(self) -> None:
        with open(PAGE, encoding="utf-8") as file:
            blocks = re.findall(r"^```python\n(.*?)^```$", file.read(), re.DOTALL | re.MULTILINE)
        self.assertEqual(len(blocks), 1)
        printed = io.StringIO()
        with contextlib.redirect_stdout(printed):
            exec(compile(blocks[0], PAGE, "exec"), {})
        self.assertTrue(printed.getvalue().split("\n")[-2].startswith("14 True ["), printed.getvalue())

    def test_the_example(self) -> None:
        printed = io.StringIO()
        with contextlib.redirect_stdout(printed):
            runpy.run_path(os.path.join(programs.TOP, "python", "examples", "tour.py"))
        self.assertIn("Solution(cost=14, steps=4, is_optimal=True", printed.getvalue())
        self.assertIn("no lie was found", printed.getvalue())


if __name__ == "__main__":
    unittest.main()
