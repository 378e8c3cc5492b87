"""Models of the field against brute force: both engines, with hints and without, by one thread and by four."""

from __future__ import annotations

import subprocess
import unittest
from random import Random

import dypdl.didppy as dp
from dypdl.tools import files_of
from dypdl.writer import Written, written

from . import programs
from .field import CASES


@unittest.skipUnless(programs.PROGRAM, programs.WHY)
class Field(unittest.TestCase):
    def test_each(self) -> None:
        for name, make in CASES.items():
            for seed in (1, 2):
                with self.subTest(model=name, seed=seed):
                    self.solve(*make(Random(f"{name} {seed}")))

    def test_folded_and_plain(self) -> None:
        """Conditions that were folded into one say the same as one by one: the same solutions, passes and verdict."""
        for name in ("tour_with_windows", "bin_packing", "assembly_line", "vehicle_routing"):
            for seed in range(3):
                with self.subTest(model=name, seed=seed):
                    model = CASES[name](Random(seed))[0]
                    self.assertEqual(*(printed(written(model, faithful)) for faithful in (False, True)))

    def solve(self, model: dp.Model, best: object) -> None:
        for solver in (dp.CABS(model, quiet=True), dp.CAASDy(model, quiet=True), dp.CABS(model, quiet=True, prune="off"), dp.CABS(model, quiet=True, threads=4)):
            found = solver.search()
            self.assertEqual(found.cost, best)
            self.assertEqual((found.is_optimal, found.is_infeasible), (best is not None, best is None))
            self.assertEqual(found.best_bound, best)
            if best is not None:
                self.assertTrue(model.validate_forward(found.transitions, found.cost, quiet=False))


def printed(model: Written) -> str:
    """What the program prints of a model."""
    with files_of(model) as files:
        return subprocess.run([programs.PROGRAM, "solve", *files], capture_output=True, text=True, check=False).stdout


if __name__ == "__main__":
    unittest.main()
