"""tools/widen: what it writes has the values that the wide text means, and what it refuses it refuses at its place."""

from __future__ import annotations

import os
import subprocess
import sys
import tempfile
import unittest
from typing import Optional, Tuple

from . import programs

sys.path.insert(0, os.path.join(programs.TOP, "tools"))

from reading import places, wide  # noqa: E402

WIDEN = os.path.join(programs.TOP, "tools", "widen")
DOMAIN = """domain: wide
cost_type: continuous
objects: [ town ]
state_variables:
  - { name: left, type: set, object: town }
  - { name: at, type: element, object: town }
  - { name: fuel, type: continuous, preference: greater }
tables:
  - { name: way, type: continuous, args: [ town, town ] }
  - { name: near, type: set, object: town, args: [ town ] }
  - { name: weight, type: integer, args: [ town ] }
state_functions:
  - { name: cheapest, type: continuous, expression: (min way at left) }
  - { name: reach, type: set, object: town, expression: (union near left) }
  - { name: double, type: integer, expression: (* 2 (weight at)) }
  - { name: far, type: bool, expression: (> (way at 1) 1.5) }
transitions:
  - name: go
    parameters: [ { name: t, object: left } ]
    preconditions:
      - (<= (way at t) fuel)
    effects: { left: (remove t left), at: t, fuel: (- fuel (way at t)) }
    cost: (+ (way at t) (+ cost 0.25))
base_states:
  - { left: [ ], at: 0, fuel: 7.5 }
base_cases:
  - [ (is_empty left) ]
dual_bounds:
  - (if (is_empty left) 0 cheapest)
"""
PROBLEM = """domain: wide
problem: three towns
object_numbers: { town: 4 }
target: { left: [ 1, 2, 3 ], at: 0, fuel: 7.5 }
table_values:
  way: [ [ 0, 1.5, 2.25, 3 ], [ 1.5, 0, 1.1, 2 ], [ 2.25, 1, 0, 0.75 ], [ 3, 2, 0.75, 0 ] ]
  near: { 1: [ 0 ], 2: [ 1, 3 ] }
  weight: [ 4, 1, 2, 3 ]
"""
VALUES = {  # what an expression is in the target: left is {1, 2, 3}, at is 0, fuel is 7.5; costs are in hundredths
    "(max weight left)": 3, "(min weight left)": 1, "(product weight left)": 6, "(sum weight left)": 6, "cheapest": 1.5, "double": 8,
    "(if far 1 2)": 2, "(min way left left)": 0, "(max way at left)": 3, "fuel": 7.5, "(ceil (/ fuel 2))": 4, "(floor (/ fuel 2))": 3, "(round (/ fuel 2))": 4,
    "(trunc (- 0 fuel))": -7, "(round (- 0 fuel))": -8, "(ceil (/ fuel 4))": 2, "(floor (* fuel 0.5))": 3, "(abs (- 0 fuel))": 7.5, "(neg fuel)": -7.5, "(- fuel)": -7.5, "(pow (weight 2) 3)": 8,
    "(if (is_subset (intersection near (union near left)) left) 1 2)": 1, "|reach|": 3, "(if (= reach (near 2)) 1 2)": 2, "(if (>= fuel 7.25) 0.5 0)": 0.5,
    "(+ 1e2 1.5e-1)": 100.15, "(max 0.5 (weight 1) fuel)": 7.5, "(% (weight 0) 3)": 1, "(if (> (/ (weight 3) 2) 1) 1 2)": 2,
    "(if (> (/ (weight 3) 2) 1.25) 1 2)": 1, "(if (> (if (> fuel 1.5) (/ (weight 3) 2) 0) 1) 1 2)": 2,
}
REFUSED = [
    ("cost_type: continuous", "cost_type: decimal", "domain:2:12 50 WrongShape"),
    ("cost_type: continuous", "reduce: sum", "domain:2:9 52 LeftOut"),
    ("cost_type: continuous", "cost_type: integer", "domain:23:11+3 34 Continuous"),
    ("expression: (* 2 (weight at))", "expression: (* 2 (way at 1))", "domain:15:48+5 34 Continuous"),
    ("expression: (* 2 (weight at))", "expression: (sqrt (weight at))", "domain:15:48+0 34 Continuous"),
    ("expression: (* 2 (weight at))", "expression: (* 2 (weights at))", "domain:15:48+5 30 UnknownName"),
    ("expression: (min way at left)", "expression: (min way left)", "domain:13:53+0 32 WrongCount"),
    ("expression: (union near left)", "expression: (union way at left)", "domain:14:57+7 31 WrongKind"),
    ("cost: (+ (way at t) (+ cost 0.25))", "cost: (* 2 cost)", "domain:23:11+0 52 LeftOut"),
    ("cost: (+ (way at t) (+ cost 0.25))", "cost: (max 1 (+ cost 0.25))", "domain:23:11+0 52 LeftOut"),
    ("cost: (+ (way at t) (+ cost 0.25))", "cost: (/ (way at t) 3)", "domain:23:11+0 52 LeftOut"),
    ("cost: (+ (way at t) (+ cost 0.25))", "cost: (+ cost (/ (way at t) 3))", "domain:23:11+8 52 LeftOut"),
    ("  - { left: [ ], at: 0, fuel: 7.5 }", "  - { left: [ ], at: 0 }", "domain:25:5 45 BadTarget"),
    ("  - { left: [ ], at: 0, fuel: 7.5 }", "  - { left: [ 4 ], at: 0, fuel: 7.5 }", "domain:25:15 44 BadIndex"),
    ("    cost: (+ (way at t) (+ cost 0.25))", "    direction: backward", "domain:23:16 52 LeftOut"),
]


def widened(domain: str, problem: str, scale: Optional[int] = None) -> Tuple[int, str, str, str]:
    """0 and the two texts; or 3 and the refusal, with its reason."""
    try:
        loader = wide.load(domain.encode(), problem.encode())
        model = wide.widened(loader, scale)
    except places.Refused as refused:
        return 3, f"{refused.line_printed()}\n{refused.why}", "", ""
    return 0, "", model.domain, model.problem


def command(*words: str) -> Tuple[int, str, str]:
    done = subprocess.run([sys.executable, WIDEN, *words], capture_output=True, text=True, check=False)
    return done.returncode, done.stdout, done.stderr


def solved(domain: str, problem: str, *words: str) -> str:
    with tempfile.TemporaryDirectory() as room:
        paths = [os.path.join(room, name) for name in ("d.yaml", "p.yaml")]
        for path, text in zip(paths, (domain, problem)):
            with open(path, "w", encoding="utf-8") as file:
                file.write(text)
        return subprocess.run([programs.PROGRAM, "solve", *paths, *words], capture_output=True, text=True, check=False).stdout


class Refused(unittest.TestCase):
    def test_places(self) -> None:
        for old, new, wanted in REFUSED:
            with self.subTest(new=new):
                self.assertIn(old, DOMAIN)
                status, told, *_ = widened(DOMAIN.replace(old, new), PROBLEM)
                self.assertEqual((status, told.split("\n")[0]), (3, f"refused {wanted}"), told)

    def test_a_scale_that_is_too_small(self) -> None:
        status, told, *_ = widened(DOMAIN, PROBLEM, 10)
        self.assertEqual(status, 3)
        self.assertIn("scale=100 does", told)


class Command(unittest.TestCase):
    """The tool as a command."""

    def setUp(self) -> None:
        room = tempfile.TemporaryDirectory()
        self.addCleanup(room.cleanup)
        self.room = room.name
        self.files = [os.path.join(self.room, name) for name in ("d.yaml", "p.yaml")]
        for path, text in zip(self.files, (DOMAIN, PROBLEM)):
            with open(path, "w", encoding="utf-8") as file:
                file.write(text)

    def test_to_a_folder(self) -> None:
        status, printed, told = command(*self.files, "--to", os.path.join(self.room, "to"))
        self.assertEqual((status, printed), (0, ""))
        self.assertIn("numbers that need not be whole are so many times 1/100: costs too", told)
        with open(os.path.join(self.room, "to", "domain.yaml"), encoding="utf-8") as file:
            self.assertEqual(file.read(), widened(DOMAIN, PROBLEM)[2])

    def test_to_standard_output(self) -> None:
        self.assertTrue(command(*self.files)[1].startswith("# domain.yaml\ndomain: 'wide'\n"))

    def test_what_is_refused(self) -> None:
        status, printed, told = command(*self.files, "--scale", "10")
        self.assertEqual((status, printed, told.count("\n")), (2, "", 1))
        self.assertRegex(told, r"^widen: the model is refused: refused domain:23:11\+0 52 LeftOut \(.*scale=100 does\)$")

    def test_words_that_are_not_right(self) -> None:
        for words in ((), self.files[:1], [*self.files, "--scale", "0"], [*self.files, "--scale", "x"], [*self.files, "--to", "/proc/nowhere"], ["nowhere", self.files[1]]):
            status, printed, told = command(*words)
            self.assertEqual((status, printed, told.count("\n")), (2, "", 1), told)


@unittest.skipUnless(programs.PROGRAM, programs.WHY)
class Written(unittest.TestCase):
    def test_costs(self) -> None:
        status, told, domain, problem = widened(DOMAIN, PROBLEM)
        self.assertEqual(status, 0, told)
        # the least of all six orders: 1.5 + 1.1 + 0.75 and three times 0.25
        self.assertIn("verdict optimal 410", solved(domain, problem))
        self.assertIn("verdict optimal 410", solved(domain, problem, "--prune", "off"))

    def test_values(self) -> None:
        head = DOMAIN.split("transitions:")[0]
        for expression, value in VALUES.items():
            with self.subTest(expression=expression):
                status, told, domain, problem = widened(head + f"base_cases:\n  - conditions: [ ]\n    cost: {quoted(expression)}\n", PROBLEM, 1000)
                self.assertEqual(status, 0, told)
                self.assertEqual(solved(domain, problem).split("\n")[0], f"solution {round(value * 1000)} 0", told)

    def test_the_least_of_nothing_is_a_fault(self) -> None:
        text = DOMAIN.split("transitions:")[0] + "base_cases:\n  - conditions: [ ]\n    cost: cheapest\n"
        _, _, domain, problem = widened(text, PROBLEM.replace("left: [ 1, 2, 3 ]", "left: [ ]"))
        self.assertIn("verdict fault ZeroDivisor at base 1 cost", solved(domain, problem))

    def test_a_base_state(self) -> None:
        _, _, domain, problem = widened(DOMAIN, PROBLEM.replace("left: [ 1, 2, 3 ]", "left: [ ]"))
        self.assertEqual(solved(domain, problem).split("\n")[0], "solution 0 0")

    def test_models_of_the_profile_stay_as_they_are(self) -> None:
        folder = os.path.join(programs.TOP, "models")
        for name in ("language", "deliveries", "talent", "job_shop", "grid", "matrix_chain", "knapsack"):
            with self.subTest(model=name):
                texts = []
                for part in ("domain.yaml", "problem.yaml"):
                    with open(os.path.join(folder, name, part), encoding="utf-8") as file:
                        texts.append(file.read())
                status, told, domain, problem = widened(*texts)
                self.assertEqual(status, 0, told)
                words = ("--keep", "all", "--budget", "3000")
                self.assertEqual(solved(domain, problem, *words), solved(texts[0], texts[1], *words))


def quoted(expression: str) -> str:
    return f"'{expression}'" if expression.startswith("|") else expression


if __name__ == "__main__":
    unittest.main()
