"""Runs of the program: what its lines are read as, what an answer rests on, and what is told of a program that fails."""

from __future__ import annotations

import os
import stat
import tempfile
import unittest
import warnings
from random import Random
from typing import Any, Iterator, List

import dypdl.didppy as dp
from dypdl.program import Bound, Found, HintTold, Verdict, Visited, events, find_program

from . import programs
from .field import bin_packing, tour_with_windows

COST = dp.IntExpr.state_cost()


def climb(**more: Any) -> dp.Model:
    """From 0 to 3 by ones and twos."""
    model = dp.Model(**more)
    x = model.add_int_resource_var(target=0, less_is_better=False, name="x")
    model.add_transition(dp.Transition("solution 3 1", COST + 2, [(x, x + 1)]))
    model.add_transition(dp.Transition("verdict optimal 1", COST + 3, [(x, x + 2)], [x < 2]))
    model.add_base_case([x >= 3])
    model.add_dual_bound(0)
    return model


def read(text: str) -> List[Any]:
    lines: Iterator[str] = iter(text.split("\n")[:-1])
    return list(events(lines))


class Lines(unittest.TestCase):
    def test_lists_are_read_by_count(self) -> None:
        found = read("bound 1 proved\npreference x open\nannounce 5\nsolution 5 2\nsolution 3 1\nverdict optimal 1\nannounced 1 refused 0\n"
                     "pass 1 share 1 visited 7 dropped 3\nbound 4\nverdict optimal 5\n")
        self.assertEqual(found, [HintTold("bound 1", True), HintTold("preference x", False), Found(5, ["solution 3 1", "verdict optimal 1"]), Visited(7), Bound(4),
                                 Verdict("optimal", "", "", [])])

    def test_a_fault_owns_its_steps(self) -> None:
        self.assertEqual(read("verdict fault Index at visit 3 weight after 2\nverdict infeasible\nvisit 1\n"), [Verdict("fault", "Index", "visit 3 weight", ["verdict infeasible", "visit 1"])])

    def test_lines_that_are_none(self) -> None:
        for text, why in (("solution 5 2\na\n", "cut"), ("hello\n", "none of its own"), ("verdict maybe\n", "none of its own"), ("solution 5\n", "none of its own")):
            with self.assertRaisesRegex(dp.ProgramError, why):
                read(text)


class Programs(unittest.TestCase):
    """Programs that are none."""

    def setUp(self) -> None:
        self.room = tempfile.TemporaryDirectory()
        self.addCleanup(self.room.cleanup)

    def script(self, text: str) -> str:
        path = os.path.join(self.room.name, "program")
        with open(path, "w", encoding="utf-8") as file:
            file.write(text)
        os.chmod(path, os.stat(path).st_mode | stat.S_IXUSR)
        return path

    def answer(self, text: str, **options: Any) -> dp.Solution:
        return dp.CABS(climb(), quiet=True, program=self.script("#!/bin/sh\n" + text), **options).search()

    def test_ends(self) -> None:
        for text, why in (("kill -SEGV $$", "signal 11"), ("exit 0", "without a verdict"), ("echo solution 3 2; echo a", "cut"), ("printf 'solution 3'", "midst of a line"),
                          ("echo verdict infeasible; exit 0", "status 0 behind"), ("echo memory; exit 6", "memory ran out"), ("echo usage: x; exit 2", "option"),
                          ("echo solution 3 1; echo a; echo verdict optimal 3", "a step that the model does not have"), ("echo oh no >&2; exit 9", "oh no"),
                          ("echo too long domain; exit 7", "too long"), ("printf '\\377\\376\\n'", "none of its own")):
            with self.subTest(text=text), self.assertRaisesRegex(dp.ProgramError, why):
                self.answer(text)

    def test_no_program(self) -> None:
        for path, why in (("/nowhere/program", "no program"), ("/etc/passwd", "no program"), (self.script("hello"), "cannot be run")):
            with self.assertRaisesRegex(dp.ProgramError, why):
                dp.CABS(climb(), program=path).search()

    def test_what_an_answer_rests_on(self) -> None:
        lines = "echo bound 1 open; echo preference x proved; echo solution 5 2; echo verdict optimal 1; echo solution 3 1; echo verdict optimal 5"
        found = self.answer(lines, prune="proved")
        self.assertEqual([step.name for step in found.transitions], ["verdict optimal 1", "solution 3 1"])
        self.assertEqual((len(found.rests_on.proved), len(found.rests_on.believed), len(found.rests_on.unused)), (1, 0, 1))
        self.assertTrue(found.rests_on.is_proved)
        self.assertRegex(str(found.rests_on), r"proved \(left out: dual bound 1 \(.*test_runs\.py:\d+\)\)")
        believed = self.answer("echo solution 5 1; echo solution 3 1; echo verdict optimal 5").rests_on
        self.assertRegex(str(believed), r"believed: dual bound 1 \(.*\), preference of greater `x` \(.*\)")
        self.assertEqual(self.answer("echo solution 5 1; echo solution 3 1; echo verdict optimal 5", prune="off").rests_on, dp.RestsOn())

    def test_a_refusal_is_told_at_its_line(self) -> None:
        with self.assertRaisesRegex(dp.Refused, r"test_runs\.py:\d+: refused domain:9:5 49 TooMany: .*4,096"):
            self.answer("echo refused domain:9:5 49 TooMany; exit 3")

    def test_a_time_limit(self) -> None:
        found = self.answer("trap 'exit 143' TERM; echo solution 5 2; echo verdict optimal 1; echo solution 3 1; sleep 20 & wait", time_limit=0.5, prune="off")
        self.assertEqual((found.cost, found.time_out, found.is_optimal), (5, True, False))
        self.assertLess(found.time, 5)

    def test_options(self) -> None:
        for wrong in ({"threads": 0}, {"time_limit": 0}, {"time_limit": float("nan")}, {"prune": "most"}, {"budget": 0}, {"budget": 2**41}):
            with self.assertRaises(ValueError):
                dp.CABS(climb(), program=self.script("#!/bin/sh"), **wrong)
        with self.assertRaises(TypeError):
            dp.CABS(None, program=self.script("#!/bin/sh"))  # type: ignore[arg-type]

    def test_warnings(self) -> None:
        path = self.script("#!/bin/sh")
        for call in (lambda: dp.LNBS(climb(), beam_size=3, program=path), lambda: dp.CABS(climb(), primal_bound=3, program=path), lambda: dp.CABS(climb(), max_beam_size=9, program=path)):
            with self.assertWarns(UserWarning) as caught:
                call()
            self.assertTrue(caught.filename.endswith("test_runs.py"))


@unittest.skipUnless(programs.PROGRAM, programs.WHY)
class Answers(unittest.TestCase):
    def test_steps_that_look_like_lines(self) -> None:
        found = dp.CABS(climb(), quiet=True).search()
        self.assertEqual((found.cost, found.is_optimal, sorted(step.name for step in found.transitions)), (5, True, ["solution 3 1", "verdict optimal 1"]))

    def test_each_better_solution(self) -> None:
        model, best = tour_with_windows(Random("tour_with_windows 1"))
        solver, costs, ended = dp.CABS(model, quiet=True), [], False
        while not ended:
            found, ended = solver.search_next()
            costs.append(found.cost)
        self.assertEqual(costs, sorted(costs, reverse=True))
        self.assertEqual((costs[-1], found.is_optimal), (best, True))
        self.assertEqual(solver.search_next()[1], True)

    def test_a_stopped_search(self) -> None:
        model, _ = bin_packing(Random(3))
        found = dp.CABS(model, quiet=True, budget=3).search()
        self.assertEqual((found.is_optimal, found.is_infeasible, found.time_out), (False, False, False))

    def test_a_time_limit_that_is_not_met(self) -> None:
        found = dp.CABS(climb(), quiet=True, time_limit=60).search()
        self.assertEqual((found.cost, found.is_optimal, found.time_out), (5, True, False))

    def test_a_fault(self) -> None:
        model = dp.Model()
        x = model.add_int_var(0, "x")
        model.add_transition(dp.Transition("go", COST + 6 // (2 - x), [(x, x + 1)]))
        model.add_base_case([x == 3])
        line = self.test_a_fault.__func__.__code__.co_firstlineno + 3
        with self.assertRaisesRegex(dp.Fault, rf"test_runs\.py:{line}: ZeroDivisor at go weight, after 2 steps \(go, go\): 6 is divided by 0"):
            dp.CABS(model, quiet=True).search()

    def test_a_fault_of_a_step_with_parameters(self) -> None:
        model = dp.Model()
        kind = model.add_object_type(3, "kind")
        left = model.add_set_var(kind, [1, 2])
        to = dp.Parameter("to", left)
        price = model.add_int_table([1, 2, 3])
        model.add_transition(dp.Transition("go", COST + price[to + 1], [(left, left.remove(to))], parameters=[to]))
        model.add_base_case([left.is_empty()])
        with self.assertRaisesRegex(dp.Fault, r"Index at go 2 weight, .*: `price` has no cell \[3\]"):
            dp.CABS(model, quiet=True).search()

    def test_a_limit(self) -> None:
        model = dp.Model()
        many = model.add_object_type(5000)
        line = self.test_a_limit.__func__.__code__.co_firstlineno + 2
        held = model.add_set_var(many, [1])
        model.add_base_case([held.is_empty()])
        with self.assertRaisesRegex(dp.Refused, rf"test_runs\.py:{line}: .*49 TooMany"):
            dp.CABS(model, quiet=True).search()

    def test_a_certificate(self) -> None:
        found = dp.CABS(climb(), quiet=True, certificate=True).search()
        lines = (found.certificate or "").split("\n")
        self.assertEqual((lines[0], lines[3]), ("certificate 1", "claim optimal 5"))
        self.assertTrue(lines[-2].startswith("end "))
        self.assertIsNone(dp.CABS(climb(), quiet=True).search().certificate)

    def test_honest(self) -> None:
        model = climb()
        self.assertTrue(model.honest().found_no_lie)
        model.add_dual_bound(9)
        found = model.honest()
        self.assertEqual((found.found_no_lie, found.all_states), (False, True))
        self.assertIn("bound 2 is not honest: it says 9", found.lies[0])

    def test_a_drawing(self) -> None:
        model, _ = tour_with_windows(Random("tour_with_windows 1"))
        found = dp.CABS(model, quiet=True).search()
        with tempfile.TemporaryDirectory() as room:
            picture = os.path.join(room, "plan.svg")
            self.assertIn("0 -> ", found.plan(svg=picture))
            self.assertTrue(os.path.getsize(picture) > 100)
        with self.assertRaises(ValueError):
            dp.CABS(model, quiet=True, budget=1).search().plan()

    def test_names_of_members(self) -> None:
        model = dp.Model()
        city = model.add_object_type(members=["depot", "Berlin", "Ulm"])
        left = model.add_set_var(city, [1, 2])
        at = model.add_element_var(city, 0)
        to = dp.Parameter("to", left)
        way = model.add_int_table([[0, 1, 5], [1, 0, 1], [5, 1, 0]])
        model.add_transition(dp.Transition("visit", COST + way[at, to], [(left, left.remove(to)), (at, to)], parameters=[to]))
        model.add_base_case([left.is_empty()])
        with tempfile.TemporaryDirectory() as room:
            found = dp.CABS(model, quiet=True, folder=room).search()
            with open(os.path.join(room, "names.yaml"), encoding="utf-8") as file:
                self.assertEqual(file.read(), "city: [ 'depot', 'Berlin', 'Ulm' ]\n")
        self.assertEqual(([step.name for step in found.transitions], found.names), (["visit Berlin", "visit Ulm"], ["visit 1", "visit 2"]))
        self.assertEqual([step.arguments for step in found.transitions], [(1,), (2,)])
        for wrong in (["a", "a"], [""], [" a"], ["a\nb"]):
            with self.assertRaises(ValueError):
                model.add_object_type(members=wrong)

    def test_a_round_needs_all_layers(self) -> None:
        model = dp.Model()
        place = model.add_object_type(4)
        at = model.add_element_var(place, 0)
        for k in range(4):
            model.add_transition(dp.Transition(f"to {k}", COST + 1, [(at, k)], [at != k]))
        model.add_base_case([at == 3])
        self.assertEqual(dp.CABS(model, quiet=True, keep_all_layers=True).search().cost, 1)
        self.assertEqual(dp.CAASDy(model, quiet=True).search().cost, 1)

    def test_the_program_is_found(self) -> None:
        self.assertEqual(find_program(), os.path.abspath(programs.PROGRAM))

    def test_no_warning_of_the_two_engines(self) -> None:
        with warnings.catch_warnings():
            warnings.simplefilter("error")
            dp.CABS(climb(), quiet=True).search()
            dp.CAASDy(climb(), quiet=True).search()


if __name__ == "__main__":
    unittest.main()
