"""Models as texts: what is written, what is folded, what is refused and where. No program is run."""

from __future__ import annotations

import math
import unittest
from decimal import Decimal
from fractions import Fraction
from typing import Any, Callable

import dypdl.didppy as dp

from .field import bin_packing, talent, tour_with_windows
from random import Random

COST = dp.IntExpr.state_cost()


def counter() -> Any:
    """A model with one whole number, which is to become 3."""
    model = dp.Model()
    x = model.add_int_var(target=0, name="x")
    model.add_base_case([x >= 3])
    return model, x


class Texts(unittest.TestCase):
    def lines(self, model: dp.Model) -> str:
        return model.texts()[0]

    def test_names_of_python_variables(self) -> None:
        model = dp.Model()
        stops = model.add_object_type(number=2)
        left = model.add_set_var(object_type=stops, target=[0])
        self.assertEqual((stops.name, left.name), ("stops", "left"))

    def test_names_that_are_no_words(self) -> None:
        model = dp.Model()
        for name in ("two words", "two\nlines", "größe", "max", "", "a" * 500, "2nd", "x y", "x_y", "cost", "a,b", "\ud800"):
            model.add_int_var(0, name)
        model.add_transition(dp.Transition("go\nto 'Köln' ☃", COST + 1, [(model.variables[0], 1)]))
        model.add_transition(dp.Transition("go", COST + 1))
        model.add_transition(dp.Transition("go", COST + 1))
        model.add_base_case([model.variables[0] == 1])
        text = self.lines(model)
        self.assertIn("name: größe,", text)
        self.assertIn("name: two_words,", text)
        self.assertIn("- name: 'go to ''Köln'' ☃'", text)
        self.assertIn("- name: 'go #2'", text)
        names = [line.split("name: ")[1].split(",")[0] for line in text.split("\n") if "type: integer }" in line]
        self.assertEqual((len(names), len(set(names))), (12, 12))
        self.assertTrue(all(len(name.encode()) <= 200 for name in names))

    def test_families_are_folded(self) -> None:
        text = self.lines(tour_with_windows(Random(1))[0])
        self.assertIn("condition: (<= (+ time (fastest location j)) (closes j))\n    forall: [ { name: j, object: unvisited } ]", text)
        text = self.lines(bin_packing(Random(1))[0])
        self.assertIn("condition: (< room (of_each j))", text)

    def test_no_family_where_a_member_may_be_missing(self) -> None:
        model = dp.Model()
        things = model.add_object_type(6)
        held = model.add_set_var(things, [0])
        price = model.add_int_table([3, 1, 4, 1, 5, 9])
        model.add_transition(dp.Transition("take", COST + 1, [(held, held.add(1))]))
        for j in range(1, 6):
            model.add_state_constr(~held.contains(j) | (price[j] < 5))
        model.add_base_case([held.contains(1)])
        self.assertIn("condition: (or (= j 0) (< (price j) 5))", self.lines(model))

    def test_a_state_function_of_elements_is_a_table(self) -> None:
        model = dp.Model()
        place = model.add_object_type(3)
        at = model.add_element_var(place, 0)
        way = model.add_int_table([[0, 1, 2], [3, 0, 4], [5, 6, 0]])
        detour = model.add_int_state_fun(way[at, 1] + way[1, at] + 1)
        model.add_transition(dp.Transition("go", COST + detour, [(at, 2)]))
        model.add_base_case([at == 2])
        domain, problem = model.texts()
        self.assertIn("(+ cost (detour at))", domain)
        self.assertIn("detour: [ 5, 1, 11 ]", problem)

    def test_a_table_that_is_summed_over_two_types_is_written_twice(self) -> None:
        model = dp.Model()
        first, second = model.add_object_type(2, "first"), model.add_object_type(2, "second")
        a, b = model.add_set_var(first, [0], "a"), model.add_set_var(second, [1], "b")
        price = model.add_int_table([7, 9])
        model.add_base_case([], cost=price[a] + price[b])
        self.assertIn("(+ (sum price a) (sum price_2 b))", self.lines(model))

    def test_sets_as_dicts_and_lists(self) -> None:
        model = dp.Model()
        kind = model.add_object_type(3)
        table = model.add_set_table({0: [1], 2: model.create_set_const(kind, [0, 2])}, object_type=kind, default=[1, 2])
        self.assertEqual(table[1].eval(model.target_state), {1, 2})
        self.assertEqual(model.add_set_table([{0}, [], (1, 2)], object_type=kind)[2].eval(model.target_state), {1, 2})
        self.assertEqual(model.add_int_table({(0, 1): 4}, default=9)[2, 5].eval(model.target_state), 9)

    def test_talent_as_text(self) -> None:
        text = self.lines(talent(Random(1))[0])
        self.assertIn("(sum wage (union (cast 0) (intersection (union (if (not (is_in 0 remaining)) (cast 0) none_actor)", text)

    def test_more_than_256_preconditions(self) -> None:
        model = dp.Model()
        many = [model.add_int_var(0, f"x{k}") for k in range(300)]
        model.add_transition(dp.Transition("go", COST + 1, [(many[0], 1)], [x < 1 for x in many]))
        model.add_base_case([many[0] == 1])
        self.assertEqual(self.lines(model).count("      - "), 257)

    def test_long_sums(self) -> None:
        model = dp.Model()
        x = model.add_int_var(1, "x")
        total = sum((x for _ in range(2000)), start=0)
        model.add_base_case([], cost=total)
        self.assertEqual(total.eval(model.target_state), 2000)
        self.assertEqual(self.lines(model).count("(+ "), 6)


class Floats(unittest.TestCase):
    def priced(self, price: Any, scale: int = 100) -> str:
        model = dp.Model(float_cost=True, scale=scale)
        x = model.add_int_var(0, "x")
        model.add_transition(dp.Transition("go", price(x) + dp.FloatExpr.state_cost(), [(x, x + 1)]))
        model.add_base_case([x == 1])
        return next(line for line in model.texts()[0].split("\n") if "cost: (" in line).strip()

    def test_decimals_are_exact(self) -> None:
        self.assertEqual(self.priced(lambda x: 0.1 + x), "cost: (+ cost (* 10 (+ (* 10 x) 1)))")
        self.assertEqual(self.priced(lambda x: x / 4), "cost: (+ cost (* 25 x))")
        self.assertEqual(self.priced(lambda x: Decimal("1.15") * x), "cost: (+ cost (* 115 x))")
        self.assertEqual(self.priced(lambda x: Fraction(1, 4) + x * 0.5), "cost: (+ cost (* 25 (+ (* 2 x) 1)))")
        self.assertEqual(self.priced(lambda x: math.ceil(x / 3)), "cost: (+ cost (* 100 (if (< x 0) (/ x 3) (/ (+ x 2) 3))))")

    def test_what_does_not_fit(self) -> None:
        for price, better in ((lambda x: x + 0.125, "scale=1000 does"), (lambda x: x / 3, "scale=300 does"), (lambda x: x * 1.001, "scale=1000 does")):
            with self.assertRaisesRegex(dp.LeftOut, better):
                self.priced(price)
        with self.assertRaisesRegex(dp.LeftOut, "whose divisor is no plain number"):
            self.priced(lambda x: 1 / (x + 1))

    def test_a_scale_is_to_be_said(self) -> None:
        with self.assertRaisesRegex(dp.LeftOut, "scale"):
            dp.Model(float_cost=True)
        for call in (lambda m: m.add_float_var(0.5), lambda m: m.add_float_table([0.5]), lambda m: m.add_float_resource_var(1, True)):
            with self.assertRaisesRegex(dp.LeftOut, "scale"):
                call(dp.Model())
        for scale in (0, -1, 10**13):
            with self.assertRaises(ValueError):
                dp.Model(float_cost=True, scale=scale)

    def test_cells_and_targets(self) -> None:
        model = dp.Model(scale=10)
        r = model.add_float_var(0.25)
        model.add_base_case([r == 0])
        with self.assertRaisesRegex(dp.LeftOut, "scale=100 does"):
            model.texts()
        model.set_target(r, 0.5)
        self.assertIn("r: 5", model.texts()[1])

    def test_bounds_are_rounded_to_the_true_side(self) -> None:
        for maximize, wanted in ((False, "(if (< x 0) (/ (- x 2) 3) (/ x 3))"), (True, "(if (< x 0) (/ x 3) (/ (+ x 2) 3))")):
            model = dp.Model(maximize=maximize)
            x = model.add_int_var(0, "x")
            model.add_base_case([x == 0])
            model.add_dual_bound(x / 3)
            self.assertIn(wanted, model.texts()[0])


class Refusals(unittest.TestCase):
    def test_places(self) -> None:
        model, x = counter()
        wrong = [dp.Transition("a", cost=2 * COST, effects=[(x, x + 1)])]
        model.add_transition(wrong[0])
        with self.assertRaisesRegex(dp.LeftOut, r"test_models\.py:\d+: a cost has one form") as caught:
            model.texts()
        self.assertEqual(caught.exception.place.line, Refusals.test_places.__code__.co_firstlineno + 2)

    def test_a_bare_variable_has_the_place_of_its_use(self) -> None:
        model, x = counter()
        other, y = counter()
        model.add_dual_bound(y)
        model.add_dual_bound(0)
        with self.assertRaises(dp.ModelError) as caught:
            model.texts()
        first = self.test_a_bare_variable_has_the_place_of_its_use.__func__.__code__.co_firstlineno
        self.assertEqual((caught.exception.place.line, model.bounds[1].place.line), (first + 3, first + 4))

    def test_costs(self) -> None:
        for cost, why in ((3, "without state_cost"), (lambda x: x + 3, "no state_cost"), (lambda x: dp.max(1 + COST, 3), "one operator"),
                          (lambda x: 2.5 + COST, "a whole number is wanted"), (lambda x: 1 - COST, "one form"), (lambda x: COST + COST, "one form")):
            model, x = counter()
            model.add_transition(dp.Transition("a", cost=cost(x) if callable(cost) else cost))
            with self.assertRaisesRegex(dp.LeftOut, why):
                model.texts()

    def test_forms_of_costs(self) -> None:
        for cost, text in ((lambda x: COST, "cost"), (lambda x: COST - x, "(+ cost (- 0 x))"), (lambda x: 1 + COST + x, "(+ cost (+ x 1))"),
                           (lambda x: (x > 1).if_then_else(COST + 2, COST), "(+ cost (if (> x 1) 2 0))"), (lambda x: dp.min(x, COST, 4), "(min cost (min x 4))")):
            model, x = counter()
            model.add_transition(dp.Transition("a", cost=cost(x)))
            self.assertIn(f"    cost: {text}\n", model.texts()[0])

    def test_mixed_operators(self) -> None:
        model, x = counter()
        model.add_transition(dp.Transition("a", cost=COST + 1))
        model.add_transition(dp.Transition("b", cost=dp.max(COST, 1)))
        with self.assertRaisesRegex(dp.LeftOut, "all steps of a model use one"):
            model.texts()

    def test_what_is_of_another_model(self) -> None:
        model, x = counter()
        other, y = counter()
        for step in (dp.Transition("a", effects=[(x, y)]), dp.Transition("a", effects=[(y, 1)]), dp.Transition("a", preconditions=[y > 1])):
            model.steps.clear()
            model.add_transition(step)
            with self.assertRaisesRegex(dp.ModelError, r"test_models\.py:\d+: the variable `x` is of another model"):
                model.texts()

    def test_parameters(self) -> None:
        model, x = counter()
        kind = model.add_object_type(3, "kind")
        j = dp.Parameter("j", kind)
        model.add_transition(dp.Transition("a", effects=[(x, j)]))
        with self.assertRaisesRegex(dp.ModelError, "parameters="):
            model.texts()
        with self.assertRaises(TypeError):
            dp.Parameter("j", x)  # type: ignore[arg-type]

    def test_no_base_case(self) -> None:
        with self.assertRaisesRegex(dp.ModelError, "no base case"):
            dp.Model().texts()

    def test_forms_in_one_another(self) -> None:
        for depth, why in ((300, "more than 200"), (5000, "too many forms")):
            model, x = counter()
            deep = x
            for _ in range(depth):
                deep = 1 - deep
            model.add_transition(dp.Transition("a", effects=[(x, deep)]))
            with self.assertRaisesRegex(dp.ModelError, why):
                model.texts()

    def test_values_that_are_none(self) -> None:
        model, x = counter()
        kind = model.add_object_type(3, "kind")
        s = model.add_set_var(kind, [0])
        table = model.add_int_table([1, 2, 3])
        calls: "list[tuple[Any, Callable[[], Any]]]" = [
            (ValueError, lambda: x + float("nan")), (ValueError, lambda: x + float("inf")), (ValueError, lambda: x + Decimal("NaN")), (TypeError, lambda: x + "a"),
            (TypeError, lambda: x + None), (TypeError, lambda: x + True), (TypeError, lambda: 1 if x > 2 else 0), (TypeError, lambda: x & 1), (IndexError, lambda: s.contains(3)),
            (IndexError, lambda: table[3]), (IndexError, lambda: table[-1]), (TypeError, lambda: table[1, 2]), (ValueError, lambda: table[1.5]), (TypeError, lambda: table[{1}]),
            (IndexError, lambda: model.add_set_var(kind, [3])), (TypeError, lambda: model.add_int_var("3")), (ValueError, lambda: model.add_int_var(2.5)),
            (ValueError, lambda: model.add_int_var(2**62)), (ValueError, lambda: model.add_element_var(kind, -1)), (ValueError, lambda: model.add_int_table([[1, 2], [3]])),
            (ValueError, lambda: model.add_int_table([1, float("nan")])), (ValueError, lambda: model.add_int_table([1, 2**62])), (TypeError, lambda: model.add_int_table(None)),
            (TypeError, lambda: model.add_int_table([1, "2"])), (TypeError, lambda: model.add_bool_table([1, 0])), (ValueError, lambda: model.add_element_table([-1])),
            (ValueError, lambda: model.add_int_table([[[[[1]]]]])), (TypeError, lambda: model.add_set_table([[0], [1]])), (IndexError, lambda: model.add_set_table([[3]], kind)),
            (ValueError, lambda: model.add_object_type(-1)), (TypeError, lambda: model.add_object_type("3")), (ValueError, lambda: model.add_set_var("kind", [0])),
            (TypeError, lambda: dp.Transition(3)), (TypeError, lambda: dp.Transition("a", cost=x > 1)), (TypeError, lambda: dp.Transition("a", preconditions=x > 1)),
            (TypeError, lambda: dp.Transition("a", preconditions=[x])), (ValueError, lambda: dp.Transition("a", effects=[(x, 1), (x, 2)])),
            (TypeError, lambda: dp.Transition("a", effects=[(table, 1)])), (TypeError, lambda: dp.Transition("a", effects=[(s, 1)])), (TypeError, lambda: dp.Transition("a", effects=[(x, s)])),
            (TypeError, lambda: dp.Transition("a", effects=[(x, x / 2)])), (TypeError, lambda: model.add_transition("a")), (TypeError, lambda: model.add_base_case(x > 1)),
            (TypeError, lambda: model.add_int_state_fun(s)), (TypeError, lambda: model.add_dual_bound(s)), (TypeError, lambda: model.add_state_constr(x)),
            (TypeError, lambda: x ** 0.5), (dp.LeftOut, lambda: model.add_transition(dp.Transition("a"), backward=True)), (KeyError, lambda: model.get_var("nothing")),
        ]
        for k, (error, call) in enumerate(calls):
            with self.subTest(call=k), self.assertRaises(error):
                call()

    def test_empty_sets_and_types(self) -> None:
        model, x = counter()
        nothing = model.add_object_type(0, "nothing")
        none = model.add_set_var(nothing, [])
        price = model.add_int_table([])
        model.add_dual_bound(price[none])
        self.assertIn("nothing: 0", model.texts()[1])


class States(unittest.TestCase):
    def test_steps_in_python(self) -> None:
        model, x = counter()
        step = dp.Transition("go", COST + x + 1, [(x, x + 2)], [x < 3])
        state = model.target_state
        self.assertTrue(step.is_applicable(state, model))
        self.assertEqual(step.eval_cost(5, state, model), 6)
        state = step.apply(step.apply(state, model), model)
        self.assertEqual((state[x], model.is_base(state), step.is_applicable(state, model)), (4, True, False))
        state[x] = 1
        self.assertEqual((state[x], repr(state)), (1, "State(x = 1)"))
        self.assertEqual((step[x].eval(state), (x // -2).eval(state), (-x % 2).eval(state)), (3, 0, -1))

    def test_a_value_that_is_none(self) -> None:
        model, x = counter()
        with self.assertRaisesRegex(dp.NoValue, r"test_models\.py:\d+: 1 is divided by 0"):
            (1 // x).eval(model.target_state)


if __name__ == "__main__":
    unittest.main()
