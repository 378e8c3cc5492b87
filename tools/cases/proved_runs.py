"""Runs of `solve --prune proved` and of `check --prune proved`, worked out by hand. In front stands a line for each dual bound and each preference,
which says whether it is proved; behind it what the search prints of the model without those that are not.

`RUNS` are cases as in small_runs.py. Those of `OPEN` lie, so that no checker may ever prove them. What the parts of `TRUE` are told as is the
checker's own affair, as long as it is true; model_parts.py has the models of models/."""

from pathlib import Path

import model_parts
from certificate_runs import JUMP_HEAD, START, head, whole
from small_runs import (
    CLIMB, FALSE_BOUND, FALSE_BOUND_OFF, JUMP_BEST, JUMP_OUT, JUMP_STOPPED, RESOURCE, RESOURCE_FROM, TOUR, TOUR_BEST, TOUR_BOUND_OUT, TOUR_OF_FOUR, TOUR_OUT, USAGE, problem, told, words,
)

# Each list costs 5 or 6, and the bound says that none costs less than 100.
TOO_TIGHT = CLIMB + "dual_bounds:\n  - (+ 100 x)\n"

# The best list costs 5, and the bound says that none costs less than 7.
RISING = CLIMB + "dual_bounds:\n  - (- 7 x)\n"

# A bound that has no value is open, and so it is not evaluated.
FAULTY = CLIMB + "dual_bounds:\n  - (/ 1 (- x x))\n"
FAULTY_ON = told("verdict fault ZeroDivisor at bound 1 after 0")

TWO_LIES = RISING + "  - (+ 100 x)\n"

# Less x alone is better, since nothing else differs then, and so is less y alone, of which no condition speaks. Both together are not: of the two
# states that the first step leads to, the one with less of both has the dearer way home.
BOTH = """\
domain: both
state_variables:
  - { name: x, type: integer, preference: less }
  - { name: y, type: integer, preference: less }
  - { name: t, type: integer }
transitions:
  - { name: high, preconditions: [ (= t 0) ], effects: { x: 1, y: 1, t: 1 }, cost: cost }
  - { name: low, preconditions: [ (= t 0) ], effects: { t: 1 }, cost: cost }
  - { name: dear, preconditions: [ (= t 1), (= x 0) ], effects: { t: 2 }, cost: (+ cost 5) }
  - { name: cheap, preconditions: [ (= t 1), (= x 1) ], effects: { t: 2 }, cost: cost }
base_cases:
  - [ (= t 2) ]
"""
BOTH_FROM = "domain: both\nproblem: one\ntarget: { x: 0, y: 0, t: 0 }\n"
BOTH_OUT = told(
    "preference x open", "preference y proved", "solution 0 2", "high", "cheap", "pass 1 share 1 visited 2 dropped 1",
    "pass 2 share 2 visited 3 dropped 0", "verdict optimal 0",
)

CLIMB_CERT = head("layer", "on", *JUMP_HEAD) + whole(START, ["0 open inc"], ["0 open inc"])
BEST_CERT = head("all", "on", *JUMP_HEAD) + whole(START, ["0 open inc"], ["0 open inc"])
OPEN_BOUND = "bound 1 open\n"
PROVED = words("solve d p --prune proved")
CERTIFIED = words("solve d p --prune proved --certificate on")
CHECKED = words("check d p l --prune proved")

RESOURCE_OUT = told("solution 2 2", "fast", "end", "pass 1 share 1 visited 2 dropped 0", "verdict optimal 2")

TOUR_CERT = Path("models/tour/certificates/four_customers.txt").read_text(encoding="utf-8")
TOUR_PARTS = told("bound 1 proved", "preference time proved")

# Each step costs no less than what this bound falls by.
FALLING = CLIMB + "dual_bounds:\n  - (- 3 x)\n"
FALLING_OUT = told("solution 5 1", "jump", "pass 1 share 1 visited 2 dropped 0", "verdict optimal 5")
FALLING_CERT = head("layer", "on", *JUMP_HEAD) + told("layer 0 1", "node - open", "layer 1 1", "node 0 open inc", "end 2")

# It says no more than the truth, but behind the first step it says less than what is left of it there: no single step shows that it is true.
NOT_BY_STEPS = CLIMB + "dual_bounds:\n  - (if (= x 0) 5 0)\n"

# The second bound is proved, and has no value where x is more than 0.
WITHOUT_VALUE = FALLING + "  - (- (- 0 4611686018427387903) x)\n"
WITHOUT_VALUE_OUT = told("bound 1 proved", "bound 2 proved", "pass 1 share 1 visited 1 dropped 0", "verdict fault Range at bound 2 after 1", "inc")

# No read of these gives a job.
MISUSES = (
    "solve d p --prune maybe", "solve d p --prune", "solve d p --prune proved --prune proved", "solve d p --prune PROVED",
    "check d p l --prune on", "check d p l --prune off", "check d p l --prune", "replay d p l --prune proved", "show d p --prune proved", "gen path 2 0 --prune proved",
)


def climbs():
    texts = [("domain", CLIMB), ("problem", problem("a", "x", 0))]
    yield "proved: nothing to tell", texts, [(PROVED, JUMP_OUT, 0), (CERTIFIED, JUMP_OUT + CLIMB_CERT, 0)]
    yield "proved: words", [], [(words(text), USAGE, 2) for text in MISUSES]
    lie = [("domain", TOO_TIGHT)]
    lasts = [(words(f"solve d p --prune proved --workers {workers}"), "verdict optimal 5\n", 0) for workers in (2, 7)]
    yield "proved: a bound that lies", lie, [
        (PROVED, OPEN_BOUND + JUMP_OUT, 0),
        (CERTIFIED, OPEN_BOUND + JUMP_OUT + CLIMB_CERT, 0),
        (words("solve d p --prune proved --gap on"), OPEN_BOUND + JUMP_OUT, 0),
        (words("solve d p --prune proved --engine best"), OPEN_BOUND + JUMP_BEST, 0),
        (words("solve d p --prune proved --engine best --certificate on"), OPEN_BOUND + JUMP_BEST + BEST_CERT, 0),
    ], lasts
    for name, printed in (("layers", JUMP_OUT + CLIMB_CERT), ("the best node first", JUMP_BEST + BEST_CERT)):
        yield f"proved: a bound that lies, checked, {name}", [("list", OPEN_BOUND + printed)], [(CHECKED, OPEN_BOUND + "verdict certified optimal 5\n", 0)]
    broken = OPEN_BOUND + JUMP_OUT + CLIMB_CERT.replace("node 0 open inc", "node 0 cut inc", 1)
    yield "proved: a cut that nothing shows", [("list", broken)], [(CHECKED, OPEN_BOUND + "verdict rejected 15 Cut\n", 10)]
    yield "proved: no certificate", [("list", JUMP_OUT)], [(CHECKED, "refused list:1:1 72 BadCertificate\n", 3)]
    texts = [("domain", FALSE_BOUND)]
    yield "proved: a bound that hides the best", texts, [(PROVED, OPEN_BOUND + FALSE_BOUND_OFF, 0)]


def more_lies():
    start = ("problem", problem("a", "x", 0))
    printed = OPEN_BOUND + JUMP_OUT + CLIMB_CERT
    yield "proved: a bound that rises as it lies", [("domain", RISING), start], [
        (PROVED, OPEN_BOUND + JUMP_OUT, 0),
        (words("solve d p --prune proved --budget 2"), OPEN_BOUND + JUMP_STOPPED, 11),
        (CERTIFIED, printed, 0),
    ]
    yield "proved: a bound that rises as it lies, checked", [("list", printed)], [(CHECKED, OPEN_BOUND + "verdict certified optimal 5\n", 0)]
    yield "proved: a bound without a value", [("domain", FAULTY), start], [(words("solve d p"), FAULTY_ON, 12), (PROVED, OPEN_BOUND + JUMP_OUT, 0)]
    yield "proved: two bounds that lie", [("domain", TWO_LIES)], [(PROVED, OPEN_BOUND + "bound 2 open\n" + JUMP_OUT, 0)]
    yield "proved: no model", [("domain", "domain: a\n")], [(PROVED, "refused domain:1:1 40 MissingKey\n", 3)]


def true():
    start = ("problem", problem("a", "x", 0))
    yield "proved: a bound that falls no faster than costs rise", [("domain", FALLING), start], [
        (PROVED, "bound 1 proved\n" + FALLING_OUT, 0),
        (words("solve d p --prune proved --engine best"), "bound 1 proved\n" + told("solution 5 1", "jump", "search visited 2", "verdict optimal 5"), 0),
        (CERTIFIED, "bound 1 proved\n" + FALLING_OUT + FALLING_CERT, 0),
    ]
    yield "proved: that bound, checked", [("list", FALLING_OUT + FALLING_CERT)], [(CHECKED, "bound 1 proved\nverdict certified optimal 5\n", 0)]
    yield "proved: a bound behind one that lies", [("domain", CLIMB + "dual_bounds:\n  - (+ 100 x)\n  - (- 3 x)\n")], [(PROVED, OPEN_BOUND + "bound 2 open\n" + JUMP_OUT, 0)]
    yield "proved: a bound before one that lies", [("domain", FALLING + "  - (+ 100 x)\n")], [(PROVED, "bound 1 proved\nbound 2 open\n" + FALLING_OUT, 0)]
    yield "proved: a true bound that no single step shows", [("domain", NOT_BY_STEPS)], [(words("solve d p"), JUMP_OUT, 0), (PROVED, OPEN_BOUND + JUMP_OUT, 0)]
    yield "proved: a bound that is proved and has no value", [("domain", WITHOUT_VALUE)], [(PROVED, WITHOUT_VALUE_OUT, 12)]
    # No state that a search looks at is inner there.
    yield "proved: a base target", [("domain", RISING), ("problem", problem("a", "x", 3))], [(PROVED, "bound 1 proved\nsolution 0 0\nverdict optimal 0\n", 0)]
    yield "proved: a tour", [("domain", TOUR), ("problem", TOUR_OF_FOUR)], [
        (PROVED, TOUR_PARTS + TOUR_OUT, 0),
        (words("solve d p --prune proved --gap on --budget 5"), TOUR_PARTS + TOUR_BOUND_OUT, 11),
        (words("solve d p --prune proved --engine best"), TOUR_PARTS + TOUR_BEST, 0),
        (CERTIFIED, TOUR_PARTS + TOUR_CERT, 0),
    ]
    yield "proved: that tour, checked", [("list", TOUR_PARTS + TOUR_CERT)], [(CHECKED, TOUR_PARTS + "verdict certified optimal 14\n", 0)]
    yield "proved: a resource", [("domain", RESOURCE), ("problem", RESOURCE_FROM)], [(PROVED, "preference r proved\n" + RESOURCE_OUT, 0)]
    yield "proved: preferences that lie together", [("domain", BOTH), ("problem", BOTH_FROM)], [(PROVED, BOTH_OUT, 0)]


OPEN = [*climbs(), *more_lies()]
TRUE = [*true()]
RUNS = OPEN + TRUE + model_parts.RUNS
