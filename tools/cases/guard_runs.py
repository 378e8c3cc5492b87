"""Runs that hold what the contracts of a search let through: that costs are announced while a pass runs, that a search which is halted among
several workers says so, and that a fault is told whoever meets it. They are cases as in small_runs.py, worked out by hand."""

from small_runs import BIG, TOUR, TOUR_OF_FOUR, TOUR_OUT, problem, told, words

# At each place x the plan may end, at a cost that is one less than at the place before.
ENDS = """\
domain: ends
state_variables:
  - { name: x, type: integer }
  - { name: done, type: integer }
transitions:
  - { name: end, preconditions: [ (= done 0) ], effects: { done: 1 }, cost: (+ cost (- 301 x)) }
  - { name: go, preconditions: [ (= done 0), (< x 300) ], effects: { x: (+ x 1) }, cost: cost }
base_cases:
  - [ (= done 1) ]
"""
ENDS_FROM = "domain: ends\nproblem: one\ntarget: { x: 0, done: 0 }\n"

# 301 better solutions in one pass, one in each layer: far more than wait for the caller at once.
MANY_ANNOUNCED = told(
    *(f"announce {cost}" for cost in range(301, 0, -1)), "solution 1 301", *["go"] * 300, "end", "announced 301 refused 0",
    "pass 1 share 1 visited 301 dropped 0", "verdict optimal 1",
)

TOUR_ANNOUNCED = told(
    "announce 16", "solution 16 4", "visit 1", "visit 2", "visit 3", "return", "announced 1 refused 0", "pass 1 share 1 visited 4 dropped 1",
    "announce 14", "solution 14 4", "visit 2", "visit 3", "visit 1", "return", "announced 1 refused 0", "pass 2 share 2 visited 6 dropped 1",
    "announced 0 refused 0", "pass 3 share 4 visited 4 dropped 0", "verdict optimal 14",
)

# The third pass has three visits left of thirteen, and wants four.
TOUR_STOPPED = TOUR_OUT.split("pass 3")[0] + told("pass 3 share 4 visited 3 dropped 0", "verdict stopped 13")

STOPPED_THREE = ("verdict stopped 3\n", 11)

# Of two workers the first owns the state that meets the fault; where there is another variable, of value 1, the second does.
BIG_BESIDE = BIG.replace("    type: integer\n", "    type: integer\n  - name: y\n    type: integer\n", 1)
BIG_FROM = "domain: big\nproblem: one\ntarget:\n  x: 0\n  y: 1\n"

# The last line of a fault is the last step of its list.
FAULT = ("big\n", 12)


def lasts(text, line, status, workers):
    return [(words(f"solve d p {text} --workers {count}"), line, status) for count in workers]


RUNS = [
    (
        "301 better solutions in one pass",
        [("domain", ENDS), ("problem", ENDS_FROM)],
        [(words("solve d p --announce on"), MANY_ANNOUNCED, 0)],
        lasts("--announce on", "verdict optimal 1\n", 0, (2, 7)),
    ),
    (
        "a tour announced, and one that stops in its last pass",
        [("domain", TOUR), ("problem", TOUR_OF_FOUR)],
        [(words("solve d p --announce on"), TOUR_ANNOUNCED, 0), (words("solve d p --budget 13"), TOUR_STOPPED, 11)],
        [*lasts("--engine best --budget 3", *STOPPED_THREE, (1, 2, 7)), *lasts("--engine best --budget 3 --prune off", *STOPPED_THREE, (2, 7))],
    ),
    (
        "a fault among several workers",
        [("domain", BIG), ("problem", problem("big", "x", 0))],
        [],
        [*lasts("--engine best", *FAULT, (2, 7)), *lasts("--keep all", *FAULT, (2, 7))],
    ),
    (
        "a fault that the other worker meets",
        [("domain", BIG_BESIDE), ("problem", BIG_FROM)],
        [],
        [*lasts("--engine best", *FAULT, (1, 2)), *lasts("--keep all", *FAULT, (1, 2))],
    ),
]
