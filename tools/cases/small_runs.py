"""Runs whose answers were worked out by hand: the words that have a meaning, budgets, ways to end early, and small models
that each show one rule. What `gen` prints is worked out by gen.py.

Each case is a title, its texts, its runs (words, output and status), and perhaps its runs of which the last line is shown
alone. A text stays until another takes its place."""

from gen import DOMAINS, printed

USAGE = "usage: solve DOMAIN PROBLEM; replay DOMAIN PROBLEM LIST; show DOMAIN PROBLEM; gen KIND SIZE SEED; check DOMAIN PROBLEM CERT\n"

# One step of cost 5 for each unit up to 3.
STAIRS = """\
domain: d
state_variables:
  - name: x
    type: integer
transitions:
  - name: t0
    preconditions:
      - (< x 3)
    effects:
      x: (+ x 1)
    cost: (+ cost 5)
base_cases:
  - - (= x 3)
"""

FROM_TWO = """\
domain: d
problem: p
target:
  x: 2
"""

# A climb of three steps of cost 2, or one jump of cost 5.
CLIMB = """\
domain: a
state_variables:
  - name: x
    type: integer
transitions:
  - name: inc
    preconditions:
      - (< x 3)
    effects:
      x: (+ x 1)
    cost: (+ cost 2)
  - name: jump
    preconditions:
      - (= x 0)
    effects:
      x: 3
    cost: (+ cost 5)
base_cases:
  - - (= x 3)
"""

# The climb or the jump in flow maps over several lines, with quoted keys and values and commas at the ends.
CLIMB_IN_FLOW = """\
{ "domain": 'a',
  state_variables: [ { "name": x,
    type: "integer" } ],
  transitions: [
    { name: 'inc', preconditions: [ "(< x 3)", ], effects: { 'x': (+ x 1) },
# a comment at the front of a line
cost: (+ cost
  2) },
    {
      "name":"jump", preconditions:
        [ '(= x 0)' ], effects: { "x":3, }, cost: "(+ cost 5)",
    } # and one behind a bracket
  ],
  'base_cases': [ [ (= x
      3) ] ] }
"""

CLIMB_FROM_IN_FLOW = """\
{
domain: "a", "problem":'one',
target:
  { 'x':
    0
  }
}
"""

# The same in block maps with quoted scalars and with a scalar over two lines.
CLIMB_IN_QUOTES = """\
'domain': "a"
"state_variables":
- "name": 'x'
  'type': "integer"
"transitions":
- name: "inc"
  preconditions: [ '(< x 3)' ]
  effects: { x: "(+ x 1)" }
  cost: (+ cost
    2)
- name: 'jump'
  preconditions:
  - "(= x 0)"
  effects:
    "x": '3'
  cost: '(+ cost 5)'
"base_cases":
- - '(= x 3)'
"""

# The climb without its jump and with a step that ends below the base state.
STUCK = """\
domain: a
state_variables:
  - name: x
    type: integer
transitions:
  - name: inc
    preconditions:
      - (< x 2)
    effects:
      x: (+ x 1)
    cost: (+ cost 2)
base_cases:
  - - (= x 3)
"""

# Two ways, of which the first that is found costs more.
TWO_WAYS = """\
domain: b
state_variables:
  - name: a
    type: integer
transitions:
  - name: p
    preconditions:
      - (= a 0)
    effects:
      a: 1
    cost: (+ cost 1)
  - name: q
    preconditions:
      - (= a 0)
    effects:
      a: 2
    cost: (+ cost 2)
  - name: e
    preconditions:
      - (= a 1)
    effects:
      a: 3
    cost: (+ cost 10)
  - name: d
    preconditions:
      - (= a 2)
    effects:
      a: 3
    cost: (+ cost 1)
base_cases:
  - - (= a 3)
"""

TWO_WAYS_OUT = """\
solution 11 2
p
e
pass 1 share 1 visited 2 dropped 1
solution 3 2
q
d
pass 2 share 2 visited 3 dropped 0
verdict optimal 3
"""

STAIRS_OUT = "solution 5 1\nt0\npass 1 share 1 visited 1 dropped 0\nverdict optimal 5\n"
JUMP_OUT = "solution 5 1\njump\npass 1 share 1 visited 3 dropped 0\nverdict optimal 5\n"
JUMP_STOPPED = "solution 5 1\njump\npass 1 share 1 visited 2 dropped 0\nverdict stopped 2\n"
STUCK_OUT = "pass 1 share 1 visited 3 dropped 0\nverdict infeasible\n"


def problem(domain, name, value):
    return f"domain: {domain}\nproblem: one\ntarget:\n  {name}: {value}\n"


def words(text):
    return text.split(" ") if text else []


WITHOUT_MEANING = [
    "",
    "solve d --prune off",
    "solve d",
    "solve d p --prune",
    "solve d p --prune maybe",
    "solve d p --prune off more",
    "Solve d p --prune off",
    "solve d p --prune off --prune off",
    "solve d p --keep",
    "solve d p --keep some",
    "solve d p --keep All",
    "solve d p --keep all --keep all",
    "solve d p --workers 0",
    "solve d p --workers 65",
    "solve d p --workers +1",
    "solve d p --worker 1",
    "solve d p -w 1",
    "replay d p",
    "replay d p l --prune off",
    "replay d p l --keep all",
    "show d",
    "show d p l",
    "show d p --workers 1",
    "--help",
    "solve --help",
    "gen",
    "gen path 2",
    "gen path 2 0 0",
    "gen cake 2 0",
    "gen path two 0",
    "gen path -1 0",
    "gen path 0 0",
    "gen path 1001 0",
    "gen pack 0 0",
    "gen pack 201 0",
    "gen tour 1 0",
    "gen tour 13 0",
    "gen path 2 18446744073709551616",
    "gen path 2 0 --workers 0",
    "gen path 2 0 --workers 65",
    "gen path 2 0 --budget 5",
    "gen path 2 0 --prune off",
    "gen path 2 0 --keep all",
]

ON = words("solve d p")
OFF = words("solve d p --prune off")


def with_budget(budget):
    return [*OFF, "--budget", budget]


# A tour through three customers with times at which they may be visited.
TOUR = """\
domain: tsptw
cost_type: integer
reduce: min
objects:
  - customer
state_variables:
  - name: unvisited
    type: set
    object: customer
  - name: location
    type: element
    object: customer
  - name: time
    type: integer
    preference: less
tables:
  - { name: ready, type: integer, args: [ customer ] }
  - { name: due, type: integer, args: [ customer ] }
  - { name: min_to, type: integer, args: [ customer ] }
  - name: distance
    type: integer
    args: [ customer, customer ]
    default: 0
transitions:
  - name: visit
    parameters:
      - name: to
        object: unvisited
    preconditions:
      - (<= (+ time (distance location to)) (due to))
    effects:
      unvisited: (remove to unvisited)
      location: to
      time: (max (+ time (distance location to)) (ready to))
    cost: (+ cost (distance location to))
  - name: return
    preconditions:
      - (is_empty unvisited)
      - (!= location 0)
    effects:
      location: 0
      time: (+ time (distance location 0))
    cost: (+ cost (distance location 0))
constraints:
  - condition: (<= (+ time (distance location j)) (due j))
    forall:
      - name: j
        object: unvisited
base_cases:
  - - (is_empty unvisited)
    - (= location 0)
dual_bounds:
  - (+ (sum min_to unvisited)
       (if (= location 0) 0 (min_to 0)))
"""

TOUR_OF_FOUR = """\
domain: tsptw
problem: four
object_numbers:
  customer: 4
target:
  unvisited: [ 1, 2, 3 ]
  location: 0
  time: 0
table_values:
  ready: { 0: 0, 1: 5, 2: 0, 3: 8 }
  due: { 0: 100, 1: 16, 2: 10, 3: 14 }
  min_to: { 0: 3, 1: 3, 2: 3, 3: 3 }
  distance:
    {
      [0, 1]: 3, [0, 2]: 4, [0, 3]: 5,
      [1, 0]: 3, [1, 2]: 5, [1, 3]: 4,
      [2, 0]: 4, [2, 1]: 5, [2, 3]: 3,
      [3, 0]: 5, [3, 1]: 4, [3, 2]: 3,
    }
"""

TOUR_SHOWN = """\
domain tsptw
problem four
reduce min join plus
object customer 4
variable unvisited set customer without
variable location element customer without
variable time integer less
table ready 4
table due 4
table min_to 4
table distance 16
transition visit 4
transition return 1
ground 5
constraints 1
bases 1
bounds 1
"""

CLIMB_SHOWN = """\
domain a
problem one
reduce min join plus
variable x integer without
transition inc 1
transition jump 1
ground 2
constraints 0
bases 1
bounds 0
"""

REPLAY = words("replay d p l")
SHOW = words("show d p")


def replayed(title, steps, stdout, status):
    return (title, [("list", steps)], [(REPLAY, stdout, status)])


# Lists of steps of the climb, and of the tour.
LISTS = [
    ("the climb shown", [("domain", CLIMB), ("problem", problem("a", "x", 0))], [(SHOW, CLIMB_SHOWN, 0)]),
    replayed("the climb", "inc\ninc\ninc\n", "verdict legal 6\n", 0),
    replayed("no end of a line", "inc\ninc\r\n\ninc", "verdict legal 6\n", 0),
    replayed("a step behind a base state", "jump\ninc\n", "verdict illegal 1 AfterBase\n", 10),
    replayed("too few steps", "inc\n", "verdict illegal 1 NotBase\n", 10),
    replayed("a jump that is not enabled", "inc\njump\n", "verdict illegal 1 NotEnabled\n", 10),
    replayed("an unknown step", "hop\n", "refused list:1:1 70 UnknownStep\n", 3),
    replayed("a step with an argument too many", "inc 4\n", "refused list:1:1 71 BadArguments\n", 3),
    replayed("a list that is no text", "inc\n \udcff", "refused list:2:2 10 NotUtf8\n", 3),
    ("the problem before the list", [("problem", "")], [(REPLAY, "refused problem:1:1 50 WrongShape\n", 3)]),
    ("the tour shown", [("domain", TOUR), ("problem", TOUR_OF_FOUR)], [(SHOW, TOUR_SHOWN, 0)]),
    replayed("the tour", "visit 2\nvisit 3\nvisit 1\nreturn\n", "verdict legal 14\n", 0),
]

# ---- small models, each for one rule

# Between the base state and the target a constraint that no state meets.
NOT_ALLOWED = CLIMB + """\
constraints:
  - (< x 0)
"""

# No base state meets the constraint, which the problem adds.
BELOW_THREE = problem("a", "x", 0) + """\
constraints:
  - (< x 3)
"""

# Each step of the climb has its own number, given by a parameter.
NUMBERED = """\
domain: a
objects:
  - k
state_variables:
  - name: x
    type: integer
transitions:
  - name: inc
    parameters:
      - name: i
        object: k
    preconditions:
      - (= x i)
    effects:
      x: (+ x 1)
    cost: (+ cost 2)
  - name: jump
    preconditions:
      - (= x 0)
    effects:
      x: 3
    cost: (+ cost 5)
base_cases:
  - - (= x 3)
"""

NUMBERED_FROM = """\
domain: a
problem: one
object_numbers:
  k: 3
target:
  x: 0
"""

NUMBERED_SHOWN = """\
domain a
problem one
reduce min join plus
object k 3
variable x integer without
transition inc 3
transition jump 1
ground 4
constraints 0
bases 1
bounds 0
"""

# The jump costs 7, the climb 6, and a bound says wrongly that nothing costs less than 100.
FALSE_BOUND = """\
domain: a
state_variables:
  - name: x
    type: integer
transitions:
  - name: inc
    preconditions:
      - (< x 3)
    effects:
      x: (+ x 1)
    cost: (+ cost 2)
  - name: jump
    preconditions:
      - (= x 0)
    effects:
      x: 3
    cost: (+ cost 7)
base_cases:
  - - (= x 3)
dual_bounds:
  - 100
"""

# Forced transitions go before the others, and the first of them is the only one.
FORCED = """\
domain: forced
state_variables:
  - name: x
    type: integer
transitions:
  - name: cheap
    preconditions:
      - (= x 0)
    effects:
      x: 1
    cost: (+ cost 1)
  - name: f1
    preconditions:
      - (= x 0)
    effects:
      x: 1
    cost: (+ cost 4)
    forced: true
  - name: f2
    preconditions:
      - (= x 0)
    effects:
      x: 1
    cost: (+ cost 3)
    forced: true
base_cases:
  - - (= x 1)
"""

# All effects are computed in the old state.
SWAP = """\
domain: swap
state_variables:
  - name: a
    type: integer
  - name: b
    type: integer
transitions:
  - name: swap
    preconditions:
      - (= a 1)
    effects:
      a: b
      b: a
    cost: (+ cost 1)
base_cases:
  - - (= a 2)
    - (= b 1)
"""

SWAP_FROM = """\
domain: swap
problem: one
target:
  a: 1
  b: 2
"""

# The element is one behind the last member at the end, which is a fault only where a cell is asked for.
ITEMS = """\
domain: items
objects:
  - item
state_variables:
  - name: i
    type: element
    object: item
  - name: done
    type: integer
tables:
  - name: w
    type: integer
    args:
      - item
transitions:
  - name: next
    preconditions:
      - (< i 2)
      - (> (w i) 0)
    effects:
      i: (+ i 1)
    cost: (+ cost (w i))
  - name: finish
    preconditions:
      - (= i 2)
    effects:
      done: 1
    cost: cost
base_cases:
  - - (= done 1)
"""

ITEMS_FROM = """\
domain: items
problem: two
object_numbers:
  item: 2
target:
  i: 0
  done: 0
table_values:
  w:
    0: 1
    1: 1
"""

# Two steps of the greatest number there is.
BIG = """\
domain: big
state_variables:
  - name: x
    type: integer
transitions:
  - name: big
    preconditions:
      - (< x 2)
    effects:
      x: (+ x 1)
    cost: (+ cost 4611686018427387903)
base_cases:
  - - (= x 2)
"""

# The greatest of the least weights: p and e have 2, q and d have 3, and the base case has 100.
WIDEST = """\
domain: widest
reduce: max
state_variables:
  - name: a
    type: integer
transitions:
  - name: p
    preconditions:
      - (= a 0)
    effects:
      a: 1
    cost: (min cost 5)
  - name: q
    preconditions:
      - (= a 0)
    effects:
      a: 2
    cost: (min cost 3)
  - name: e
    preconditions:
      - (= a 1)
    effects:
      a: 3
    cost: (min cost 2)
  - name: d
    preconditions:
      - (= a 2)
    effects:
      a: 3
    cost: (min cost 4)
base_cases:
  - conditions:
      - (= a 3)
    cost: 100
"""

WIDEST_OUT = """\
solution 2 2
p
e
pass 1 share 1 visited 2 dropped 1
solution 3 2
q
d
pass 2 share 2 visited 3 dropped 0
verdict optimal 3
"""

# From 0 to 1 and back, and never to 5.
# From 0 to 1 at once for 5, or by 2 for 1 and 1; from 1 back to 0 for nothing, or out for 1.
ROUNDS = """\
domain: rounds
state_variables: [ { name: x, type: integer } ]
transitions:
  - { name: far, preconditions: [ (= x 0) ], effects: { x: 1 }, cost: (+ cost 5) }
  - { name: mid, preconditions: [ (= x 0) ], effects: { x: 2 }, cost: (+ cost 1) }
  - { name: in, preconditions: [ (= x 2) ], effects: { x: 1 }, cost: (+ cost 1) }
  - { name: back, preconditions: [ (= x 1) ], effects: { x: 0 }, cost: (+ cost 0) }
  - { name: out, preconditions: [ (= x 1) ], effects: { x: 3 }, cost: (+ cost 1) }
base_cases: [ [ (= x 3) ] ]
"""

# Pass 1 keeps 0, 2 and 1 and drops the 1 that costs 5. Pass 2 keeps 0, both states of the next layer, and 1 at its better cost;
# both times 0 comes again at no less than its cost.
ROUNDS_OUT = """\
solution 3 3
mid
in
out
pass 1 share 1 visited 3 dropped 1
pass 2 share 2 visited 4 dropped 0
verdict optimal 3
"""

FLIP = """\
domain: flip
state_variables:
  - name: x
    type: integer
transitions:
  - name: flip
    effects:
      x: (- 1 x)
    cost: (+ cost 0)
base_cases:
  - - (= x 5)
"""

# Two ways to a = 1, of which one leaves more of r, and less of it is preferred.
RESOURCE = """\
domain: resource
state_variables:
  - name: a
    type: integer
  - name: r
    type: integer
    preference: less
transitions:
  - name: slow
    preconditions:
      - (= a 0)
    effects:
      a: 1
      r: (+ r 2)
    cost: (+ cost 1)
  - name: fast
    preconditions:
      - (= a 0)
    effects:
      a: 1
      r: (+ r 1)
    cost: (+ cost 1)
  - name: end
    preconditions:
      - (= a 1)
    effects:
      a: 2
    cost: (+ cost 1)
base_cases:
  - - (= a 2)
"""

RESOURCE_FROM = """\
domain: resource
problem: one
target:
  a: 0
  r: 0
"""

TOUR_OUT = """\
solution 16 4
visit 1
visit 2
visit 3
return
pass 1 share 1 visited 4 dropped 1
solution 14 4
visit 2
visit 3
visit 1
return
pass 2 share 2 visited 6 dropped 1
pass 3 share 4 visited 4 dropped 0
verdict optimal 14
"""


# The node that pass 2 drops has the floor 15, and that of pass 1 the floor 13.
TOUR_GAP_OUT = TOUR_OUT.split("pass 3")[0] + "verdict optimal 14\n"
TOUR_BOUND_OUT = TOUR_OUT.split("solution 14")[0] + "pass 2 share 2 visited 1 dropped 0\nbound 13\nverdict stopped 5\n"


def told(*lines):
    return "".join(f"{line}\n" for line in lines)


OPTIMAL_TOUR = ("verdict optimal 14\n", 0)
NEXT_OUT = told("solution 2 3", "next", "next", "finish", "pass 1 share 1 visited 3 dropped 0", "verdict optimal 2")
NEXT_FAULT = told("pass 1 share 1 visited 3 dropped 0", "verdict fault Index at next precondition 1 after 2", "next", "next")
FALSE_BOUND_OFF = told("solution 6 3", "inc", "inc", "inc", "pass 1 share 1 visited 3 dropped 0", "verdict optimal 6")
RESOURCE_OFF = told(
    "solution 2 2", "slow", "end", "pass 1 share 1 visited 2 dropped 1", "pass 2 share 2 visited 3 dropped 0", "verdict optimal 2"
)
FORCED_OUT = told("solution 4 1", "f1", "pass 1 share 1 visited 1 dropped 0", "verdict optimal 4")
SWAP_OUT = told("solution 1 1", "swap", "pass 1 share 1 visited 1 dropped 0", "verdict optimal 1")
BIG_OUT = told("pass 1 share 1 visited 2 dropped 0", "verdict fault Range at big cost after 1", "big")


def both(stdout, status):
    """A run with pruning and one without, with one output."""
    return [(ON, stdout, status), (OFF, stdout, status)]


RULES = [
    ("a target that is not allowed", [("domain", NOT_ALLOWED), ("problem", problem("a", "x", 0))], both("verdict infeasible\n", 10)),
    ("no base state is allowed", [("domain", CLIMB), ("problem", BELOW_THREE)], both(STUCK_OUT, 10)),
    ("steps with numbers", [("domain", NUMBERED), ("problem", NUMBERED_FROM)], [*both(JUMP_OUT, 0), (words("show d p"), NUMBERED_SHOWN, 0)]),
    (
        "a bound that is false",
        [("domain", FALSE_BOUND), ("problem", problem("a", "x", 0))],
        [
            (ON, told("solution 7 1", "jump", "pass 1 share 1 visited 1 dropped 0", "verdict optimal 7"), 0),
            (OFF, FALSE_BOUND_OFF, 0),
        ],
    ),
    ("forced transitions", [("domain", FORCED), ("problem", problem("forced", "x", 0))], both(FORCED_OUT, 0)),
    ("effects together", [("domain", SWAP), ("problem", SWAP_FROM)], both(SWAP_OUT, 0)),
    ("an element behind the last member", [("domain", ITEMS), ("problem", ITEMS_FROM)], both(NEXT_OUT, 0)),
    (
        "the same with the preconditions exchanged",
        [("domain", ITEMS.replace("      - (< i 2)\n      - (> (w i) 0)\n", "      - (> (w i) 0)\n      - (< i 2)\n"))],
        both(NEXT_FAULT, 12),
    ),
    ("a cost that is out of range", [("domain", BIG), ("problem", problem("big", "x", 0))], both(BIG_OUT, 12)),
    ("the greatest of the least weights", [("domain", WIDEST), ("problem", problem("widest", "a", 0))], both(WIDEST_OUT, 0)),
    (
        "a tour with time windows",
        [("domain", TOUR), ("problem", TOUR_OF_FOUR)],
        [
            (ON, TOUR_OUT, 0),
            (words("solve d p --budget 24"), TOUR_OUT, 0),
            (words("solve d p --gap off"), TOUR_OUT, 0),
            (words("solve d p --gap on"), TOUR_GAP_OUT, 0),
            (words("solve d p --gap on --budget 5"), TOUR_BOUND_OUT, 11),
        ],
        [
            *((words(f"solve d p --workers {workers}"), *OPTIMAL_TOUR) for workers in (1, 2, 7, 64)),
            *((words(f"solve d p --budget 24 --workers {workers}"), *OPTIMAL_TOUR) for workers in (1, 2, 3, 64)),
            (words("solve d p --prune off --workers 3"), *OPTIMAL_TOUR),
        ],
    ),
    (
        "to and fro without an end",
        [("domain", FLIP), ("problem", problem("flip", "x", 0))],
        [
            (words("solve d p --budget 10"), told("pass 1 share 1 visited 10 dropped 0", "verdict stopped 10"), 11),
            (words("solve d p --prune off --budget 10"), told("pass 1 share 1 visited 10 dropped 0", "verdict stopped 10"), 11),
            (words("solve d p --budget 1"), told("pass 1 share 1 visited 1 dropped 0", "verdict stopped 1"), 11),
            # The two states are kept once each, and two visits are enough.
            (words("solve d p --keep all"), told("pass 1 share 1 visited 2 dropped 0", "verdict infeasible"), 10),
            (words("solve d p --keep all --budget 2"), told("pass 1 share 1 visited 2 dropped 0", "verdict infeasible"), 10),
            (words("solve --keep=all --budget 1 d p"), told("pass 1 share 1 visited 1 dropped 0", "verdict stopped 1"), 11),
            (words("solve d p --keep layer --budget 1"), told("pass 1 share 1 visited 1 dropped 0", "verdict stopped 1"), 11),
        ],
        [(words(f"solve d p --keep all --workers {workers}"), "verdict infeasible\n", 10) for workers in (1, 2, 7, 64)],
    ),
    (
        "a round that leads back to the target",
        [("domain", ROUNDS), ("problem", problem("rounds", "x", 0))],
        [
            (words("solve d p --prune off --keep all"), ROUNDS_OUT, 0),
            (words("solve d p --prune off --keep all --budget 8"), ROUNDS_OUT, 0),
            (words("solve d p --prune on --keep all"), ROUNDS_OUT, 0),
        ],
        [(words(f"solve d p --keep all --workers {workers}"), "verdict optimal 3\n", 0) for workers in (1, 2, 7, 64)],
    ),
    (
        "a resource",
        [("domain", RESOURCE), ("problem", RESOURCE_FROM)],
        [
            (ON, told("solution 2 2", "fast", "end", "pass 1 share 1 visited 2 dropped 0", "verdict optimal 2"), 0),
            (OFF, RESOURCE_OFF, 0),
        ],
    ),
]

# ---- the best node first, and announced costs

BEST = words("solve d p --engine best")
TOUR_BEST = told("solution 14 4", "visit 2", "visit 3", "visit 1", "return", "search visited 6", "verdict optimal 14")
JUMP_BEST = told("solution 5 1", "jump", "search visited 3", "verdict optimal 5")
# No search is made there, so no visits are told.
WITHOUT_SEARCH = [(run, "solution 0 0\nverdict optimal 0\n", 0) for run in (BEST, [*BEST, "--prune", "off"])]
ANNOUNCED = words("solve d p --prune off --announce on")
ENGINE_MISUSES = [
    "solve d p --engine",
    "solve d p --engine Best",
    "solve d p --engine bes",
    "solve d p --engine best --engine best",
    "solve d p --engine best --gap on",
    "solve d p --gap on --engine=best",
    "solve d p --engine best --announce on",
    "solve d p --announce on --engine best --gap on",
    "solve d p --announce",
    "solve d p --announce yes",
    "solve d p --announce on --announce off",
    "replay d p l --engine best",
    "gen path 2 0 --engine best",
    "gen path 2 0 --announce on",
]

ENGINES = [
    (
        "two ways, the best node first",
        [("domain", TWO_WAYS), ("problem", problem("b", "a", 0))],
        [
            (words("solve d p --prune off --engine best"), told("solution 3 2", "q", "d", "search visited 3", "verdict optimal 3"), 0),
            # The target and the state of cost 1 are visited, and lead to the way of cost 11.
            (words("solve d p --engine best --budget 2"), told("solution 11 2", "p", "e", "search visited 2", "verdict stopped 2"), 11),
            (words("solve d p --engine best --budget 1"), told("search visited 1", "verdict stopped 1"), 11),
        ],
    ),
    (
        "a tour, the best node first",
        [("domain", TOUR), ("problem", TOUR_OF_FOUR)],
        [
            (BEST, TOUR_BEST, 0),
            (words("solve --engine best d p --budget 6"), TOUR_BEST, 0),
            (words("solve d p --engine best --gap off --announce off"), TOUR_BEST, 0),
            (words("solve d p --engine=best --keep all"), TOUR_BEST, 0),
            (words("solve d p --engine best --budget 5"), told("search visited 5", "verdict stopped 5"), 11),
            (words("solve d p --engine beam"), TOUR_OUT, 0),
        ],
        [
            *((words(f"solve d p --engine best --workers {workers}"), *OPTIMAL_TOUR) for workers in (1, 2, 7, 64)),
            *((words(f"solve d p --announce on --workers {workers}"), *OPTIMAL_TOUR) for workers in (1, 2, 7)),
        ],
    ),
    (
        "to and fro, the best node first",
        [("domain", FLIP), ("problem", problem("flip", "x", 0))],
        [
            (words("solve d p --engine best --budget 10"), told("search visited 2", "verdict infeasible"), 10),
            (words("solve d p --engine best --budget 1"), told("search visited 1", "verdict stopped 1"), 11),
        ],
        [(words(f"solve d p --engine best --workers {workers}"), "verdict infeasible\n", 10) for workers in (1, 2, 7, 64)],
    ),
    (
        "the climb or the jump, the best node first",
        [("domain", CLIMB), ("problem", problem("a", "x", 0))],
        [
            (BEST, JUMP_BEST, 0),
            (words("solve d p --engine best --budget 2"), told("solution 5 1", "jump", "search visited 2", "verdict stopped 2"), 11),
            (words("solve d p --engine beam --announce off"), JUMP_OUT, 0),
            *((words(text), USAGE, 2) for text in ENGINE_MISUSES),
        ],
    ),
    ("a target that is a base state, without a search", [("problem", problem("a", "x", 3))], WITHOUT_SEARCH),
    ("a target that is not allowed, without a search", [("domain", NOT_ALLOWED), ("problem", problem("a", "x", 0))], [(BEST, "verdict infeasible\n", 10)]),
    # The cost of the second step is out of range; the node that meets it was drawn.
    ("a fault, the best node first", [("domain", BIG), ("problem", problem("big", "x", 0))], [(BEST, told("search visited 2", "verdict fault Range at big cost after 1", "big"), 12)]),
    (
        "an announced jump",
        [("domain", CLIMB), ("problem", problem("a", "x", 0))],
        [(ANNOUNCED, told("announce 5", "solution 5 1", "jump", "announced 1 refused 0", "pass 1 share 1 visited 3 dropped 0", "verdict optimal 5"), 0)],
    ),
    (
        "a jump and then a climb, announced",
        [("domain", FALSE_BOUND)],
        [
            (
                ANNOUNCED,
                told("announce 7", "announce 6", "solution 6 3", "inc", "inc", "inc", "announced 2 refused 0", "pass 1 share 1 visited 3 dropped 0", "verdict optimal 6"),
                0,
            )
        ],
    ),
]

# ---- generated models

GENERATED = [
    ("path", 1, 0), ("path", 2, 0), ("path", 3, 2147483646), ("path", 12, 18446744073709551615), ("path", 40, 7),
    ("path", 1000, 1), ("pack", 1, 0), ("pack", 3, 0), ("pack", 11, 7), ("pack", 16, 3), ("pack", 200, 1),
    ("tour", 2, 0), ("tour", 3, 0), ("tour", 5, 12345), ("tour", 6, 4), ("tour", 12, 1),
]


def generated(kind, size, seed):
    """A case of `gen`, with one worker and with more: three lines, which are always the same."""
    run = f"gen {kind} {size} {seed}"
    return (run, [], [(words(run + more), printed(kind, size, seed), 0) for more in ("", " --workers 8", " --workers=1")])


GEN_RUNS = [
    ("the best of a path of two nodes", [], [(words("gen path 2 0"), told("gen path 2 0", "ground 2", "verdict optimal 95"), 0)]),
    ("the best of a tour of two towns", [], [(words("gen tour 2 0"), told("gen tour 2 0", "ground 3", "verdict optimal 167"), 0)]),
    ("numbers with zeros in front", [], [(words("gen path 02 00 --workers 08"), printed("path", 2, 0), 0)]),
    *(generated(*model) for model in GENERATED),
    ("a long path once more", [], [(words("gen path 1000 1 --workers 8"), printed("path", 1000, 1), 0)]),
]

# ---- the climb with one mistake


def with_line(number, text):
    """The climb with this text in place of the line of that number, or behind its last line."""
    lines = CLIMB.split("\n")
    lines[number - 1] = text
    return "\n".join(lines) + ("" if lines[-1] == "" else "\n")


def nested(levels):
    return with_line(8, "      - " + levels * "(not " + "true" + levels * ")")


# What is wrong, the domain, and the refusal.
WRONG_CLIMBS = [
    ("a tab before an item", with_line(3, "\t- name: x"), "domain:3:1 11 TabIndent"),
    ("a key twice", "domain: a\ndomain: a\n", "domain:2:1 15 TwiceKey"),
    ("a continuous variable", with_line(4, "    type: continuous"), "domain:4:11 34 Continuous"),
    ("an unknown name", with_line(8, "      - (< y 3)"), "domain:8:9+3 30 UnknownName"),
    ("a quote without an end", 'domain: "a\n', "domain:1:9 13 BadQuote"),
    ("an anchor", "domain: &n a\n", "domain:1:9 17 OutOfProfile"),
    ("a pair in a list", "domain: [ a, b: c ]\n", "domain:1:14 17 OutOfProfile"),
    ("65 lists in one another", 65 * "[" + "\n", "domain:1:65 16 TooDeep"),
    ("a byte that is no text", "dom\udcff\n", "domain:1:4 10 NotUtf8"),
    ("a domain of one key", "domain: a\n", "domain:1:1 40 MissingKey"),
    ("an unknown key", with_line(20, "solver: x"), "domain:20:1 41 UnknownKey"),
    ("another operator", with_line(17, "    cost: (max cost 5)"), "domain:17:11 46 MixedCost"),
    ("an operator that no cost has", with_line(11, "    cost: (* cost 2)"), "domain:11:11+0 47 CostForm"),
    ("a number out of range", with_line(10, "      x: (+ x 4611686018427387904)"), "domain:10:10+5 42 BadNumber"),
    ("a bracket without an end", with_line(10, "      x: (+ x 1"), "domain:10:10+0 21 Unbalanced"),
    ("a number with a point", with_line(8, "      - (< x 2.5)"), "domain:8:9+5 34 Continuous"),
    ("201 forms in one another", nested(200), "domain:8:9+1000 24 TooNested"),
    (
        "1,025 variables",
        CLIMB.replace("  - name: x\n    type: integer\n", "".join(f"  - {{ name: x{i}, type: integer }}\n" for i in range(1025))),
        "domain:3:3 49 TooMany",
    ),
]

WRONG_CLIMB_RUNS = [
    *((f"a climb: {what}", [("domain", text), ("problem", problem("a", "x", 0))], [(OFF, f"refused {refusal}\n", 3)]) for what, text, refusal in WRONG_CLIMBS),
    # True 199 times denied is false: there is no step but the jump.
    (
        "a climb: 200 forms in one another",
        [("domain", nested(199))],
        [(OFF, told("solution 5 1", "jump", "pass 1 share 1 visited 1 dropped 0", "verdict optimal 5"), 0)],
    ),
    (
        "a climb: a problem without an end",
        [("domain", CLIMB), ("problem", "domain: a\nproblem: one\ntarget: { x: 0\n")],
        [(OFF, "refused problem:3:15 14 Unread\n", 3)],
    ),
    (
        "a climb: a target of one variable too many",
        [("problem", "domain: a\nproblem: one\ntarget: { x: 0, y: 1 }\n")],
        [(OFF, "refused problem:3:17 45 BadTarget\n", 3)],
    ),
]

# ---- conditions over lines, and tables as lists

# The climb whose first condition stands over two lines below a header.
def over_lines(header, condition="(< x"):
    return with_line(8, f"      - {header}\n        {condition}\n        3)")


def path_of_two(b):
    return f"domain: path\nproblem: two\nobject_numbers: {{ node: 2 }}\ntarget: {{ at: 0 }}\ntable_values:\n  n: 2\n  a: [ 72, 87 ]\n  b: {b}\n"


PROFILE_RUNS = [
    ("a condition over two lines", [("domain", over_lines(">-")), ("problem", problem("a", "x", 0))], [(OFF, JUMP_OUT, 0)]),
    ("the same with line breaks", [("domain", over_lines("| # kept"))], [(OFF, JUMP_OUT, 0)]),
    ("an unknown name on its first line", [("domain", over_lines(">-", "(< y"))], [(OFF, "refused domain:8:9+3 30 UnknownName\n", 3)]),
    ("an unknown name on its second line", [("domain", over_lines("|", "(<").replace("        3)", "        y 3)"))], [(OFF, "refused domain:8:9+3 30 UnknownName\n", 3)]),
    ("a number behind the header", [("domain", over_lines("|2"))], [(OFF, "refused domain:8:9 17 OutOfProfile\n", 3)]),
    ("a line that stands less deep", [("domain", over_lines("|").replace("        3)", "       3)"))], [(OFF, "refused domain:10:8 14 Unread\n", 3)]),
    (
        "tables as lists",
        [("domain", DOMAINS["path"]), ("problem", path_of_two("[ 95, 38 ]"))],
        [(OFF, told("solution 95 1", "two", "pass 1 share 1 visited 2 dropped 0", "verdict optimal 95"), 0)],
    ),
    ("a list without its last cell", [("problem", path_of_two("[ 95 ]"))], [(OFF, told("solution 95 1", "two", "pass 1 share 1 visited 2 dropped 0", "verdict optimal 95"), 0)]),
    ("one cell too many", [("problem", path_of_two("[ 95, 38, 1 ]"))], [(OFF, "refused problem:8:16 44 BadIndex\n", 3)]),
    ("a list for a cell", [("problem", path_of_two("[ [ 95 ], 38 ]"))], [(OFF, "refused problem:8:8 50 WrongShape\n", 3)]),
]

RUNS = [
    (
        "words without a meaning",
        [("domain", STAIRS), ("problem", FROM_TWO)],
        [(words(text), USAGE, 2) for text in WITHOUT_MEANING],
    ),
    (
        "files that are not there",
        [],
        [
            (words("solve b p --prune off"), "read fault domain\n", 4),
            (words("solve d b --prune off"), "read fault problem\n", 4),
            (words("solve  p --prune off"), "read fault domain\n", 4),
            (words("replay d p b"), "read fault list\n", 4),
            (words("replay d b b"), "read fault problem\n", 4),
            (words("show d b"), "read fault problem\n", 4),
        ],
    ),
    ("an empty domain", [("domain", "")], [(OFF, "refused domain:1:1 50 WrongShape\n", 3)]),
    ("an empty problem", [("domain", STAIRS), ("problem", "")], [(OFF, "refused problem:1:1 50 WrongShape\n", 3)]),
    ("a domain for a problem", [("problem", STAIRS)], [(OFF, "refused problem:2:1 41 UnknownKey\n", 3)]),
    (
        "the domain under the problem's name",
        [("domain", FROM_TWO), ("problem", STAIRS)],
        [(words("solve p d --prune off"), STAIRS_OUT, 0)],
    ),
    (
        "a climb or a jump",
        [("domain", CLIMB), ("problem", problem("a", "x", 0))],
        [
            (OFF, JUMP_OUT, 0),
            (ON, JUMP_OUT, 0),
            (words("solve --prune on d p"), JUMP_OUT, 0),
            # Each layer has one state, so nothing depends on how the workers take turns.
            (words("solve --workers 2 d p --prune off"), JUMP_OUT, 0),
            (words("solve d p --prune=off --workers=2"), JUMP_OUT, 0),
            (words("solve d p --workers 04"), JUMP_OUT, 0),
            (words("solve d p --workers 64"), JUMP_OUT, 0),
        ],
    ),
    (
        "budgets",
        [],
        [
            (with_budget("3"), JUMP_OUT, 0),
            (with_budget("2"), JUMP_STOPPED, 11),
            (with_budget("00000000000000000002"), JUMP_STOPPED, 11),
            (with_budget("1000000001"), JUMP_OUT, 0),
            (with_budget("1099511627776"), JUMP_OUT, 0),
            (words("solve d p --budget 3"), JUMP_OUT, 0),
            (words("solve d p --budget 2"), JUMP_STOPPED, 11),
            (words("solve --budget=5 d p --prune=off"), JUMP_OUT, 0),
            (words("solve --prune off d --workers 1 p"), JUMP_OUT, 0),
            *((with_budget(budget), USAGE, 2) for budget in ("0", "1099511627777", "000000000000000000002", "+2", "")),
        ],
    ),
    ("a target that is a base state", [("problem", problem("a", "x", 3))], [(run, "solution 0 0\nverdict optimal 0\n", 0) for run in (OFF, ON)]),
    ("no way", [("domain", STUCK), ("problem", problem("a", "x", 0))], [(run, STUCK_OUT, 10) for run in (OFF, ON)]),
    *LISTS,
    (
        "two ways",
        [("domain", TWO_WAYS), ("problem", problem("b", "a", 0))],
        [
            (OFF, TWO_WAYS_OUT, 0),
            (ON, TWO_WAYS_OUT, 0),
            # The states 1 and 2 belong to different workers, so each keeps one of them.
            (words("solve d p --workers 2"), "solution 3 2\nq\nd\npass 1 share 1 visited 3 dropped 0\nverdict optimal 3\n", 0),
        ],
    ),
    *RULES,
    (
        "the climb or the jump in flow maps",
        [("domain", CLIMB_IN_FLOW), ("problem", CLIMB_FROM_IN_FLOW)],
        [(OFF, JUMP_OUT, 0), (with_budget("2"), JUMP_STOPPED, 11)],
    ),
    ("the climb or the jump in quotes", [("domain", CLIMB_IN_QUOTES)], [(OFF, JUMP_OUT, 0), (with_budget("2"), JUMP_STOPPED, 11)]),
    *WRONG_CLIMB_RUNS,
    *PROFILE_RUNS,
    *GEN_RUNS,
    *ENGINES,
]


# ---- what is refused, and which of two refusals is given

# One step for each member of `o`, while x is below 3.
GO = """\
domain: a
objects: [ o ]
state_variables:
  - { name: x, type: integer }
  - { name: e, type: element, object: o }
transitions:
  - name: go
    parameters: [ { name: p, object: o } ]
    preconditions: [ (< x 3) ]
    effects: { x: (+ x 1) }
    cost: (+ cost 2)
base_cases:
  - [ (= x 3) ]
"""

GO_FROM = """\
domain: a
problem: one
object_numbers: { o: 2 }
target: { x: 0, e: 0 }
"""

COST = "    cost: (+ cost 2)\n"
BASE_CASES = "base_cases:\n  - [ (= x 3) ]\n"
TWO_PARAMETERS = ("{ name: p, object: o }", "{ name: p, object: o }, { name: q, object: o }")
TABLE = ("state_variables:", "tables: [ { name: t, type: integer, args: [ o ] } ]\nstate_variables:")
MIXED = COST + "  - { name: up, cost: (max cost 1), effects: { x: (+ x 1) } }\n"
TWO_NAMES = ("transitions:", "constraints: [ (< y 3) ]\ntransitions:")


def changed(text, *parts):
    for old, new in parts:
        assert text.count(old) == 1, (text, old)
        text = text.replace(old, new)
    return text


def values(text):
    return ("target:", f"table_values: {text}\ntarget:")


# What is changed in the domain and in the problem, and the refusal.
REFUSED = [
    ("a quote before the problem's tab", [("domain: a", "domain: 'a")], [("target", "\ttarget")], "domain:1:9 13 BadQuote"),
    ("a tab before an earlier quote", [("domain: a", "domain: 'a"), ("  - [", "\t- [")], [], "domain:13:1 11 TabIndent"),
    ("no character before an earlier quote", [("domain: a", "domain: 'a"), ("(= x 3) ]\n", "(= x 3) ]\n# \udcff\n")], [], "domain:14:3 10 NotUtf8"),
    ("64 lists inside a map", [("domain: a", "domain: " + 64 * "[" + 64 * "]")], [], "domain:1:72 16 TooDeep"),
    ("the problem's text before the domain's base cases", [(BASE_CASES, "")], [(" }\ntarget: { x: 0, e: 0 }", " }\ntarget: { x: 0, e: 0")], "problem:4:21 14 Unread"),
    ("an unknown key before a missing one", [("state_variables", "state_variable")], [], "domain:3:1 41 UnknownKey"),
    ("base states", [("base_cases", "base_states")], [], "domain:12:1 52 LeftOut"),
    ("no target before the type of costs", [("objects", "cost_type: continuous\nobjects")], [("target: { x: 0, e: 0 }\n", "")], "problem:1:1 40 MissingKey"),
    ("the type of costs before what is better", [("objects", "cost_type: continuous\nreduce: least\nobjects")], [], "domain:2:12 34 Continuous"),
    ("what is better in the domain first", [("objects", "reduce: least\nobjects")], [("problem", "reduce: sum\nproblem")], "domain:2:9 50 WrongShape"),
    ("the sum over all lists", [], [("problem", "reduce: sum\nproblem")], "problem:2:9 52 LeftOut"),
    ("an object type twice before a variable's name", [("[ o ]", "[ o, o ]"), ("{ name: x,", "{ name: 1x,")], [], "domain:2:15 43 TwiceName"),
    ("the number of an unknown object type before a missing one", [], [("{ o: 2 }", "{ q: 2 }")], "problem:3:19 30 UnknownName"),
    ("no numbers", [], [("object_numbers: { o: 2 }\n", "")], "problem:1:1 40 MissingKey"),
    ("4,097 members", [], [("o: 2", "o: 4097")], "problem:3:22 49 TooMany"),
    ("a variable's name before its type", [("{ name: x, type: integer }", "{ name: x y, type: whole }")], [], "domain:4:13 51 BadName"),
    ("no object type of an element", [("element, object: o", "element")], [], "domain:5:5 40 MissingKey"),
    ("a cell twice before its value", [TABLE], [values("{ t: { 0: 1, [0]: x } }")], "problem:4:28 43 TwiceName"),
    ("an index before the cell", [TABLE], [values("{ t: { 2: x } }")], "problem:4:22 44 BadIndex"),
    ("an unknown variable before a missing one", [], [("{ x: 0, e: 0 }", "{ y: 0 }")], "problem:4:11 45 BadTarget"),
    ("a missing variable", [], [("{ x: 0, e: 0 }", "{ x: 0 }")], "problem:4:9 45 BadTarget"),
    ("a negative element", [], [("e: 0", "e: -1")], "problem:4:20 42 BadNumber"),
    ("a parameter with the name of an object type", [("{ name: p,", "{ name: o,")], [], "domain:8:27 43 TwiceName"),
    ("preconditions before effects", [("(< x 3)", "(< y 3)"), ("{ x: (", "{ z: (")], [], "domain:9:22+3 30 UnknownName"),
    ("201 forms", [("(< x 3)", 200 * "(not " + "(= x 3)" + 200 * ")")], [], "domain:9:22+1000 24 TooNested"),
    ("backward", [(COST, COST + "    direction: backward\n")], [], "domain:12:16 52 LeftOut"),
    ("two operators of costs before a constraint", [(COST, MIXED), TWO_NAMES], [], "domain:13:23 46 MixedCost"),
    ("a later name before two operators", [(COST, MIXED + "  - { name: ' up' }\n")], [], "domain:13:13 51 BadName"),
    ("no base case before too many ground transitions", [TWO_PARAMETERS, (BASE_CASES, "")], [("o: 2", "o: 300")], "domain:1:1 48 NoBase"),
    ("90,000 ground transitions", [TWO_PARAMETERS], [("o: 2", "o: 300")], "domain:7:5 35 TooMany"),
    ("too many ground transitions before two equal steps", [TWO_PARAMETERS, (COST, COST + "  - { name: go 0 0 }\n")], [("o: 2", "o: 300")], "domain:7:5 35 TooMany"),
    ("two equal steps", [(COST, COST + "  - { name: go 1 }\n")], [], "domain:12:5 43 TwiceName"),
]

STATE_VARIABLES = """\
state_variables:
  - { name: x, type: integer }
  - { name: e, type: element, object: o }
"""
X = "{ name: x, type: integer }"


def table(text):
    return ("state_variables:", f"tables: [ {text} ]\nstate_variables:")


def behind(text):
    """Lines behind the base case, the domain's last line."""
    return ("(= x 3) ]\n", f"(= x 3) ]\n{text}\n")


def behind_target(text):
    return ("target: { x: 0, e: 0 }\n", f"target: {{ x: 0, e: 0 }}\n{text}\n")


# The same, each with two refusals, and above it why the first is given.
FIRST_OF_TWO = [
    # In a map the keys that it must have are asked for before any value is read.
    ("a missing key before a bad name", [(X, "{ name: 1x }")], [], "domain:4:5 40 MissingKey"),
    # All keys of a map are tested before its values, also a key behind them.
    ("an unknown key before a bad name", [(X, "{ name: 1x, type: integer, kind: x }")], [], "domain:4:32 41 UnknownKey"),
    # Keys that are left out and unknown ones are told in the order of the text.
    ("a key that is left out before an unknown one", [("objects", "base_states: []\nzz: 1\nobjects")], [], "domain:2:1 52 LeftOut"),
    # The domain's keys are the first step and the problem's the second.
    ("the domain's missing key before the problem's unknown one", [(STATE_VARIABLES, "")], [("problem:", "problems:")], "domain:1:1 40 MissingKey"),
    # Numbers of members are read in the order of the text, so a limit may go before a later unknown name.
    ("too many members before an unknown object type", [], [("{ o: 2 }", "{ o: 4097, q: 2 }")], "problem:3:22 49 TooMany"),
    # The numbers of members are read before the variables, although they stand in the other file.
    ("a negative number of members before a variable's name", [(X, "{ name: 1x, type: integer }")], [("{ o: 2 }", "{ o: -1 }")], "problem:3:22 42 BadNumber"),
    # Values are read in the order of the key table, where `args` comes before `object`, and not in that of the text.
    ("a table's arguments before its object type", [table("{ name: t, type: set, object: q, args: [ z ] }")], [], "domain:3:52 30 UnknownName"),
    # Variables are read before tables, although the tables stand first here, so the table's name is the second; its type comes later.
    ("a table's name that a variable has before its type", [table("{ name: x, type: whole }")], [], "domain:3:19 43 TwiceName"),
    # Tables are filled in the order of the text: the cells of the first before the name of the second.
    ("a cell before a later table's name", [TABLE], [values("{ t: { 0: x }, u: 1 }")], "problem:4:25 42 BadNumber"),
    # Cells are read in the order of the text: an index that is too great before a later cell that is given twice.
    ("an index before a later cell that is given twice", [TABLE], [values("{ t: { 0: 1, 5: 2, [0]: 3 } }")], "problem:4:28 44 BadIndex"),
    # The target is read before the transitions.
    ("a target's value before a parameter's object type", [("object: o } ]\n", "object: q } ]\n")], [("{ x: 0,", "{ x: y,")], "problem:4:14 42 BadNumber"),
    # A transition's effects come before its cost.
    ("an effect's variable before the cost", [("{ x: (", "{ z: ("), (COST, "    cost: (* cost 2)\n")], [], "domain:10:16 30 UnknownName"),
    # A transition's cost comes before `forced`, although `forced` stands first here.
    ("a cost before an earlier truth value", [(COST, "    forced: perhaps\n    cost: (* cost 2)\n")], [], "domain:12:11+0 47 CostForm"),
    # An expression is read whole before it is typed: the `)` that closes nothing before the unknown name.
    ("a bracket before an earlier name", [("(< x 3)", "(< y 3))")], [], "domain:9:22+7 21 Unbalanced"),
    # The number of operands is tested before the operands.
    ("a wrong number of operands before an unknown name", [("(< x 3)", "(not y z)")], [], "domain:9:22+0 32 WrongCount"),
    # The variables of a `forall` are read before its condition, which may name them.
    ("a variable of forall before an earlier condition", [behind("constraints: [ { condition: (< y 3), forall: [ { name: x, object: o } ] } ]")], [], "domain:14:56 43 TwiceName"),
    # Constraints are read before base cases, although they stand behind them here.
    ("a constraint before an earlier base case", [("[ (= x 3) ]\n", "[ (= y 3) ]\nconstraints: [ (< y 3) ]\n")], [], "domain:14:16+3 30 UnknownName"),
    # The constraints of both files are read before the base cases of either.
    ("the problem's constraint before the domain's base case", [("(= x 3)", "(= y 3)")], [behind_target("constraints: [ (< y 3) ]")], "problem:5:16+3 30 UnknownName"),
    # Of one list in both files the domain's is read first.
    ("the domain's base case before the problem's", [("(= x 3)", "(= y 3)")], [behind_target("base_cases: [ [ (= z 3) ] ]")], "domain:13:7+3 30 UnknownName"),
    # Base cases are read before dual bounds, although they stand behind them here.
    ("a base case before an earlier dual bound", [("base_cases", "dual_bounds: [ y ]\nbase_cases"), ("(= x 3)", "(= y 3)")], [], "domain:14:7+3 30 UnknownName"),
]


def refused(title, domain, problem, refusal):
    """A case of both texts changed, and with the run's refusal."""
    texts = [("domain", changed(GO, *domain)), ("problem", changed(GO_FROM, *problem))]
    return (title, texts, [(OFF, f"refused {refusal}\n", 3)])


GONE = told("solution 6 3", "go 0", "go 0", "go 0", "pass 1 share 1 visited 3 dropped 0", "verdict optimal 6")
ORDERS = [
    ("nothing is refused", [("domain", GO), ("problem", GO_FROM)], [(OFF, GONE, 0)]),
    *(refused(*case) for case in REFUSED + FIRST_OF_TWO),
]
