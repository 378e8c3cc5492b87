"""Searches and checks on which time has grown by the square of the work: their texts, for each amount of work. `tools/worst` measures them.

Each is honest, and small models of it have the answers that are worked out here."""

from collections import namedtuple

# The work that it begins with, the texts for an amount of work, the words of the run, and how its last line begins.
Shape = namedtuple("Shape", "work texts words answer")

# From each of the places one may jump into the hub.
HUB = """domain: hub
state_variables: [ { name: place, type: integer }, { name: in_hub, type: integer } ]
tables: [ { name: n, type: integer } ]
transitions:
  - { name: next, preconditions: [ (= in_hub 0), (< place n) ], effects: { place: (+ place 1) }, cost: (+ cost NEXT) }
  - { name: jump, preconditions: [ (= in_hub 0) ], effects: { place: 0, in_hub: 1 }, cost: (+ cost JUMP) }
  - { name: leave, preconditions: [ (= in_hub 1) ], effects: { in_hub: 2 }, cost: (+ cost 1) }
base_cases: [ [ (= in_hub 2) ] ]
"""
HUB_TARGET = "place: 0, in_hub: 0"

# Twice between two places betters the cost by one; no list comes to its end.
ROUND = """domain: round
state_variables: [ { name: place, type: integer }, { name: key, type: integer } ]
transitions:
  - { name: go, preconditions: [ (= place 0) ], effects: { place: 1 }, cost: (+ cost 1) }
  - { name: back, preconditions: [ (= place 1) ], effects: { place: 0 }, cost: (+ cost -2) }
  - { name: leave, preconditions: [ (= place 1), (= key 1) ], effects: { place: 2 }, cost: (+ cost 1) }
base_cases: [ [ (= place 2) ] ]
"""

# Steps of one or two; a table of sets that all have each member stands by.
SETS = """domain: sets
objects: [ o, cell ]
state_variables: [ { name: x, type: integer } ]
tables: [ { name: t, type: set, object: o, args: [ cell ], default: [ ALL ] } ]
transitions:
  - { name: one, preconditions: [ (< x 40) ], effects: { x: (+ x 1) }, cost: (+ cost 2) }
  - { name: two, preconditions: [ (< x 39) ], effects: { x: (+ x 2) }, cost: (+ cost 3) }
base_cases: [ [ (= x 40) ] ]
"""

# Each step doubles w, up to n. High steps add it to the cost, so that one state comes at each cost below n; or to two resources, of which one is better
# where the other is worse.
FALLING = """domain: falling
state_variables: [ { name: w, type: integer }, { name: done, type: integer } ]
tables: [ { name: n, type: integer } ]
transitions:
  - { name: low, preconditions: [ (< w n), (= done 0) ], effects: { w: (* w 2) } }
  - { name: high, preconditions: [ (< w n), (= done 0) ], effects: { w: (* w 2) }, cost: (+ cost w) }
  - { name: leave, preconditions: [ (>= w n), (= done 0) ], effects: { done: 1 }, cost: (+ cost 1) }
base_cases: [ [ (= done 1) ] ]
"""
RESOURCES = """domain: resources
state_variables:
  - { name: w, type: integer }
  - { name: done, type: integer }
  - { name: fuel, type: integer, preference: greater }
  - { name: hour, type: integer, preference: less }
tables: [ { name: n, type: integer } ]
transitions:
  - { name: low, preconditions: [ (< w n), (= done 0) ], effects: { w: (* w 2) } }
  - { name: high, preconditions: [ (< (+ hour w) n), (= done 0) ], effects: { w: (* w 2), fuel: (+ fuel w), hour: (+ hour w) } }
  - { name: leave, preconditions: [ (>= w n), (= done 0) ], effects: { done: 1 }, cost: (+ cost 1) }
base_cases: [ [ (= done 1) ] ]
"""

# A chain: each layer has one state.
CHAIN = """domain: chain
state_variables: [ { name: x, type: integer } ]
tables: [ { name: n, type: integer } ]
transitions: [ { name: next, preconditions: [ (< x n) ], effects: { x: (+ x 1) }, cost: (+ cost 1) } ]
base_cases: [ [ (= x n) ] ]
"""

# Five steps of one of many kinds each, of which the cheapest is the best; states differ wherever lists do.
WIDE = """domain: wide
objects: [ o ]
state_variables: [ { name: k, type: integer }, { name: total, type: integer } ]
tables: [ { name: weight, type: integer, args: [ o ] }, { name: least, type: integer } ]
transitions:
  - { name: go, parameters: [ { name: p, object: o } ], preconditions: [ (< k 5) ], effects: { k: (+ k 1), total: (+ total (* (+ p 1) (+ k 7))) }, cost: (+ cost (weight p)) }
base_cases: [ [ (= k 5) ] ]
dual_bounds: [ (* least (- 5 k)) ]
"""


def problem(domain, target, **parts):
    """The problem of a domain: its target, and other keys with their maps."""
    return domain, domain.split("\n", 1)[0] + f"\nproblem: p\ntarget: {{ {target} }}\n" + "".join(f"{key}: {{ {value} }}\n" for key, value in parts.items())


def hub(next_, jump):
    return lambda n: (*problem(HUB.replace("NEXT", next_).replace("JUMP", jump), HUB_TARGET, table_values=f"n: {n}"), "")


def rounds(_):
    return *problem(ROUND, "place: 0, key: 0"), ""


def sets(n):
    """256 sets of n members each."""
    return *problem(SETS.replace("ALL", ", ".join(map(str, range(n)))), "x: 0", object_numbers=f"o: {n}, cell: 256"), ""


def falling(n):
    return *problem(FALLING, "w: 1, done: 0", table_values=f"n: {n}"), certificate("off", n)


def resources(n):
    return *problem(RESOURCES, "w: 1, done: 0, fuel: 0, hour: 0", table_values=f"n: {n}"), certificate("on", n)


def chain(n):
    return *problem(CHAIN, "x: 0", table_values=f"n: {n}"), ""


def wide(n):
    weights = ", ".join(f"{k}: {1000 + 10 * (n - k)}" for k in range(n))
    return *problem(WIDE, "k: 0, total: 0", object_numbers=f"o: {n}", table_values=f"least: 1010, weight: {{ {weights} }}"), ""


def certificate(prune, n):
    """A node for each sum of steps below n, the greatest first: behind k steps those below 2 to the k."""
    depth = (n - 1).bit_length()
    plan = depth * "low\n" + "leave\n"
    lines = [f"certificate 1\nkeep layer\nprune {prune}\nclaim optimal 1\nsteps {depth + 1}\n{plan}layer 0 1\nnode - open\n"]
    for k in range(1, depth + 1):
        count, before = min(n, 1 << k), 1 << k - 1
        lines.append(f"layer {k} {count}\n")
        lines += (f"node {before - 1 - number % before} open {'high' if number >= before else 'low'}\n" for number in range(count - 1, -1, -1))
    return "".join(lines) + f"end {depth + 1}\n"


def optimal(cost_of):
    return lambda n: f"verdict optimal {cost_of(n)} "


def of(answer):
    return lambda n: answer


SHAPES = {
    "hub, best": Shape(6000, hub("1", "(- (* 2 n) (* 2 place))"), "solve d p --engine best", optimal(lambda n: n + 1)),
    "hub, keep all": Shape(6000, hub("1", "(- (* 2 n) (* 2 place))"), "solve d p --keep all", optimal(lambda n: n + 1)),
    "hub, re-opened, best": Shape(6000, hub("0", "(- 0 place)"), "solve d p --engine best", optimal(lambda n: 1 - n)),
    "hub, re-opened, keep all": Shape(6000, hub("0", "(- 0 place)"), "solve d p --keep all", optimal(lambda n: 1 - n)),
    "round, best": Shape(6000, rounds, "solve d p --engine best --prune off --budget N", of("verdict stopped ")),
    "round, keep all": Shape(6000, rounds, "solve d p --keep all --prune off --budget N", of("verdict stopped ")),
    "set tables": Shape(400, sets, "solve d p", optimal(lambda n: 60)),
    "set tables, 64 workers": Shape(400, sets, "solve d p --workers 64", optimal(lambda n: 60)),
    "falling costs": Shape(6400, falling, "solve d p", optimal(lambda n: 1)),
    "falling costs, check": Shape(6400, falling, "check d p l", of("verdict certified optimal 1 ")),
    "two resources": Shape(1600, resources, "solve d p", optimal(lambda n: 1)),
    "two resources, best": Shape(1600, resources, "solve d p --engine best", optimal(lambda n: 1)),
    "two resources, check": Shape(1600, resources, "check d p l", of("verdict certified optimal 1 ")),
    "chain, 64 workers": Shape(100, chain, "solve d p --workers 64", optimal(lambda n: n)),
    "many successors, best": Shape(40, wide, "solve d p --engine best", optimal(lambda n: 5050)),
}
