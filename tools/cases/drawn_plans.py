"""Plans whose drawing `tools/plan` has to guess: a title, a domain, a problem, a list of steps, and lines that the drawing has."""

LATE = """domain: inspections
objects: [ city ]
state_variables:
  - { name: left, type: set, object: city }
  - { name: here, type: element, object: city }
  - { name: spent, type: integer, preference: less }
tables:
  - { name: legs, type: integer, args: [ city, city ] }
  - { name: stay, type: integer, args: [ city ] }
  - { name: due, type: integer, args: [ city ] }
transitions:
  - name: inspect
    parameters: [ { name: c, object: left } ]
    effects: { left: (remove c left), here: c, spent: (+ spent (legs here c) (stay c)) }
    cost: (+ cost (max 0 (- (+ spent (legs here c)) (due c))))
base_cases: [ [ (is_empty left) ] ]
"""
LATE_OF_FOUR = """object_numbers: { city: 4 }
target: { left: [ 1, 2, 3 ], here: 0, spent: 0 }
table_values:
  legs: [ [ 0, 5, 9, 4 ], [ 5, 0, 6, 3 ], [ 9, 6, 0, 8 ], [ 4, 3, 8, 0 ] ]
  stay: [ 0, 2, 2, 5 ]
  due: [ 0, 10, 12, 20 ]
"""
ROSTER = """domain: roster
objects: [ nurse, day ]
state_variables:
  - { name: number, type: element, object: day }
  - { name: rested, type: set, object: nurse }
  - { name: hours, type: integer }
tables: [ { name: days, type: integer }, { name: shift, type: integer, args: [ nurse ] } ]
transitions:
  - name: call
    parameters: [ { name: n, object: rested } ]
    preconditions: [ (< number days) ]
    effects: { number: (+ number 1), rested: (remove n rested), hours: (+ hours (shift n)) }
    cost: (+ cost (shift n))
base_cases: [ [ (= number days) ] ]
"""
ROSTER_OF_SIX = """object_numbers: { nurse: 8, day: 7 }
target: { number: 0, rested: [ 0, 1, 2, 3, 4, 5, 6, 7 ], hours: 0 }
table_values: { days: 6, shift: [ 7, 8, 7, 9, 6, 7, 8, 9 ] }
"""
CREWS = """domain: crews
objects: [ job ]
state_variables:
  - { name: next, type: element, object: job }
  - { name: load_0, type: integer }
  - { name: load_1, type: integer }
tables: [ { name: jobs, type: integer }, { name: hours, type: integer, args: [ job ] } ]
transitions:
  - { name: first, parameters: [ { name: j, object: job } ], preconditions: [ (= next j) ], effects: { next: (+ next 1), load_0: (+ load_0 (hours j)) }, cost: (max cost (+ load_0 (hours j))) }
  - { name: second, parameters: [ { name: j, object: job } ], preconditions: [ (= next j) ], effects: { next: (+ next 1), load_1: (+ load_1 (hours j)) }, cost: (max cost (+ load_1 (hours j))) }
base_cases: [ [ (= next jobs) ] ]
"""
CREWS_OF_FIVE = "object_numbers: { job: 5 }\ntarget: { next: 0, load_0: 0, load_1: 0 }\ntable_values: { jobs: 5, hours: [ 3, 4, 5, 6, 2 ] }\n"
OVENS = """domain: ovens
objects: [ cake ]
state_variables:
  - { name: left, type: set, object: cake }
  - { name: used, type: integer, preference: less }
tables: [ { name: takes, type: integer, args: [ cake ] }, { name: open, type: integer } ]
transitions:
  - { name: bake, parameters: [ { name: c, object: left } ], preconditions: [ (<= (+ used (takes c)) open) ], effects: { left: (remove c left), used: (+ used (takes c)) }, cost: cost }
  - { name: another, preconditions: [ (> used 0) ], effects: { used: 0 }, cost: (+ cost 1) }
base_cases: [ [ (is_empty left) ] ]
"""
OVENS_OF_FIVE = "object_numbers: { cake: 5 }\ntarget: { left: [ 0, 1, 2, 3, 4 ], used: 0 }\ntable_values: { takes: [ 3, 2, 2, 3, 4 ], open: 6 }\n"

PLANS = [
    ("a route where the clock grows by the way", LATE, LATE_OF_FOUR, "inspect 1\ninspect 2\ninspect 3\n",
     ["0 -> 1 -> 2 -> 3   19 by `legs`", "(guessed: the way between places is `legs`)"]),
    ("days that are counted beside hours that are added", ROSTER, ROSTER_OF_SIX, "call 4\ncall 0\ncall 2\ncall 5\ncall 1\ncall 6\n",
     ["      0      1      2      3      4      5      6  number", "(guessed: the clock is `number`)"]),
    ("loads side by side", CREWS, CREWS_OF_FIVE, "first 0\nsecond 1\nfirst 2\nsecond 3\nfirst 4\n",
     ["load_0  |--first 0--|------first 2------|first 4|", "load_1  |---second 1----|-------second 3--------|", "(guessed: a lane is each of `load_0`, `load_1`)"]),
    ("ovens that are filled anew", OVENS, OVENS_OF_FIVE, "bake 0\nbake 3\nanother\nbake 1\nbake 2\nanother\nbake 4\n",
     ["lane 2  |bake 1-|bake 2-|", "lane 3  |----bake 4-----|", "(guessed: a lane ends where `used` falls)"]),
]
