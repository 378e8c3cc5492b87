#!/usr/bin/env python3
"""Writes the cases of the generated models: data/models.txt of cases_gen and its stdout. It shares nothing with the crate.

`printed` gives what `gen` must print, with the best cost by a table from the end; small_runs.py has cases of it."""
import pathlib

from asked import asked

CASES = [("path", 1, 0), ("path", 2, 0), ("path", 12, 2147483645), ("path", 3, 2147483646), ("path", 3, 18446744073709551615),
         ("pack", 1, 0), ("pack", 3, 0), ("pack", 11, 7), ("tour", 2, 0), ("tour", 3, 0), ("tour", 5, 12345), ("tour", 12, 1)]

DOMAINS = {"path": """domain: path
objects: [ node ]
state_variables:
  - { name: at, type: element, object: node }
tables:
  - { name: n, type: integer }
  - { name: a, type: integer, args: [ node ] }
  - { name: b, type: integer, args: [ node ] }
transitions:
  - name: one
    preconditions: [ (< at n) ]
    effects: { at: (+ at 1) }
    cost: (+ cost (a at))
  - name: two
    preconditions: [ (< (+ at 1) n) ]
    effects: { at: (+ at 2) }
    cost: (+ cost (b at))
base_cases:
  - [ (= at n) ]
""", "pack": """domain: pack
reduce: max
objects: [ item ]
state_variables:
  - { name: i, type: element, object: item }
  - { name: r, type: integer, preference: greater }
tables:
  - { name: n, type: integer }
  - { name: w, type: integer, args: [ item ] }
  - { name: p, type: integer, args: [ item ] }
  - { name: rest, type: integer, args: [ item ] }
transitions:
  - name: take
    preconditions: [ (< i n), (<= (w i) r) ]
    effects: { i: (+ i 1), r: (- r (w i)) }
    cost: (+ cost (p i))
  - name: leave
    preconditions: [ (< i n) ]
    effects: { i: (+ i 1) }
    cost: cost
base_cases:
  - [ (= i n) ]
dual_bounds:
  - (rest i)
""", "tour": """domain: tour
objects: [ town ]
state_variables:
  - { name: left, type: set, object: town }
  - { name: at, type: element, object: town }
tables:
  - { name: d, type: integer, args: [ town, town ] }
transitions:
  - name: go
    parameters: [ { name: to, object: left } ]
    effects: { left: (remove to left), at: to }
    cost: (+ cost (d at to))
  - name: home
    preconditions: [ (is_empty left), (!= at 0) ]
    effects: { at: 0 }
    cost: (+ cost (d at 0))
base_cases:
  - [ (is_empty left), (= at 0) ]
"""}


def draws(seed):
    x = seed % 2147483646 + 1
    while True:
        x = x * 48271 % 2147483647
        yield 1 + x % 100


def cells(numbers):
    return "{ " + ", ".join(f"{i}: {v}" for i, v in enumerate(numbers)) + " }"


def problem(kind, size, seed):
    draw = draws(seed)
    lines = [f"domain: {kind}", f"problem: {kind}-{size}-{seed}"]
    if kind == "tour":
        lines.append(f"object_numbers: {{ town: {size} }}")
        lines.append("target: { left: [ " + ", ".join(map(str, range(1, size))) + " ], at: 0 }")
        ways = [(i, j) for i in range(size) for j in range(size) if i != j]
        lines += ["table_values:", "  d: { " + ", ".join(f"[{i}, {j}]: {next(draw)}" for i, j in ways) + " }"]
        return "\n".join(lines) + "\n"
    first, second = zip(*[(next(draw), next(draw)) for _ in range(size)])
    if kind == "path":
        lines += [f"object_numbers: {{ node: {size} }}", "target: { at: 0 }", "table_values:", f"  n: {size}"]
        lines += ["  a: " + cells(first), "  b: " + cells(second)]
    else:
        rest = [sum(second[i:]) for i in range(size)]
        lines += [f"object_numbers: {{ item: {size} }}", f"target: {{ i: 0, r: {40 * size} }}", "table_values:", f"  n: {size}"]
        lines += ["  w: " + cells(first), "  p: " + cells(second), "  rest: " + cells(rest)]
    return "\n".join(lines) + "\n"


def best_of_path(draw, size):
    """Nodes from the last on: one step costs a, a step over the next node b."""
    costs = [(next(draw), next(draw)) for _ in range(size)]
    rest = [0]
    for a, b in reversed(costs):
        rest.insert(0, min(a + rest[0], b + rest[1]) if len(rest) > 1 else a + rest[0])
    return rest[0]


def best_of_pack(draw, size):
    """Items from the last on, for each room that may be left."""
    items = [(next(draw), next(draw)) for _ in range(size)]
    rest = [0] * (40 * size + 1)
    for weight, profit in reversed(items):
        rest = [max(worth, profit + rest[room - weight]) if weight <= room else worth for room, worth in enumerate(rest)]
    return rest[-1]


def best_of_tour(draw, size):
    """Sets of towns, as numbers in binary, from the empty one on: the least way from a town through all of them to town 0."""
    way = {(i, j): next(draw) for i in range(size) for j in range(size) if i != j}
    rest = {}
    for towns in range(0, 1 << size, 2):
        for at in range(size):
            further = [way[at, to] + rest[towns & ~(1 << to), to] for to in range(1, size) if towns >> to & 1 and to != at]
            rest[towns, at] = min(further) if further else way.get((at, 0), 0)
    return rest[(1 << size) - 2, 0]


def printed(kind, size, seed):
    """What `gen` prints of a model that is solved to the end."""
    best = {"path": best_of_path, "pack": best_of_pack, "tour": best_of_tour}[kind](draws(seed), size)
    ground = size + 1 if kind == "tour" else 2
    return f"gen {kind} {size} {seed}\nground {ground}\nverdict optimal {best}\n"


def main():
    crate = pathlib.Path(__file__).resolve().parents[2] / "crates" / "cases_gen"
    (crate / "data").mkdir(exist_ok=True)
    (crate / "data" / "models.txt").write_text("".join(f"{k} {n} {s}\n" for k, n, s in CASES))
    (crate / "stdout").write_text("".join(f"== {k} {n} {s}\n{DOMAINS[k]}--\n{problem(k, n, s)}" for k, n, s in CASES))


if __name__ == "__main__":
    asked(__doc__, 0, 0)
    main()
