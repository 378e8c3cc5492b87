#!/usr/bin/env python3
"""Measures a built solver: python3 tools/speed.py PROGRAM [NAME..], or with the word growth or threads in place of names

Draws larger problems for the models in models/ (always the same ones), runs the program on them and on generated models with one
worker and with four, and prints for each run the visits, the seconds of the processor, visits in a second, the largest memory and
the verdict. A NAME picks the runs whose names begin so. With the word growth it runs four of them with budgets of 100,000, 1,000,000
and 10,000,000 visits, so that one sees whether time grows with the visits. With the word threads it runs models with wide layers with
one worker, two and four, and prints seconds by the clock, those of the processor, how much of the workers' time was spent asleep, how many times as fast as
one worker each is, and how many times as fast as one run so many runs of one worker are that begin at once, which is the most that this machine has
to give; it should have nothing else to do then. docs/SPEED.md has what was measured."""

import os
import random
import re
import subprocess
import sys
import tempfile
import time

TOP = os.path.join(os.path.dirname(os.path.abspath(__file__)), "..", "models")


def listed(numbers):
    """A table with one argument."""
    return "{ " + ", ".join(f"{i}: {n}" for i, n in enumerate(numbers)) + " }"


def squared(rows):
    """A table with two arguments."""
    return "{ " + ", ".join(f"[{i}, {j}]: {n}" for i, row in enumerate(rows) for j, n in enumerate(row)) + " }"


def members(numbers):
    return "[ " + ", ".join(str(n) for n in numbers) + " ]"


def tour(customers, width):
    """A tour with time windows: towns on a square, windows of that width around the times of one tour that was drawn."""
    draw = random.Random(customers)
    towns = [(draw.randrange(51), draw.randrange(51)) for _ in range(customers)]
    way = [[int(((a - c) ** 2 + (b - d) ** 2) ** 0.5) for c, d in towns] for a, b in towns]
    # ways through a third town are no shorter
    for k in range(customers):
        way = [[min(way[i][j], way[i][k] + way[k][j]) for j in range(customers)] for i in range(customers)]
    order = list(range(1, customers))
    draw.shuffle(order)
    ready, due, time, at = [0] * customers, [1000000] * customers, 0, 0
    for town in order:
        time, at = time + way[at][town], town
        ready[town] = max(0, time - draw.randrange(width // 2 + 1))
        due[town] = time + draw.randrange(width // 2 + 1)
    nearest = [min(way[i][j] for i in range(customers) if i != j) for j in range(customers)]
    return f"""domain: tsptw
problem: drawn
object_numbers: {{ customer: {customers} }}
target: {{ unvisited: {members(range(1, customers))}, location: 0, time: 0 }}
table_values:
  ready: {listed(ready)}
  due: {listed(due)}
  min_to: {listed(nearest)}
  distance: {squared(way)}
"""


def tardiness(jobs):
    draw = random.Random(jobs)
    length = [draw.randrange(1, 30) for _ in range(jobs)]
    due = [draw.randrange(sum(length) * 2 // 3) for _ in range(jobs)]
    weight = [draw.randrange(1, 10) for _ in range(jobs)]
    least = [w * max(0, n - d) for n, d, w in zip(length, due, weight)]
    return f"""domain: tardiness
problem: drawn
object_numbers: {{ job: {jobs} }}
target: {{ left: {members(range(jobs))} }}
table_values:
  all_of_it: {sum(length)}
  length: {listed(length)}
  due: {listed(due)}
  weight: {listed(weight)}
  at_least: {listed(least)}
"""


def knapsack(kinds, room):
    draw = random.Random(kinds)
    size = [draw.randrange(20, 200) for _ in range(kinds)]
    value = [3 * n + draw.randrange(40) for n in size]
    # no kind from this one on brings more for a unit
    rate = [max([1] + [-(-v // n) for v, n in list(zip(value, size))[k:]]) for k in range(kinds)]
    return f"""domain: knapsack
problem: drawn
object_numbers: {{ kind: {kinds} }}
target: {{ at: 0, room: {room} }}
table_values:
  kinds: {kinds}
  rent: 1
  size: {listed(size)}
  value: {listed(value)}
  rate: {listed(rate)}
"""


def bins(items):
    draw = random.Random(items)
    size = [draw.randrange(20, 70) for _ in range(items)]
    return f"""domain: bin_packing
problem: drawn
object_numbers: {{ item: {items} }}
target: {{ left: {members(range(items))}, room: 0 }}
table_values:
  capacity: 100
  size: {listed(size)}
"""


def talent(scenes, actors):
    draw = random.Random(scenes)
    cast = [[a for a in range(actors) if draw.random() < 0.35] for _ in range(scenes)]
    days = [draw.randrange(1, 4) for _ in range(scenes)]
    pay = [draw.randrange(1, 21) for _ in range(actors)]
    least = [days[s] * sum(pay[a] for a in cast[s]) for s in range(scenes)]
    return f"""domain: talent
problem: drawn
object_numbers: {{ scene: {scenes}, actor: {actors} }}
target: {{ left: {members(range(scenes))}, here: [] }}
table_values:
  days: {listed(days)}
  pay: {listed(pay)}
  cast: {listed(map(members, cast))}
  scenes: {listed(members(s for s in range(scenes) if a in cast[s]) for a in range(actors))}
  least: {listed(least)}
"""


def clearing(rooms):
    draw = random.Random(rooms)
    guards = [[0] * rooms for _ in range(rooms)]
    for i in range(rooms):
        for j in range(i):
            if draw.random() < 0.3:
                guards[i][j] = guards[j][i] = draw.randrange(1, 10)
    return f"""domain: graph_clearing
problem: drawn
object_numbers: {{ room: {rooms} }}
target: {{ dirty: {members(range(rooms))} }}
table_values:
  all: {members(range(rooms))}
  sweepers: {listed([draw.randrange(1, 10) for _ in range(rooms)])}
  guards: {squared(guards)}
"""


def open_stacks(customers):
    """Customers who want about three products each, of as many products as there are customers."""
    draw = random.Random(customers)
    wants = [{draw.randrange(customers), *(p for p in range(customers) if draw.random() < 2 / customers)} for _ in range(customers)]
    near = [[k for k in range(customers) if wants[k] & wants[c]] for c in range(customers)]
    return f"""domain: open_stacks
problem: drawn
object_numbers: {{ customer: {customers} }}
target: {{ left: {members(range(customers))}, begun: [ ] }}
table_values:
  near: {listed(map(members, near))}
"""


def domain(folder, file="domain.yaml"):
    return os.path.join(TOP, folder, file)


TOURS = domain("tour", "time_windows.yaml")
# name, domain, problem, further words
DRAWN = [
    ("tour of 15", TOURS, tour(15, 600), []),
    ("tour of 15, bounds off", TOURS, tour(15, 600), ["--prune", "off", "--budget", "1000000"]),
    ("tour of 20", TOURS, tour(20, 600), []),
    ("tardiness of 16", domain("tardiness"), tardiness(16), []),
    ("knapsack of 200", domain("knapsack"), knapsack(200, 4000), ["--budget", "1000000"]),
    ("bins of 24", domain("bin_packing"), bins(24), []),
]
# Those that do not end before they have spent such budgets.
GROWN = [
    ("tour of 24, wide windows, bounds off", TOURS, tour(24, 2000), ["--prune", "off"]),
    ("knapsack of 200", domain("knapsack"), knapsack(200, 4000), []),
    ("knapsack, bounds off", domain("knapsack"), knapsack(200, 4000), ["--prune", "off"]),
    ("bins of 40", domain("bin_packing"), bins(40), []),
]
BUDGETS = ["100000", "1000000", "10000000"]
# Those whose layers are wide.
OFF = ["--prune", "off", "--budget", "400000"]
WIDE = [
    ("talent of 18, bounds off", domain("talent"), talent(18, 8), OFF),
    ("tour of 24, bounds off", TOURS, tour(24, 2000), OFF),
    ("clearing of 18, bounds off", domain("graph_clearing"), clearing(18), OFF),
    ("talent of 16", domain("talent"), talent(16, 8), []),
    ("tour of 15, wide windows", TOURS, tour(15, 1000), []),
    ("bins of 24", domain("bin_packing"), bins(24), []),
]
GENERATED = ["gen path 1000 1", "gen pack 200 1", "gen tour 12 1"]
# A child counts the memory of this program, which it has before it starts.
OWN_MEMORY = 16


def measured(program, words):
    """The visits, seconds of the processor and by the clock, megabytes and last line of a run."""
    with tempfile.TemporaryFile() as out:
        start = time.monotonic()
        run = subprocess.Popen([program, *words], stdout=out)
        _, _, used = os.wait4(run.pid, 0)
        wall = time.monotonic() - start
        out.seek(0)
        text = out.read().decode()
    visits = sum(int(n) for n in re.findall(r"^(?:pass \d+ share \d+|search) visited (\d+)", text, re.M))
    last = text.strip().split("\n")[-1]
    return visits, used.ru_utime + used.ru_stime, wall, used.ru_maxrss // 1024, last


def print_run(program, name, words):
    visits, seconds, _, memory, last = measured(program, words)
    rate = f"{visits / max(seconds, 0.01) / 1000:6.0f} k/s" if visits else " " * 10
    room = f"{memory:5} MB" if memory > OWN_MEMORY else f"under {OWN_MEMORY}"
    print(f"{name:26} {visits or '':9} {seconds:7.2f} s {rate} {room}  {last}", flush=True)


def print_growth(program, path):
    for name, file, problem, more in GROWN:
        with open(path, "w", encoding="utf-8") as it:
            it.write(problem)
        for budget in BUDGETS:
            print_run(program, name, ["solve", file, path, "--budget", budget, *more])


def seconds_beside(program, words, count):
    """Seconds by the clock until so many runs that begin at once have all ended."""
    start = time.monotonic()
    runs = [subprocess.Popen([program, *words], stdout=subprocess.DEVNULL) for _ in range(count)]
    for run in runs:
        run.wait()
    return time.monotonic() - start


def print_threads(program, path):
    """The least seconds by the clock of three runs for each number of workers, how much of the workers' time was spent asleep, and how many
    times as fast the machine makes so many runs with one worker each."""
    for name, file, problem, more in WIDE:
        with open(path, "w", encoding="utf-8") as it:
            it.write(problem)
        alone = None
        for workers in (1, 2, 4):
            words = ["solve", file, path, *more, "--workers"]
            visits, seconds, wall, _, last = min((measured(program, [*words, str(workers)]) for _ in range(3)), key=lambda run: run[2])
            alone = alone or wall
            asleep = max(0, 1 - seconds / (workers * wall))
            most = workers * alone / min(seconds_beside(program, [*words, "1"], workers) for _ in range(3))
            times = f"{wall:7.2f} s {seconds:7.2f} s of the processor, {asleep:4.0%} asleep, {alone / wall:5.2f} times (apart {most:4.2f})"
            print(f"{name:26} {workers} workers {visits:9} {times}  {last}", flush=True)


def program_asked():
    """The program among the words; an end with one line and status 2 where there is none."""
    if sys.argv[1:2] in (["--help"], ["-h"]):
        print(__doc__)
        sys.exit(0)
    if len(sys.argv) < 2 or not (os.path.isfile(sys.argv[1]) and os.access(sys.argv[1], os.X_OK)):
        print("speed.py: a program that can be run is wanted as the first word (--help tells more)", file=sys.stderr)
        sys.exit(2)
    return os.path.abspath(sys.argv[1])


def main():
    program, picked = program_asked(), tuple(sys.argv[2:]) or ("",)
    with tempfile.TemporaryDirectory() as room:
        path = os.path.join(room, "problem.yaml")
        if picked == ("growth",):
            return print_growth(program, path)
        if picked == ("threads",):
            return print_threads(program, path)
        for workers in ("1", "4"):
            for name, file, problem, more in DRAWN:
                if name.startswith(picked):
                    with open(path, "w", encoding="utf-8") as it:
                        it.write(problem)
                    print_run(program, f"{name}, {workers}", ["solve", file, path, "--workers", workers, *more])
            for name in GENERATED:
                if name.startswith(picked):
                    print_run(program, f"{name}, {workers}", [*name.split(), "--workers", workers])


if __name__ == "__main__":
    main()
