"""Instances of packing: bins, knapsacks with any number of each kind, knapsacks with many constraints."""

from .instances import listed, members


def bin_packing(it, name):
    if it.is_table:
        words, capacity = it.column("size"), it.option("capacity") * it.scale
        sizes = [it.exact(word) for word in words]
    else:
        count, capacity = it.next(least=1, most=4096), it.next(True)
        words = it.words[it.at : it.at + count]
        sizes = it.row(count, True)
        it.end()
    count = len(sizes)
    for word, size in zip(words, sizes):
        if size > capacity:
            it.wrong(f"an item of size {word} fits into no bin", word)
    return f"""domain: bin_packing
problem: {name}
object_numbers: {{ item: {count} }}
target: {{ left: {members(range(count))}, room: 0 }}
table_values:
  capacity: {capacity}
  size: {listed(sizes)}
"""


def kinds_of(it):
    """The size and the value of each kind, and the room."""
    heads = {row[0].rstrip(":"): row[1] for row in it.rows if len(row) == 2 and row[0] in ("n:", "c:")}
    begins, ends = (next((k for k, row in enumerate(it.rows) if row == [word, "data"]), None) for word in ("begin", "end"))
    if "c" not in heads or begins is None or ends is None:
        it.wrong("it lacks `c: CAPACITY`, or rows of two numbers between `begin data` and `end data`")
    for row in it.rows[begins + 1 : ends]:
        if len(row) != 2:
            it.wrong(f"a kind has a size and a value, and {len(row)} words stand here", row[0])
    kinds = [tuple(it.whole_number(word, 1) for word in row) for row in it.rows[begins + 1 : ends]]
    if not kinds:
        it.wrong("there are no kinds", it.rows[begins][0])
    return kinds, it.whole_number(heads["c"])


def knapsack(it, name):
    """`n: N`, `c: C`, and between `begin data` and `end data` a size and a value for each kind."""
    if it.is_table:
        kinds, capacity = [tuple(it.whole_number(word, 1) for word in row) for row in zip(it.column("size"), it.column("value"))], it.option("capacity")
    else:
        kinds, capacity = kinds_of(it)
    rate = [max(-(-value // size) for size, value in kinds[k:]) for k in range(len(kinds))]
    return f"""domain: knapsack
problem: {name}
object_numbers: {{ kind: {len(kinds)} }}
target: {{ at: 0, room: {capacity} }}
table_values:
  kinds: {len(kinds)}
  rent: 0
  size: {listed(size for size, _ in kinds)}
  value: {listed(value for _, value in kinds)}
  rate: {listed(rate)}
"""


def of_many(it, number):
    """One of the problems of an OR-Library file: values, a row for each constraint, and the rooms."""
    problems = it.next(least=1)
    if number > problems:
        it.wrong(f"it has {problems} problem{'s' * (problems > 1)}", it.before())
    for _ in range(number):
        items, rooms = it.next(least=1, most=4096), it.next(least=1, most=200)
        it.next(True)
        values, takes, room = positive(it, items), [positive(it, items) for _ in range(rooms)], positive(it, rooms)
    if number == problems:
        it.end()
    return values, takes, room


def positive(it, count):
    """So many numbers, none below 0."""
    found = []
    for _ in range(count):
        found.append(it.next(True))
        if found[-1] < 0:
            it.wrong("a number is below 0", it.before())
    return found


def free_of(values, row):
    """From each item on, the values of those that take nothing of a thing; empty where there are none."""
    free = [sum(value for value, take in zip(values[at:], row[at:]) if not take) for at in range(len(values))]
    return free if any(free) else []


def multi_knapsack(it, name, number=None):
    values, takes, room = of_many(it, number or 1)
    items = range(len(values))
    scarce = ""
    for k, row in enumerate(takes):
        rate = [max((-(-1000 * values[i] // row[i]) for i in items[at:] if row[i]), default=0) for at in items]
        free = free_of(values, row)
        scarce += f"  takes_{k}: {listed(row)}\n  rate_{k}: {listed(rate)}\n" + (f"  free_{k}: {listed(free)}\n" if free else "")
    return f"""domain: multi_knapsack
problem: {name}
object_numbers: {{ item: {len(values)} }}
target: {{ at: 0{"".join(f", room_{k}: {r}" for k, r in enumerate(room))} }}
table_values:
  items: {len(values)}
  value: {listed(values)}
  rest: {listed(sum(values[at:]) for at in items)}
{scarce}"""


def multi_knapsack_domain(it, number=None):
    """The domain for so many constraints: each has a variable for what is left of it."""
    it.at = 0
    values, takes, _ = of_many(it, number or 1)
    free = [k for k, row in enumerate(takes) if free_of(values, row)]

    def each(line, of=range(len(takes))):
        return "".join(f"{line}\n".replace("#", str(k)) for k in of)

    bounds = "".join(f"  - {f'(+ (free_{k} at) ' if k in free else ''}(/ (* room_{k} (rate_{k} at)) 1000){')' if k in free else ''}\n" for k in range(len(takes)))
    frees = "  # the values of the items from this one on that take nothing of it\n" + each("  - { name: free_#, type: integer, args: [ item ] }", free) if free else ""
    return f"""# Projects are chosen, each of which takes of several things that are scarce. The greatest sum of values is wanted.
domain: multi_knapsack
reduce: max
objects: [ item ]
state_variables:
  - {{ name: at, type: element, object: item }}
{each("  - { name: room_#, type: integer, preference: greater }")}tables:
  - {{ name: items, type: integer }}
  - {{ name: value, type: integer, args: [ item ] }}
  # the values from an item on
  - {{ name: rest, type: integer, args: [ item ] }}
  # what an item takes of each thing
{each("  - { name: takes_#, type: integer, args: [ item ] }")}  # what an item from this one on brings at most for a unit of it, in thousandths, rounded up
{each("  - { name: rate_#, type: integer, args: [ item ] }")}{frees}transitions:
  - name: take
    parameters: [ {{ name: i, object: item }} ]
    preconditions:
      - (= at i)
{each("      - (<= (takes_# i) room_#)")}    effects:
      at: (+ at 1)
{each("      room_#: (- room_# (takes_# i))")}    cost: (+ cost (value i))
  - name: leave
    effects: {{ at: (+ at 1) }}
    cost: cost
base_cases:
  - [ (= at items) ]
dual_bounds:
  - (rest at)
{bounds}"""
