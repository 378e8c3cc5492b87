"""Instances of work in an order: job shops, late jobs, scenes of a film, assembly lines, stacks that are open."""

from .instances import Word, listed, members, shortened


def time_of(it):
    """A time of 1 at least."""
    time = it.next(True)
    if time < 1:
        it.wrong(f"a time is 1 at least, and not {it.before()}", it.before())
    return time


def job_shop(it, name):
    jobs, machines = it.next(least=1, most=1000), it.next(least=1, most=60)
    chains = [[(it.next(most=machines - 1), time_of(it)) for _ in range(machines)] for _ in range(jobs)]
    it.end()
    number = {(j, k): j * machines + k for j in range(jobs) for k in range(machines)}
    length, on, before, tail, of_machine = [], [], [], [], [[] for _ in range(machines)]
    for j, chain in enumerate(chains):
        for k, (machine, time) in enumerate(chain):
            length.append(time)
            on.append(machine)
            before.append([number[j, i] for i in range(k)])
            tail.append(sum(t for _, t in chain[k:]))
            of_machine[machine].append(number[j, k])
    ends = "".join(f", end_{m}: 0" for m in range(machines))
    bounds = "".join(f"  - (if (is_in {o} left) (+ clock (tail {o})) 0)\n" for o in range(len(length)))
    return f"""domain: job_shop
problem: {name}
object_numbers: {{ operation: {len(length)}, machine: {machines} }}
target: {{ left: {members(range(len(length)))}, running: [ ], clock: 0{ends} }}
table_values:
  length: {listed(length)}
  machine_of: {listed(on)}
  # the operations of its job that come before it
  before: {listed(members(b) for b in before)}
  of_machine: {listed(members(o) for o in of_machine)}
  # what it and the rest of its job take
  tail: {listed(tail)}
dual_bounds:
  # an operation that has not begun begins now or later, and the rest of its job follows it
{bounds}"""


def job_shop_domain(machines):
    """The domain for so many machines: each has a variable for when its operation ends."""
    variables = "".join(f"  - {{ name: end_{m}, type: integer, preference: less }}\n" for m in range(machines))
    begun = "".join(f"      end_{m}: (if (= (machine_of o) {m}) (+ clock (length o)) end_{m})\n" for m in range(machines))
    ends = ""
    for m in range(machines):
        first = "".join(f"      - (or (= end_{k} 0) (<= end_{m} end_{k}))\n" for k in range(machines) if k != m)
        ends += f"""  - name: end_{m}
    preconditions:
      - (> end_{m} 0)
{first}    effects:
      clock: end_{m}
      end_{m}: 0
      running: (difference running (of_machine {m}))
"""
    bounds = "".join(f"""  - (if (is_empty (intersection (of_machine {m}) left))
        0
        (+ (max clock end_{m}) (sum length (intersection (of_machine {m}) left))))
""" for m in range(machines))
    return f"""# Jobs are chains of operations, each on its machine for a while. They are all to have ended as early as can be.
domain: job_shop
reduce: min
objects: [ operation, machine ]
state_variables:
  - {{ name: left, type: set, object: operation }}
  - {{ name: running, type: set, object: operation }}
  - {{ name: clock, type: integer, preference: less }}
  # when the operation that runs on a machine ends; 0 where none does
{variables}tables:
  - {{ name: length, type: integer, args: [ operation ] }}
  - {{ name: machine_of, type: element, args: [ operation ] }}
  - {{ name: before, type: set, object: operation, args: [ operation ] }}
  - {{ name: of_machine, type: set, object: operation, args: [ machine ] }}
  - {{ name: tail, type: integer, args: [ operation ] }}
transitions:
  - name: begin
    parameters: [ {{ name: o, object: left }} ]
    preconditions:
      # what comes before it in its job has begun and ended, and its machine is free
      - (is_empty (intersection (before o) left))
      - (is_empty (intersection (before o) running))
      - (is_empty (intersection (of_machine (machine_of o)) running))
    effects:
      left: (remove o left)
      running: (add o running)
{begun}    cost: (max cost (+ clock (length o)))
  # The operation that ends first ends, and it is then.
{ends}# So each list has two steps for each operation.
base_cases:
  - [ (is_empty left), (is_empty running) ]
dual_bounds:
  # a machine does what is left for it one after the other
{bounds}"""


def late_jobs(it, number):
    """Processing times, weights and due dates, row by row."""
    if number and (len(it.words) % 375 or number > 125):
        it.wrong(f"it has {len(it.words)} numbers, which are no 125 instances" if len(it.words) % 375 else "it has 125 instances", it.last())
    if len(it.words) % 3:
        it.wrong(f"it has {len(it.words)} numbers, and there are to be as many times as weights and due dates", it.last())
    count = len(it.words) // (375 if number else 3)
    it.at = 3 * count * (number - 1) if number else 0
    return it.row(count, True), it.row(count), it.row(count, True)


def tardiness(it, name, number=None):
    """Processing times, weights and due dates; with a number that one of the 125 instances of a file."""
    if it.is_table:
        length, due = ([it.exact(word) for word in it.column(what)] for what in ("length", "due"))
        count, weight = len(length), [it.whole_number(word) for word in it.column("weight", "1")]
    else:
        length, weight, due = late_jobs(it, number)
        count = len(length)
    late = [w * max(0, p - d) for p, w, d in zip(length, weight, due)]
    return f"""domain: tardiness
problem: {name}
object_numbers: {{ job: {count} }}
target: {{ left: {members(range(count))} }}
table_values:
  all_of_it: {sum(length)}
  length: {listed(length)}
  due: {listed(due)}
  weight: {listed(weight)}
  at_least: {listed(late)}
"""


def zeros_and_ones(it, count):
    return [k for k, flag in enumerate(it.row(count, most=1)) if flag]


def talent(it, name):
    """Scenes and actors; of each actor a row of 0 and 1, and the pay; the days of each scene."""
    it.pass_name()
    scenes, actors = it.next(least=1, most=4096), it.next(least=1, most=4096)
    plays, pay = [], []
    for _ in range(actors):
        plays.append(zeros_and_ones(it, scenes))
        pay.append(it.next(True))
    days = it.row(scenes, True)
    it.end()
    cast = [[a for a in range(actors) if s in plays[a]] for s in range(scenes)]
    return f"""domain: talent
problem: {name}
object_numbers: {{ scene: {scenes}, actor: {actors} }}
target: {{ left: {members(range(scenes))}, here: [ ] }}
table_values:
  days: {listed(days)}
  pay: {listed(pay)}
  cast: {listed(map(members, cast))}
  scenes: {listed(map(members, plays))}
  # days of the scene times the pay of its cast
  least: {listed(days[s] * sum(pay[a] for a in cast[s]) for s in range(scenes))}
"""


def line_of(it):
    """The parts of an .alb file: times by task, from 0 on, the cycle, and pairs of tasks of which the first goes before."""
    parts = parts_of(it)
    for head in ("number of tasks", "cycle time", "task times"):
        if not parts.get(head):
            it.wrong(f"it lacks `<{head}>` with what belongs there")
    count, cycle = it.whole_number(parts["number of tasks"][0], 1, 4096), it.whole(parts["cycle time"][0])
    words, times = parts["task times"], {}
    if len(words) != 2 * count:
        it.wrong(f"{count} tasks have {2 * count} numbers, a task and its time each, and {len(words)} stand here", words[-1])
    for task, time in zip(words[::2], words[1::2]):
        if times.setdefault(it.whole_number(task, 1, count), it.whole(time)) != it.whole(time):
            it.wrong(f"task {task} has a time already", task)
        if it.whole(time) > cycle:
            it.wrong("this task takes longer than the cycle", time)
    if len(times) != count:
        it.wrong("a task stands there twice, and another does not", words[0])
    return [times[k + 1] for k in range(count)], cycle, [pair_of(it, word, count) for word in parts.get("precedence relations", [])]


def parts_of(it):
    """The words behind each head in `<` and `>`."""
    parts, head = {}, None
    for row in it.rows:
        text = " ".join(row)
        if text.startswith("<") and text.endswith(">"):
            head = parts.setdefault(text[1:-1].strip(), [])
        elif head is None:
            it.wrong("a head as `<number of tasks>` is wanted here", row[0])
        else:
            head += row
    return parts


def pair_of(it, word, count):
    found = [Word(part, word.line, word.column) for part in word.split(",")]
    if len(found) != 2:
        it.wrong(f"`{shortened(word)}` is no pair of tasks, as `1,2`", word)
    return tuple(it.whole_number(part, 1, count) - 1 for part in found)


def some(cells):
    return "{ " + ", ".join(f"{k}: {value}" for k, value in cells) + " }" if cells else "{ }"


def neighbours(count, pairs):
    """Of each task that has some, those that stand before it by a pair."""
    return some([(k, members(sorted(a for a, b in pairs if b == k))) for k in range(count) if any(b == k for _, b in pairs)])


def line(it, name, domain, both):
    time, cycle, pairs = line_of(it)
    count = len(time)
    after = f"  after: {neighbours(count, [(b, a) for a, b in pairs])}\n" if both else ""
    return f"""domain: {domain}
problem: {name}
object_numbers: {{ task: {count} }}
target: {{ left: {members(range(count))}, idle: 0 }}
table_values:
  cycle: {cycle}
  time: {listed(time)}
  before: {neighbours(count, pairs)}
{after}  # more than half of the cycle
  long: {some([(k, 1) for k, t in enumerate(time) if 2 * t > cycle])}
"""


def assembly_line(it, name):
    return line(it, name, "assembly_line", False)


def u_line(it, name):
    return line(it, name, "u_line", True)


def open_stacks(it, name):
    """Customers and products; of each customer a row of 0 and 1."""
    it.pass_name()
    customers, products = it.next(least=1, most=4096), it.next(least=1, most=65536)
    wants = [set(zeros_and_ones(it, products)) for _ in range(customers)]
    it.end()
    near = [[k for k in range(customers) if k == c or wants[k] & wants[c]] for c in range(customers)]
    return f"""domain: open_stacks
problem: {name}
object_numbers: {{ customer: {customers} }}
target: {{ left: {members(range(customers))}, begun: [ ] }}
table_values:
  near: {listed(map(members, near))}
"""
