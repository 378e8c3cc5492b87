"""Instances of routes: tours, vehicles with time windows, prizes that are gathered, orders that are fetched and brought."""

import math

from .instances import MOST_MEMBERS, listed, members, squared
from .instances_tsplib import Tsplib


MOST_GIVEN_UP = 500


def least_into(way):
    return [min((row[j] for i, row in enumerate(way) if i != j), default=0) for j in range(len(way))]


def tour(it, name):
    if not it.is_table and len(it.rows[0]) == 1 and it.is_number(it.words[0]):
        count = it.next(least=2, most=4096)
        way = [[it.next(True) for _ in range(count)] for _ in range(count)]
        windows = [(it.next(True), it.next(True)) for _ in range(count)]
        it.end()
    else:
        rows = it.customers()
        way, windows = it.ways(rows, True), [(it.whole(r[4]), it.whole(r[5])) for r in rows]
        count = len(rows)
    return f"""domain: tsptw
problem: {name}
object_numbers: {{ customer: {count} }}
target: {{ unvisited: {members(range(1, count))}, location: 0, time: {windows[0][0]} }}
table_values:
  ready: {listed(w[0] for w in windows)}
  due: {listed(w[1] for w in windows)}
  min_to: {listed(least_into(way))}
  distance: {squared(way)}
"""


def vehicle_routing(it, name):
    fleet, capacity = fleet_of(it)
    rows = it.customers()
    way, count = it.ways(rows, False), len(rows)
    ready, due, service = ([it.whole(row[k]) for row in rows] for k in (4, 5, 6))
    return f"""domain: vehicle_routing
problem: {name}
object_numbers: {{ place: {count} }}
target: {{ left: {members(range(1, count))}, at: 0, load: 0, time: {ready[0]}, used: 1 }}
table_values:
  fleet: {fleet}
  capacity: {capacity}
  demand: {listed(it.whole_number(row[3]) for row in rows)}
  ready: {listed(ready)}
  due: {listed(due)}
  service: {listed(service)}
  entry: {listed(least_into(way))}
  way: {squared(way)}
"""


def fleet_of(it):
    """How many vehicles there are, and what each holds."""
    if it.is_table:
        return it.vehicles or len(it.cells), it.option("capacity")
    heads = it.rows_of(2)
    if not heads:
        it.wrong("there is no line with the number of vehicles and their capacity")
    return [it.whole_number(word, 1) for word in heads[0]]


def thousandths(value, of):
    """How many thousandths of the one are the other, rounded up."""
    return -(-1000 * value // of)


def orienteering(it, name):
    """Rows `number x y stay prize .. opens closes`: the first is the depot, and its closing is when one is to be home."""
    rows = [row for row in it.rows if len(row) >= 7 and all(map(it.is_number, row))]
    if len(rows) < 2:
        it.wrong("there is no table of places with seven columns or more: number, x, y, stay, prize, .., opens, closes")
    count, points = len(it.at_most(MOST_GIVEN_UP, rows)), [(it.real(row[1]), it.real(row[2])) for row in rows]
    stay, opens, closes = ([it.whole(row[k]) for row in rows] for k in (3, -2, -1))
    prize = [it.whole_number(row[4]) for row in rows]
    way = [[math.floor(it.scale * math.hypot(a - c, b - d)) for c, d in points] for a, b in points]
    for i, j, k in ((i, j, k) for j in range(1, count) for i in range(count) for k in range(count) if j not in (i, k)):
        if way[i][j] + stay[j] + way[j][k] < way[i][k]:
            it.wrong(f"the way from {i} to {k} is longer than by way of {j}, so that nothing may be given up", rows[j][0])
    for p in range(1, count):
        if stay[p] == 0 == min(way[k][p] for k in range(count) if k != p):
            it.wrong("this place takes no time", rows[p][0])
    rates = [thousandths(prize[p], stay[p] + min(way[k][p] for k in range(count) if k != p) or 1) for p in range(1, count)]
    return f"""domain: orienteering
problem: {name}
object_numbers: {{ place: {count} }}
target: {{ left: {members(range(1, count))}, at: 0, time: {opens[0]} }}
table_values:
  horizon: {closes[0]}
  prize: {listed(prize)}
  opens: {listed(opens)}
  closes: {listed(closes)}
  stay: {listed(stay)}
  # the most that a place brings for a unit of the time of its stay and the least way to it, in thousandths
  rate: {max(rates)}
  way: {squared(way)}
"""


def pickup_delivery(it, name):
    """A table of Li and Lim: number, x, y, demand, two times, service, the place of the pickup and of the delivery."""
    heads, rows = it.rows_of(3), it.at_most(MOST_MEMBERS, it.rows_of(9))
    if not heads or len(rows) < 3:
        it.wrong("there is no line with vehicles, capacity and speed, or no table of places with nine columns")
    table = {}
    for row in rows:
        if table.setdefault(it.whole_number(row[0]), row) is not row or it.whole_number(row[0]) >= len(rows):
            it.wrong(f"the places are numbered from 0 to {len(rows) - 1}, each once, and not {row[0]}", row[0])
    points = [(it.real(table[k][1]), it.real(table[k][2])) for k in range(len(rows))]
    way = [[math.floor(it.scale * math.hypot(a - c, b - d)) for c, d in points] for a, b in points]
    orders = []
    for k, row in sorted(table.items()):
        if it.whole_number(row[8], -1) > 0:
            orders.append((k, it.whole_number(row[8], 0, len(rows) - 1), it.whole_number(row[3])))
    if not orders:
        it.wrong("there are no orders: rows with a place for their delivery in the ninth column", rows[0][0])
    into = least_into(way)
    return f"""domain: pickup_delivery
problem: {name}
object_numbers: {{ place: {len(rows)}, order: {len(orders)} }}
target: {{ waiting: {members(range(len(orders)))}, aboard: [ ], at: 0 }}
table_values:
  hold: {it.whole_number(heads[0][1])}
  size: {listed(size for *_, size in orders)}
  from: {listed(start for start, *_ in orders)}
  to: {listed(to for _, to, _ in orders)}
  # the least way into the place from which, and to which, an order goes
  fetching: {listed(into[start] for start, *_ in orders)}
  bringing: {listed(into[to] for _, to, _ in orders)}
  homing: {into[0]}
  way: {squared(way)}
"""


def ways_of(it):
    """The ways of a TSPLIB file or of a table, with that file."""
    if it.is_table:
        return it.plane_or_square(), None
    file = Tsplib(it)
    way, names = file.ways()
    return way, (file, names)


def round_tour(it, name):
    way, _ = ways_of(it)
    out = [min((n for k, n in enumerate(row) if k != j), default=0) for j, row in enumerate(way)]
    return f"""domain: round_tour
problem: {name}
object_numbers: {{ town: {len(way)} }}
target: {{ visited: [ 0 ], at: 0 }}
table_values:
  all: {members(range(len(way)))}
  road: {squared(way)}
  least_in: {listed(least_into(way))}
  least_out: {listed(out)}
"""


def deliveries(it, name):
    """A CVRP: the depot is the first place, and there are as many tours as are wanted."""
    way, file = ways_of(it)
    if it.is_table:
        demand, hold = [it.whole_number(word) for word in it.column("demand")], it.option("capacity")
        if demand[0] != 0:
            it.wrong("the first row is the depot, and has no demand", it.column("demand")[0])
    else:
        if file[0].value("CAPACITY") is None:
            it.wrong("it has no CAPACITY with its value")
        demand, hold = file[0].demands(file[1]), it.whole_number(file[0].value("CAPACITY"), 1)
    return f"""domain: deliveries
problem: {name}
object_numbers: {{ place: {len(way)} }}
target: {{ left: {members(range(1, len(way)))}, at: 0, stock: {hold} }}
table_values:
  hold: {hold}
  demand: {listed(demand)}
  entry: {listed(least_into(way))}
  way: {squared(way)}
"""
