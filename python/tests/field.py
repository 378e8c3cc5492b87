"""Models of the field, small enough that a brute force in plain Python knows the best cost.

Each function takes a source of chance, and gives a model and its best cost, None where there is no plan. No brute force here knows anything of the
package: they go through orders, subsets or assignments.
"""

from __future__ import annotations

import itertools
import math
from random import Random
from typing import Any, Callable, Dict, List, Optional, Sequence, Tuple

import dypdl.didppy as dp

Case = Tuple[dp.Model, Any]


def least(costs: Any) -> Any:
    return min((cost for cost in costs if cost is not None), default=None)


def square(chance: Random, n: int, most: int = 30) -> List[List[int]]:
    return [[0 if i == j else chance.randrange(1, most) for j in range(n)] for i in range(n)]


def shortest(way: List[List[int]]) -> List[List[int]]:
    n = len(way)
    found = [list(row) for row in way]
    for k, i, j in itertools.product(range(n), repeat=3):
        found[i][j] = min(found[i][j], found[i][k] + found[k][j])
    return found


# ---- tours

def tour_with_windows(chance: Random, n: int = 6) -> Case:
    way = square(chance, n)
    ready = [0] + [chance.randrange(0, 60) for _ in range(n - 1)]
    due = [10**6] + [t + chance.randrange(30, 90) for t in ready[1:]]
    model = dp.Model()
    customer = model.add_object_type(number=n)
    unvisited = model.add_set_var(object_type=customer, target=list(range(1, n)))
    location = model.add_element_var(object_type=customer, target=0)
    time = model.add_int_resource_var(target=0, less_is_better=True)
    distance = model.add_int_table(way)
    fastest = model.add_int_table(shortest(way))
    opens = model.add_int_table(ready)
    closes = model.add_int_table(due)
    for j in range(1, n):
        model.add_transition(dp.Transition(
            name=f"visit {j}", cost=distance[location, j] + dp.IntExpr.state_cost(), preconditions=[unvisited.contains(j)],
            effects=[(unvisited, unvisited.remove(j)), (location, j), (time, dp.max(time + distance[location, j], opens[j]))]))
    model.add_transition(dp.Transition(
        name="return", cost=distance[location, 0] + dp.IntExpr.state_cost(), preconditions=[unvisited.is_empty(), location != 0],
        effects=[(location, 0), (time, time + distance[location, 0])]))
    model.add_base_case([unvisited.is_empty(), location == 0])
    for j in range(1, n):
        model.add_state_constr(~unvisited.contains(j) | (time + fastest[location, j] <= closes[j]))
    min_to = model.add_int_table([min(way[k][j] for k in range(n) if k != j) for j in range(n)])
    model.add_dual_bound(min_to[unvisited] + (location != 0).if_then_else(min_to[0], 0))

    def cost(order: Sequence[int]) -> Optional[int]:
        clock = total = at = 0
        for j in order:
            clock, total = max(clock + way[at][j], ready[j]), total + way[at][j]
            if clock > due[j]:
                return None
            at = j
        return total + way[at][0]

    return model, least(map(cost, itertools.permutations(range(1, n))))


def round_tour(chance: Random, n: int = 6) -> Case:
    """Distances in hundredths, with a transition of one parameter."""
    spots = [(chance.random() * 10, chance.random() * 10) for _ in range(n)]
    way = [[round(math.dist(a, b), 2) for b in spots] for a in spots]
    model = dp.Model(float_cost=True, scale=100)
    town = model.add_object_type(n)
    left = model.add_set_var(town, range(1, n))
    at = model.add_element_var(town, 0)
    road = model.add_float_table(way)
    to = dp.Parameter("to", left)
    model.add_transition(dp.Transition("go", road[at, to] + dp.FloatExpr.state_cost(), [(left, left.remove(to)), (at, to)], parameters=[to]))
    model.add_base_case([left.is_empty()], cost=road[at, 0])
    nearest = model.add_float_table([min(way[i][j] for i in range(n) if i != j) for j in range(n)])
    model.add_dual_bound(nearest[left])
    hundredths = [[round(100 * d) for d in row] for row in way]
    return model, least(sum(hundredths[a][b] for a, b in zip((0, *order), (*order, 0))) for order in itertools.permutations(range(1, n))) / 100


def vehicle_routing(chance: Random, n: int = 6, vehicles: int = 3) -> Case:
    way, demand, capacity = square(chance, n), [0] + [chance.randrange(1, 5) for _ in range(n - 1)], 7
    model = dp.Model()
    customer = model.add_object_type(n)
    unvisited = model.add_set_var(customer, range(1, n))
    location = model.add_element_var(customer, 0)
    load = model.add_int_resource_var(0, less_is_better=True)
    used = model.add_int_resource_var(1, less_is_better=True)
    weight, distance = model.add_int_table(demand), model.add_int_table(way)
    by_depot = model.add_int_table([[way[i][0] + way[0][j] for j in range(n)] for i in range(n)])
    for j in range(1, n):
        model.add_transition(dp.Transition(f"visit {j}", distance[location, j] + dp.IntExpr.state_cost(),
                                           [(unvisited, unvisited.remove(j)), (location, j), (load, load + weight[j])],
                                           [unvisited.contains(j), load + weight[j] <= capacity]))
        model.add_transition(dp.Transition(f"visit {j} by a new vehicle", by_depot[location, j] + dp.IntExpr.state_cost(),
                                           [(unvisited, unvisited.remove(j)), (location, j), (load, weight[j]), (used, used + 1)],
                                           [unvisited.contains(j), used < vehicles]))
    model.add_transition(dp.Transition("return", distance[location, 0] + dp.IntExpr.state_cost(), [(location, 0)], [unvisited.is_empty(), location != 0]))
    model.add_base_case([unvisited.is_empty(), location == 0])
    model.add_state_constr((vehicles - used + 1) * capacity - load >= weight[unvisited])

    def cost(order: Sequence[int], cuts: Sequence[int]) -> Optional[int]:
        routes = [order[a:b] for a, b in zip((0, *cuts), (*cuts, len(order)))]
        if any(sum(demand[j] for j in route) > capacity for route in routes):
            return None
        return sum(way[a][b] for route in routes for a, b in zip((0, *route), (*route, 0)))

    orders = list(itertools.permutations(range(1, n)))
    cuts = [c for k in range(vehicles) for c in itertools.combinations(range(1, n - 1), k)]
    return model, least(cost(order, cut) for order in orders for cut in cuts)


def pickup_delivery(chance: Random, orders: int = 3) -> Case:
    """One vehicle that holds two; place 2k + 1 is where order k is fetched, 2k + 2 where it goes."""
    n = 2 * orders + 1
    way = square(chance, n)
    size = [chance.randrange(1, 3) for _ in range(orders)]
    change = [0] + [s for one in size for s in (one, -one)]
    model = dp.Model()
    place = model.add_object_type(n)
    unvisited = model.add_set_var(place, range(1, n))
    at = model.add_element_var(place, 0)
    load = model.add_int_resource_var(0, less_is_better=True)
    distance, more = model.add_int_table(way), model.add_int_table(change)
    before = model.add_set_table([[]] + [part for k in range(orders) for part in ([], [2 * k + 1])], object_type=place)
    to = dp.Parameter("to", unvisited)
    model.add_transition(dp.Transition("visit", distance[at, to] + dp.IntExpr.state_cost(), [(unvisited, unvisited.remove(to)), (at, to), (load, load + more[to])],
                                       [unvisited.isdisjoint(before[to]), load + more[to] <= 3], parameters=[to]))
    model.add_base_case([unvisited.is_empty()], cost=distance[at, 0])

    def cost(order: Sequence[int]) -> Optional[int]:
        held, where = 0, {j: k for k, j in enumerate(order)}
        if any(where[2 * k + 1] > where[2 * k + 2] for k in range(orders)):
            return None
        for j in order:
            held += change[j]
            if held > 3:
                return None
        return sum(way[a][b] for a, b in zip((0, *order), (*order, 0)))

    return model, least(map(cost, itertools.permutations(range(1, n))))


def orienteering(chance: Random, n: int = 6) -> Case:
    """The most prizes that can be fetched, and home in time."""
    way, prize, limit = square(chance, n, 20), [0] + [chance.randrange(1, 20) for _ in range(n - 1)], 45
    model = dp.Model(maximize=True)
    place = model.add_object_type(n)
    unvisited = model.add_set_var(place, range(1, n))
    at = model.add_element_var(place, 0)
    time = model.add_int_resource_var(0, less_is_better=True)
    distance, gain = model.add_int_table(way), model.add_int_table(prize)
    for j in range(1, n):
        model.add_transition(dp.Transition(f"fetch {j}", gain[j] + dp.IntExpr.state_cost(), [(unvisited, unvisited.remove(j)), (at, j), (time, time + distance[at, j])],
                                           [unvisited.contains(j), time + distance[at, j] + distance[j, 0] <= limit]))
    model.add_transition(dp.Transition("home", None, [(at, 0), (unvisited, []), (time, time + distance[at, 0])], [at != 0, time + distance[at, 0] <= limit]))
    model.add_base_case([at == 0, unvisited.is_empty()])
    model.add_dual_bound(gain[unvisited])

    def gained(order: Sequence[int]) -> Optional[int]:
        stops = (0, *order, 0)
        clock = 0
        for a, b in zip(stops[:-1], stops[1:-1]):
            clock += way[a][b]
            if clock + way[b][0] > limit:
                return None
        return sum(prize[j] for j in order)

    tours = [order for k in range(1, n) for order in itertools.permutations(range(1, n), k)]
    return model, max((g for g in map(gained, tours) if g is not None), default=None)


# ---- packings

def knapsack(chance: Random, n: int = 8) -> Case:
    weights, profits, capacity = [chance.randrange(1, 20) for _ in range(n)], [chance.randrange(1, 30) for _ in range(n)], 40
    model = dp.Model(maximize=True)
    item = model.add_object_type(number=n + 1)
    i = model.add_element_var(object_type=item, target=0)
    r = model.add_int_resource_var(target=capacity, less_is_better=False)
    w, p = model.add_int_table(weights), model.add_int_table(profits)
    model.add_transition(dp.Transition("pack", p[i] + dp.IntExpr.state_cost(), [(i, i + 1), (r, r - w[i])], [i < n, w[i] <= r]))
    model.add_transition(dp.Transition("ignore", dp.IntExpr.state_cost(), [(i, i + 1)], [i < n]))
    model.add_base_case([i == n])
    model.add_dual_bound(model.add_int_table([sum(profits[k:]) for k in range(n + 1)])[i])
    chosen = (s for k in range(n + 1) for s in itertools.combinations(range(n), k) if sum(weights[j] for j in s) <= capacity)
    return model, max(sum(profits[j] for j in s) for s in chosen)


def multi_knapsack(chance: Random, n: int = 7, rooms: int = 3) -> Case:
    weights = [[chance.randrange(1, 15) for _ in range(n)] for _ in range(rooms)]
    profits, capacity = [chance.randrange(1, 30) for _ in range(n)], [25, 30, 35][:rooms]
    model = dp.Model(maximize=True)
    item = model.add_object_type(n)
    i = model.add_element_var(item, 0)
    left = [model.add_int_resource_var(c, less_is_better=False, name=f"room {k}") for k, c in enumerate(capacity)]
    w, p = model.add_int_table(weights), model.add_int_table(profits)
    effects = [(i, i + 1)] + [(left[k], left[k] - w[k, i]) for k in range(rooms)]
    model.add_transition(dp.Transition("pack", p[i] + dp.IntExpr.state_cost(), effects, [i < n] + [w[k, i] <= left[k] for k in range(rooms)]))
    model.add_transition(dp.Transition("leave", None, [(i, i + 1)], [i < n]))
    model.add_base_case([i == n])
    chosen = (s for k in range(n + 1) for s in itertools.combinations(range(n), k) if all(sum(row[j] for j in s) <= c for row, c in zip(weights, capacity)))
    return model, max(sum(profits[j] for j in s) for s in chosen)


def bin_packing(chance: Random, n: int = 6) -> Case:
    c, sizes = 10, [chance.randrange(1, 9) for _ in range(n)]
    model = dp.Model()
    item = model.add_object_type(number=n)
    unpacked = model.add_set_var(object_type=item, target=list(range(n)))
    room = model.add_int_resource_var(target=0, less_is_better=False)
    bins = model.add_element_resource_var(object_type=item, target=0, less_is_better=True)
    size = model.add_int_table(sizes)
    for i in range(n):
        model.add_transition(dp.Transition(f"pack {i}", dp.IntExpr.state_cost(), [(unpacked, unpacked.remove(i)), (room, room - size[i])],
                                           [unpacked.contains(i), sizes[i] <= room, bins <= i + 1]))
        none_fits = [~unpacked.contains(j) | (sizes[j] > room) for j in range(n)]
        model.add_transition(dp.Transition(f"open a bin for {i}", dp.IntExpr.state_cost() + 1, [(unpacked, unpacked.remove(i)), (room, c - size[i]), (bins, bins + 1)],
                                           [unpacked.contains(i), bins <= i, *none_fits]), forced=True)
    model.add_base_case([unpacked.is_empty()])
    model.add_dual_bound(math.ceil((size[unpacked] - room) / c))

    def fits(groups: Sequence[int]) -> bool:
        return all(sum(s for s, g in zip(sizes, groups) if g == k) <= c for k in set(groups))

    return model, least(len(set(groups)) for groups in itertools.product(range(n), repeat=n) if fits(groups))


def assembly_line(chance: Random, n: int = 6) -> Case:
    c, times = 8, [chance.randrange(1, 7) for _ in range(n)]
    before = [[j for j in range(i) if chance.random() < 0.3] for i in range(n)]
    model = dp.Model()
    task = model.add_object_type(number=n)
    uncompleted = model.add_set_var(object_type=task, target=list(range(n)))
    idle = model.add_int_resource_var(target=0, less_is_better=False)
    time, predecessors = model.add_int_table(times), model.add_set_table(before, object_type=task)
    for i in range(n):
        model.add_transition(dp.Transition(f"{i}", dp.IntExpr.state_cost(), [(uncompleted, uncompleted.remove(i)), (idle, idle - time[i])],
                                           [uncompleted.contains(i), time[i] <= idle, uncompleted.isdisjoint(predecessors[i])]))
    model.add_transition(dp.Transition("open a station", dp.IntExpr.state_cost() + 1, [(idle, c)],
                                       [~uncompleted.contains(i) | (time[i] > idle) | ~uncompleted.isdisjoint(predecessors[i]) for i in range(n)]), forced=True)
    model.add_base_case([uncompleted.is_empty()])
    model.add_dual_bound(math.ceil((time[uncompleted] - idle) / c))

    def stations(order: Sequence[int]) -> Optional[int]:
        where = {j: k for k, j in enumerate(order)}
        if any(where[j] > where[i] for i in range(n) for j in before[i]):
            return None
        count, room = 0, 0
        for i in order:
            if times[i] > room:
                count, room = count + 1, c
            room -= times[i]
        return count

    return model, least(map(stations, itertools.permutations(range(n))))


# ---- sequences

def weighted_tardiness(chance: Random, n: int = 6) -> Case:
    long, due, price = [chance.randrange(1, 10) for _ in range(n)], [chance.randrange(5, 30) for _ in range(n)], [chance.randrange(1, 5) for _ in range(n)]
    model = dp.Model()
    job = model.add_object_type(n)
    done = model.add_set_var(job, [])
    lasts, ends, weight = model.add_int_table(long), model.add_int_table(due), model.add_int_table(price)
    for j in range(n):
        late = dp.max(0, lasts[done] + lasts[j] - ends[j])
        model.add_transition(dp.Transition(f"do {j}", weight[j] * late + dp.IntExpr.state_cost(), [(done, done.add(j))], [~done.contains(j)]))
    model.add_base_case([done == list(range(n))])
    model.add_dual_bound(0)

    def cost(order: Sequence[int]) -> int:
        clock = total = 0
        for j in order:
            clock += long[j]
            total += price[j] * max(0, clock - due[j])
        return total

    return model, least(map(cost, itertools.permutations(range(n))))


def talent(chance: Random, scenes: int = 6, actors: int = 4) -> Case:
    """Who waits is told by state functions over sets of scenes."""
    plays = [sorted(chance.sample(range(actors), chance.randrange(1, actors))) for _ in range(scenes)]
    days, pay = [chance.randrange(1, 4) for _ in range(scenes)], [chance.randrange(1, 9) for _ in range(actors)]
    model = dp.Model()
    scene = model.add_object_type(scenes)
    actor = model.add_object_type(actors)
    remaining = model.add_set_var(scene, range(scenes))
    cast = model.add_set_table(plays, object_type=actor)
    wage = model.add_int_table(pay)
    needed = model.add_set_state_fun(cast.union(remaining))
    came = model.add_set_state_fun(cast.union(~remaining))
    for s in range(scenes):
        on_location = cast[s] | (came & needed)
        model.add_transition(dp.Transition(f"shoot {s}", days[s] * wage[on_location] + dp.IntExpr.state_cost(), [(remaining, remaining.remove(s))], [remaining.contains(s)]))
    model.add_base_case([remaining.is_empty()])
    base = model.add_int_table([days[s] * sum(pay[a] for a in plays[s]) for s in range(scenes)])
    model.add_dual_bound(base[remaining])

    def cost(order: Sequence[int]) -> int:
        total = 0
        for a in range(actors):
            there = [k for k, s in enumerate(order) if a in plays[s]]
            if there:
                total += pay[a] * sum(days[s] for s in order[there[0]:there[-1] + 1])
        return total

    return model, least(map(cost, itertools.permutations(range(scenes))))


def graph_clearing(chance: Random, n: int = 6) -> Case:
    """Costs are joined by max: the most that one sweep takes."""
    rooms, guards = [chance.randrange(1, 9) for _ in range(n)], square(chance, n, 6)
    model = dp.Model()
    room = model.add_object_type(n)
    clean = model.add_set_var(room, [])
    sweep, guard = model.add_int_table(rooms), model.add_int_table(guards)
    for c in range(n):
        weight = sweep[c] + guard[c, clean.complement().remove(c)] + guard[clean, clean.complement().remove(c)]
        model.add_transition(dp.Transition(f"clear {c}", dp.max(dp.IntExpr.state_cost(), weight), [(clean, clean.add(c))], [~clean.contains(c)]))
    model.add_base_case([clean.complement().is_empty()])
    model.add_dual_bound(0)

    def cost(order: Sequence[int]) -> int:
        worst = 0
        for k, c in enumerate(order):
            left = order[k + 1:]
            worst = max(worst, rooms[c] + sum(guards[a][b] for a in order[:k + 1] for b in left))
        return worst

    return model, least(map(cost, itertools.permutations(range(n))))


def open_stacks(chance: Random, n: int = 6, products: int = 5) -> Case:
    """The most orders that are open at a time, as products are made one by one: by customers that share one."""
    wants = [set(chance.sample(range(products), chance.randrange(1, 4))) for _ in range(n)]
    near = [[j for j in range(n) if wants[i] & wants[j]] for i in range(n)]
    model = dp.Model()
    customer = model.add_object_type(n)
    remaining = model.add_set_var(customer, range(n))
    opened = model.add_set_var(customer, [])
    neighbours = model.add_set_table(near, object_type=customer)
    for c in range(n):
        stacks = ((opened & remaining) | (neighbours[c] - opened)).len()
        model.add_transition(dp.Transition(f"close {c}", dp.max(stacks, dp.IntExpr.state_cost()), [(remaining, remaining.remove(c)), (opened, opened | neighbours[c])],
                                           [remaining.contains(c)]))
    model.add_base_case([remaining.is_empty()])
    model.add_dual_bound(0)

    def cost(order: Sequence[int]) -> int:
        worst, seen, left = 0, set(), set(range(n))
        for c in order:
            worst = max(worst, len((seen & left) | (set(near[c]) - seen)))
            seen |= set(near[c])
            left.remove(c)
        return worst

    return model, least(map(cost, itertools.permutations(range(n))))


def setup_times(chance: Random, n: int = 6) -> Case:
    """The least time for all jobs with a setup between each two; a dual bound by the least setup into what is left."""
    setup = square(chance, n + 1)
    model = dp.Model()
    job = model.add_object_type(n + 1)
    left = model.add_set_var(job, range(1, n + 1))
    last = model.add_element_var(job, 0)
    change = model.add_int_table(setup)
    for j in range(1, n + 1):
        model.add_transition(dp.Transition(f"do {j}", change[last, j] + dp.IntExpr.state_cost(), [(left, left.remove(j)), (last, j)], [left.contains(j)]))
    model.add_base_case([left.is_empty()])
    model.add_dual_bound(left.is_empty().if_then_else(0, change.min(last, left)))
    return model, least(sum(setup[a][b] for a, b in zip((0, *order), order)) for order in itertools.permutations(range(1, n + 1)))


# ---- other kinds

def lot_sizing(chance: Random, n: int = 4) -> Case:
    """How much to make in each period: stock costs, and each period in which something is made."""
    demand, most, hold, begin = [chance.randrange(0, 4) for _ in range(n)], 4, 2, [chance.randrange(3, 9) for _ in range(n)]
    model = dp.Model()
    period, amount = model.add_object_type(n + 1), model.add_object_type(most + 1)
    t = model.add_element_var(period, 0)
    stock = model.add_int_var(0)
    asks, opens = model.add_int_table(demand + [0]), model.add_int_table(begin + [0])
    made = dp.Parameter("made", amount)
    after = stock + made - asks[t]
    cost = (made > 0).if_then_else(opens[t], 0) + hold * after
    model.add_transition(dp.Transition("make", cost + dp.IntExpr.state_cost(), [(t, t + 1), (stock, after)], [t < n, after >= 0], parameters=[made]))
    model.add_base_case([t == n])

    def total(plan: Sequence[int]) -> Optional[int]:
        held = paid = 0
        for k, q in enumerate(plan):
            held += q - demand[k]
            if held < 0:
                return None
            paid += (begin[k] if q else 0) + hold * held
        return paid

    return model, least(map(total, itertools.product(range(most + 1), repeat=n)))


def electric_van(chance: Random, n: int = 5) -> Case:
    """A battery in tenths; it is filled where there is a pump."""
    way = [[0.0 if i == j else chance.randrange(5, 40) / 10 for j in range(n)] for i in range(n)]
    pumps, full = [chance.random() < 0.5 for _ in range(n)], 6.5
    model = dp.Model(float_cost=True, scale=10)
    place = model.add_object_type(n)
    left = model.add_set_var(place, range(1, n))
    at = model.add_element_var(place, 0)
    charge = model.add_float_resource_var(full, less_is_better=False)
    road, pump = model.add_float_table(way), model.add_bool_table(pumps)
    for j in range(1, n):
        model.add_transition(dp.Transition(f"visit {j}", road[at, j] + dp.FloatExpr.state_cost(), [(left, left.remove(j)), (at, j), (charge, charge - road[at, j])],
                                           [left.contains(j), road[at, j] <= charge]))
    model.add_transition(dp.Transition("fill", 0.5 + dp.FloatExpr.state_cost(), [(charge, full)], [pump[at], charge < full]))
    model.add_base_case([left.is_empty()])
    model.add_dual_bound(0)
    tenths = [[round(10 * d) for d in row] for row in way]

    def cost(order: Sequence[int], fills: Sequence[bool]) -> Optional[int]:
        held, paid, here = 65, 0, 0
        for j, fill in zip(order, fills):
            if fill:
                if not pumps[here]:
                    return None
                held, paid = 65, paid + 5
            held, paid = held - tenths[here][j], paid + tenths[here][j]
            if held < 0:
                return None
            here = j
        return paid

    choices = list(itertools.product([False, True], repeat=n - 1))
    best = least(cost(order, fills) for order in itertools.permutations(range(1, n)) for fills in choices)
    return model, None if best is None else best / 10


def alignment(chance: Random, n: int = 5) -> Case:
    """The edit distance of two words."""
    a, b = ([chance.randrange(3) for _ in range(n)] for _ in range(2))
    model = dp.Model()
    place = model.add_object_type(n + 1)
    i, j = model.add_element_var(place, 0), model.add_element_var(place, 0)
    same = model.add_bool_table([[x == y for y in b] for x in a])
    model.add_transition(dp.Transition("keep", None, [(i, i + 1), (j, j + 1)], [i < n, j < n, same[i, j]]))
    model.add_transition(dp.Transition("change", 1 + dp.IntExpr.state_cost(), [(i, i + 1), (j, j + 1)], [i < n, j < n]))
    model.add_transition(dp.Transition("delete", 1 + dp.IntExpr.state_cost(), [(i, i + 1)], [i < n]))
    model.add_transition(dp.Transition("insert", 1 + dp.IntExpr.state_cost(), [(j, j + 1)], [j < n]))
    model.add_base_case([i == n, j == n])
    model.add_dual_bound(abs(i - j))

    def distance(x: Sequence[int], y: Sequence[int]) -> int:
        if not x or not y:
            return len(x) + len(y)
        return min(distance(x[1:], y[1:]) + (x[0] != y[0]), distance(x[1:], y) + 1, distance(x, y[1:]) + 1)

    return model, distance(a, b)


CASES: Dict[str, Callable[[Random], Case]] = {
    call.__name__: call for call in (
        tour_with_windows, round_tour, vehicle_routing, pickup_delivery, orienteering, knapsack, multi_knapsack, bin_packing, assembly_line, weighted_tardiness,
        talent, graph_clearing, open_stacks, setup_times, lot_sizing, electric_van, alignment)
}
