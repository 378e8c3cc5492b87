"""The problems of models/, stated again with their data: as states and steps, and as a plain enumeration of all solutions.

Nothing here reads a model. models_check.py compares the two, and searches the states. planning_problems.py has more of them, and the list of
all."""

import math
from functools import cache
from itertools import combinations, permutations, product


def without(members, member):
    return members - {member}


def rows(text):
    """A table of numbers."""
    return [[int(word) for word in line.split()] for line in text.split("\n")]


def distances(points):
    """The distances between points of a plane, rounded down."""
    return [[math.isqrt((a - c) ** 2 + (b - d) ** 2) for c, d in points] for a, b in points]


class Problem:
    """A problem as states and steps. A state is a tuple; `resources` names its places that are resources, with the sign
    of what is better: 1 where more is, -1 where less is."""

    folder = domain = problem = ""
    comes_back = False  # whether lists may come to a state again
    maximize = False
    operator = "+"
    resources = {}

    def start(self):
        """The state to begin with."""

    def is_allowed(self, _state):
        return True

    def base_cost(self, _state):
        """The cost of ending in a state, where a list may end there."""

    def forced(self, _state):
        """Steps of which the first is the only one, if there is one: text, weight or None, next state."""
        return []

    def free(self, _state):
        """The other steps, in order."""
        return []

    def bounds(self, _state):
        return []

    def optimum(self):
        """The best cost, without any of the above."""

    def steps(self, state):
        first = next(iter(self.forced(state)), None)
        return list(self.free(state)) if first is None else [first]

    def better(self, a, b):
        return a > b if self.maximize else a < b

    def best(self, costs):
        return max(costs) if self.maximize else min(costs)

    def join(self, a, b):
        if a is None or b is None:
            return b if a is None else a
        return {"+": a + b, "max": max(a, b), "min": min(a, b)}[self.operator]


class Tour(Problem):
    """A tour through customers with times at which they may be visited, and must be at last."""

    folder, domain, problem = "tour", "time_windows.yaml", "four_customers.yaml"
    resources = {2: -1}
    ready, due = [0, 5, 0, 8], [100, 16, 10, 14]
    way = rows("0 3 4 5\n3 0 5 4\n4 5 0 3\n5 4 3 0")
    entry = 3

    def start(self):
        return frozenset({1, 2, 3}), 0, 0

    def is_allowed(self, state):
        left, at, time = state
        return all(time + self.way[at][j] <= self.due[j] for j in left)

    def base_cost(self, state):
        return 0 if not state[0] and state[1] == 0 else None

    def free(self, state):
        left, at, time = state
        for to in sorted(left):
            there = time + self.way[at][to]
            if there <= self.due[to]:
                yield f"visit {to}", self.way[at][to], (without(left, to), to, max(there, self.ready[to]))
        if not left and at != 0:
            yield "return", self.way[at][0], (left, 0, time + self.way[at][0])

    def bounds(self, state):
        return [self.entry * (len(state[0]) + (state[1] != 0))]

    def optimum(self):
        def cost(order):
            at = time = total = 0
            for to in order:
                total += self.way[at][to]
                time = max(time + self.way[at][to], self.ready[to])
                if time > self.due[to]:
                    return math.inf
                at = to
            return total + self.way[at][0]

        return min(map(cost, permutations([1, 2, 3])))


class Tardiness(Problem):
    """Jobs on one machine, with weights for how late they end."""

    folder = "tardiness"
    length, due, weight = [4, 7, 2, 5, 3, 6, 4], [9, 12, -3, 8, 20, 15, 2], [3, 2, 1, 4, 5, 1, 2]

    def late(self, job, end):
        return self.weight[job] * max(0, end - self.due[job])

    def start(self):
        return (frozenset(range(7)),)

    def base_cost(self, state):
        return None if state[0] else 0

    def free(self, state):
        gone = sum(self.length) - sum(self.length[j] for j in state[0])
        for job in sorted(state[0]):
            yield f"run {job}", self.late(job, gone + self.length[job]), (without(state[0], job),)

    def bounds(self, state):
        return [sum(self.late(job, self.length[job]) for job in state[0])]

    def optimum(self):
        def cost(order):
            ends = [sum(self.length[job] for job in order[: place + 1]) for place in range(len(order))]
            return sum(map(self.late, order, ends))

        return min(map(cost, permutations(range(7))))


class Talent(Problem):
    """Scenes in a row, and actors who are paid from the first of their scenes to the last."""

    folder = "talent"
    days, pay = [3, 3, 1, 2, 3, 2], [5, 10, 8, 12]
    cast = [{1, 3}, {0, 2}, {0, 1, 2}, {0, 1}, {2, 3}, {1, 2}]

    def wages(self, scene, actors):
        return self.days[scene] * sum(self.pay[a] for a in actors)

    def start(self):
        return frozenset(range(6)), frozenset()

    def base_cost(self, state):
        return None if state[0] else 0

    def forced(self, state):
        left, here = state
        for actor in sorted(here):
            if not any(actor in self.cast[s] for s in left):
                yield f"release {actor}", None, (left, without(here, actor))

    def free(self, state):
        left, here = state
        for scene in sorted(left):
            there = here | self.cast[scene]
            yield f"shoot {scene}", self.wages(scene, there), (without(left, scene), there)

    def bounds(self, state):
        return [sum(self.wages(scene, self.cast[scene]) for scene in state[0])]

    def optimum(self):
        def cost(order):
            total = 0
            for actor, pay in enumerate(self.pay):
                plays = [place for place, scene in enumerate(order) if actor in self.cast[scene]]
                total += pay * sum(self.days[scene] for scene in order[plays[0] : plays[-1] + 1])
            return total

        return min(map(cost, permutations(range(6))))


class AssemblyLine(Problem):
    """Tasks with predecessors, on as few stations as can be."""

    folder = "assembly_line"
    resources = {1: 1}
    cycle, time = 10, [6, 1, 4, 7, 2, 2, 5, 7, 5]
    before = {2: {0}, 3: {0, 1}, 4: {1}, 5: {2}, 6: {3, 4}, 7: {4}, 8: {5, 6, 7}}

    def start(self):
        return frozenset(range(9)), 0

    def base_cost(self, state):
        return None if state[0] else 0

    def fits(self, task, state):
        left, idle = state
        return self.time[task] <= idle and not self.before.get(task, set()) & left

    def forced(self, state):
        left, _ = state
        if not any(self.fits(task, state) for task in left):
            yield "open", 1, (left, self.cycle)

    def free(self, state):
        left, idle = state
        for task in sorted(left):
            if self.fits(task, state):
                yield f"do {task}", None, (without(left, task), idle - self.time[task])

    def bounds(self, state):
        left, idle = state
        long = sum(2 * self.time[task] > self.cycle for task in left)
        needed = sum(self.time[task] for task in left) - idle
        return [max(0, math.ceil(needed / self.cycle)), long - (2 * idle > self.cycle)]

    def optimum(self):
        def is_line(stations):
            loads = [0] * len(self.time)
            for task, station in enumerate(stations):
                loads[station] += self.time[task]
            ordered = all(stations[a] <= stations[task] for task in self.before for a in self.before[task])
            return ordered and max(loads) <= self.cycle

        return next(n for n in range(1, 9) if any(map(is_line, product(range(n), repeat=len(self.time)))))


class GraphClearing(Problem):
    """Rooms to be swept with as few robots as can be: the greatest number that a step needs counts."""

    folder = "graph_clearing"
    operator = "max"
    sweepers = [2, 4, 1, 3, 2, 5]
    doors = {(0, 1): 2, (0, 2): 1, (0, 3): 3, (1, 4): 1, (1, 5): 1, (2, 3): 2, (2, 4): 1, (3, 5): 2, (4, 5): 3}

    def alone(self, room):
        return self.sweepers[room] + sum(guards for door, guards in self.doors.items() if room in door)

    def start(self):
        return (frozenset(range(6)),)

    def base_cost(self, state):
        return None if state[0] else 0

    def free(self, state):
        for room in sorted(state[0]):
            others = without(state[0], room)
            between = sum(guards for (a, b), guards in self.doors.items() if room not in (a, b) and (a in others) != (b in others))
            yield f"sweep {room}", self.alone(room) + between, (others,)

    def bounds(self, state):
        return [self.alone(room) if room in state[0] else 0 for room in range(6)]

    def optimum(self):
        def robots(order, place):
            """Who sweeps the room at a place, all doors of that room, and the doors from rooms before it to rooms behind it."""
            room, clean, dirty = order[place], order[:place], order[place + 1 :]
            guards = [n for (a, b), n in self.doors.items() if room in (a, b) or (a in clean and b in dirty) or (b in clean and a in dirty)]
            return self.sweepers[room] + sum(guards)

        return min(max(robots(order, place) for place in range(6)) for order in permutations(range(6)))


class PickupDelivery(Problem):
    """One vehicle that fetches orders and brings them, and holds so much at a time."""

    folder = "pickup_delivery"
    hold, size = 5, [3, 2, 2, 1]
    origin, aim = [1, 2, 6, 5], [3, 4, 8, 7]
    points = [(5, 5), (1, 2), (8, 1), (9, 7), (2, 8), (6, 9), (0, 5), (4, 1), (7, 4)]

    def way(self, a, b):
        return sum(abs(x - y) for x, y in zip(self.points[a], self.points[b]))

    def into(self, place):
        return min(self.way(other, place) for other in range(9) if other != place)

    def start(self):
        return frozenset(range(4)), frozenset(), 0

    def base_cost(self, state):
        return 0 if not state[0] | state[1] and state[2] == 0 else None

    def free(self, state):
        waiting, aboard, at = state
        for order in sorted(waiting):
            if sum(self.size[o] for o in aboard) + self.size[order] <= self.hold:
                there = self.origin[order]
                yield f"fetch {order}", self.way(at, there), (without(waiting, order), aboard | {order}, there)
        for order in sorted(aboard):
            there = self.aim[order]
            yield f"bring {order}", self.way(at, there), (waiting, without(aboard, order), there)
        if not waiting | aboard and at != 0:
            yield "home", self.way(at, 0), (waiting, aboard, 0)

    def bounds(self, state):
        waiting, aboard, _ = state
        places = [self.origin[o] for o in waiting] + [self.aim[o] for o in waiting | aboard] + [0]
        return [sum(map(self.into, places))]

    def optimum(self):
        """All orders of the eight places, as a list of which each has to be behind its origin."""
        best = math.inf
        loads = {**dict(zip(self.origin, self.size)), **{b: -size for b, size in zip(self.aim, self.size)}}
        for order in permutations(self.origin + self.aim):
            held = [sum(loads[place] for place in order[: end + 1]) for end in range(8)]
            if max(held) <= self.hold and all(order.index(a) < order.index(b) for a, b in zip(self.origin, self.aim)):
                best = min(best, sum(map(self.way, (0, *order), (*order, 0))))
        return best


class BinPacking(Problem):
    """Items in as few bins as can be."""

    folder = "bin_packing"
    resources = {1: 1}
    capacity, size = 20, [10, 9, 9, 8, 8, 6, 4, 4, 2]

    def start(self):
        return frozenset(range(len(self.size))), 0

    def base_cost(self, state):
        return None if state[0] else 0

    def forced(self, state):
        left, room = state
        if all(self.size[item] > room for item in left):
            first = min(left)
            yield f"open {first}", 1, (without(left, first), self.capacity - self.size[first])

    def free(self, state):
        left, room = state
        for item in sorted(left):
            if self.size[item] <= room:
                yield f"put {item}", None, (without(left, item), room - self.size[item])

    def bounds(self, state):
        left, room = state
        return [max(0, math.ceil((sum(self.size[item] for item in left) - room) / self.capacity))]

    def optimum(self):
        def bins(sizes, rooms):
            """The fewest bins where the first size may go into each bin, and into a new one."""
            if not sizes:
                return len(rooms)
            tried = [bins(sizes[1:], (*rooms[:i], room - sizes[0], *rooms[i + 1 :])) for i, room in enumerate(rooms) if sizes[0] <= room]
            return min([*tried, bins(sizes[1:], (*rooms, self.capacity - sizes[0]))])

        return bins(self.size, ())


class Knapsack(Problem):
    """Crates of several kinds in a van, any number of each, and a rent for the room that is left."""

    folder = "knapsack"
    maximize = True
    resources = {1: 1}
    room, rent = 40, 1
    size, value = [17, 11, 9, 6, 4], [57, 36, 28, 17, 9]

    def start(self):
        return 0, self.room

    def base_cost(self, state):
        return self.rent * state[1] if state[0] == len(self.size) else None

    def free(self, state):
        at, room = state
        if at < len(self.size):
            if self.size[at] <= room:
                yield f"take {at}", self.value[at], (at, room - self.size[at])
            yield "next", None, (at + 1, room)

    def bounds(self, state):
        at, room = state
        return [room * max([self.rent, *(math.ceil(v / s) for v, s in zip(self.value[at:], self.size[at:]))])]

    def optimum(self):
        def worth(counts):
            room = self.room - sum(map(int.__mul__, counts, self.size))
            return -math.inf if room < 0 else sum(map(int.__mul__, counts, self.value)) + self.rent * room

        return max(map(worth, product(*(range(self.room // size + 1) for size in self.size))))


class RoundTour(Problem):
    """A round tour through all towns."""

    folder = "round_tour"
    road = rows("""0 12 9 20 15 7 18
12 0 6 11 17 14 22
10 6 0 13 8 11 16
20 9 13 0 10 19 12
15 17 8 14 0 5 9
7 14 11 19 5 0 13
18 22 16 12 6 13 0""")

    def start(self):
        return frozenset({0}), 0

    def base_cost(self, state):
        return self.road[state[1]][0] if len(state[0]) == 7 else None

    def free(self, state):
        visited, at = state
        for to in range(7):
            if to not in visited:
                yield f"go {to}", self.road[at][to], (visited | {to}, to)

    def bounds(self, state):
        visited, at = state
        others = [town for town in range(7) if town not in visited]
        into = [min(self.road[a][b] for a in range(7) if a != b) for b in [*others, 0]]
        out = [min(self.road[a][b] for b in range(7) if a != b) for a in [*others, at]]
        return [sum(into), sum(out)]

    def optimum(self):
        tours = ((0, *order, 0) for order in permutations(range(1, 7)))
        return min(sum(self.road[a][b] for a, b in zip(tour, tour[1:])) for tour in tours)


class Deliveries(Problem):
    """A van with so much room that brings parcels, and may come back to the depot for more."""

    folder = "deliveries"
    resources = {2: 1}
    hold, demand = 5, [0, 1, 3, 2, 1]
    way = rows("""0 5 4 10 5
5 0 7 5 4
4 7 0 12 7
10 5 12 0 5
5 4 7 5 0""")

    def start(self):
        return frozenset(range(1, len(self.way))), 0, self.hold

    def base_cost(self, state):
        return 0 if not state[0] and state[1] == 0 else None

    def free(self, state):
        left, at, stock = state
        for to in sorted(left):
            if self.demand[to] <= stock:
                yield f"serve {to}", self.way[at][to], (without(left, to), to, stock - self.demand[to])
        if at != 0:
            yield "load", self.way[at][0], (left, 0, self.hold)

    def bounds(self, state):
        left, _, stock = state
        places = range(len(self.way))
        into = [min(self.way[a][b] for a in places if a != b) for b in places]
        loads = math.ceil(max(0, sum(self.demand[c] for c in left) - stock) / self.hold)
        return [sum(into[c] for c in left) + into[0] * (1 + loads)]

    def optimum(self):
        """The best of all ways to cut an order of the customers into tours that the van can hold."""

        def tour(customers):
            return sum(self.way[a][b] for a, b in zip((0, *customers), (*customers, 0)))

        best, count = math.inf, len(self.way) - 1
        for order in permutations(range(1, count + 1)):
            for loads in range(count):
                for cuts in combinations(range(1, count), loads):
                    ends = (0, *cuts, count)
                    tours = [order[a:b] for a, b in zip(ends, ends[1:])]
                    if all(sum(self.demand[c] for c in customers) <= self.hold for customers in tours):
                        best = min(best, sum(map(tour, tours)))
        return best


class PlainDeliveries(Deliveries):
    """Without a bound and a preference."""

    domain, problem = "plain_domain.yaml", "plain_problem.yaml"
    resources = {}

    def bounds(self, _state):
        return []


class CountedTwice(Deliveries):
    """With a bound that is too great."""

    domain = "drafts/counted_twice.yaml"

    def bounds(self, state):
        into = min(row[0] for row in self.way[1:])
        beyond = max(0, sum(self.demand[c] for c in state[0]) - state[2])
        return [bound + into * (1 + math.ceil(beyond / self.hold)) for bound in super().bounds(state)]


class TooMuch(Deliveries):
    """With a customer who demands more than the van holds."""

    problem = "drafts/too_much.yaml"
    demand = [0, 1, 6, 2, 1]


class ULine(AssemblyLine):
    """Tasks on a line in the form of a U: behind all of their predecessors, or before all of their successors."""

    folder = "u_line"
    cycle, time = 10, [3, 2, 5, 2, 8, 8, 8, 7, 4]

    def fits(self, task, state):
        left, idle = state
        after = {other for other, those in self.before.items() if task in those}
        return self.time[task] <= idle and not (self.before.get(task, set()) & left and after & left)

    def optimum(self):
        """The fewest stations of all orders in which each task comes behind its predecessors or before its successors."""
        arcs = [(a, b) for b, those in self.before.items() for a in those]

        def fewest(placed, stations, idle):
            if len(placed) == len(self.time):
                return stations
            found = []
            for task, time in enumerate(self.time):
                behind = all(a in placed for a, b in arcs if b == task)
                ahead = all(b in placed for a, b in arcs if a == task)
                if task not in placed and (behind or ahead):
                    opened = time > idle
                    found.append(fewest(placed | {task}, stations + opened, (self.cycle if opened else idle) - time))
            return min(found)

        return fewest(frozenset(), 0, 0)


class JobShop(Problem):
    """Jobs on three machines: each is a chain of operations, which all have ended as early as can be."""

    folder = "job_shop"
    operator = "max"
    resources = {2: -1, 3: -1, 4: -1, 5: -1}
    jobs = [[(0, 4), (1, 3), (2, 5)], [(0, 2), (2, 4), (1, 4)], [(1, 3), (0, 5), (2, 2)]]
    machine, length = zip(*(pair for job in jobs for pair in job))

    def before(self, o):
        return frozenset(range(o // 3 * 3, o))

    def of_machine(self, m):
        return frozenset(o for o in range(9) if self.machine[o] == m)

    def start(self):
        return frozenset(range(9)), frozenset(), 0, 0, 0, 0

    def base_cost(self, state):
        return None if state[0] or state[1] else 0

    def free(self, state):
        left, running, clock, *ends = state
        for o in sorted(left):
            if not self.before(o) & (left | running) and not self.of_machine(self.machine[o]) & running:
                after = [clock + self.length[o] if m == self.machine[o] else end for m, end in enumerate(ends)]
                yield f"begin {o}", clock + self.length[o], (without(left, o), running | {o}, clock, *after)
        for m, end in enumerate(ends):
            if end and all(end <= other for other in ends if other):
                after = [0 if k == m else other for k, other in enumerate(ends)]
                yield f"end_{m}", None, (left, running - self.of_machine(m), end, *after)

    def bounds(self, state):
        left, _, clock, *ends = state
        of_machines = []
        for m, end in enumerate(ends):
            theirs = left & self.of_machine(m)
            of_machines.append(max(clock, end) + sum(self.length[o] for o in theirs) if theirs else 0)
        return of_machines + [clock + sum(self.length[o : o // 3 * 3 + 3]) if o in left else 0 for o in range(9)]

    def optimum(self):
        """The best of all orders of the operations on each machine."""
        best = math.inf
        for orders in product(*(permutations(sorted(self.of_machine(m))) for m in range(3))):
            ends, done = {}, -1
            while done < len(ends):
                done = len(ends)
                for order in orders:
                    for k, o in enumerate(order):
                        needed = [*([order[k - 1]] if k else []), *([o - 1] if o % 3 else [])]
                        if o not in ends and all(other in ends for other in needed):
                            ends[o] = self.length[o] + max((ends[other] for other in needed), default=0)
            if len(ends) == 9:
                best = min(best, max(ends.values()))
        return best


class VehicleRouting(Problem):
    """Vehicles of one capacity from place 0 to customers, each within its time."""

    folder = "vehicle_routing"
    resources = {2: -1, 3: -1, 4: -1}
    fleet, capacity = 3, 10
    demand = [0, 4, 3, 5, 2, 6, 3, 4]
    ready, due = [0, 0, 15, 0, 20, 5, 30, 10], [90, 30, 60, 45, 70, 40, 80, 55]
    service = [0, 3, 3, 3, 3, 3, 3, 3]
    way = distances([(20, 20), (30, 20), (32, 28), (20, 34), (12, 30), (8, 18), (14, 8), (27, 10)])

    def start(self):
        return frozenset(range(1, 8)), 0, 0, 0, 1

    def base_cost(self, state):
        return 0 if not state[0] and state[1] == 0 else None

    def there(self, at, to, time):
        """When a vehicle is done with a customer, from a place and a time on; None where it comes too late."""
        comes = time + self.way[at][to]
        return max(comes, self.ready[to]) + self.service[to] if comes <= self.due[to] else None

    def free(self, state):
        left, at, load, time, used = state
        for to in sorted(left):
            done = self.there(at, to, time)
            if load + self.demand[to] <= self.capacity and done is not None:
                yield f"visit {to}", self.way[at][to], (without(left, to), to, load + self.demand[to], done, used)
        home = time + self.way[at][0]
        for to in sorted(left):
            done = self.there(0, to, 0)
            if at != 0 and used < self.fleet and home <= self.due[0] and done is not None:
                yield f"send {to}", self.way[at][0] + self.way[0][to], (without(left, to), to, self.demand[to], done, used + 1)
        if not left and at != 0 and home <= self.due[0]:
            yield "home", self.way[at][0], (left, 0, load, time, used)

    def bounds(self, state):
        left, _, load, *_ = state
        into = [min(self.way[a][b] for a in range(8) if a != b) for b in range(8)]
        beyond = max(0, sum(self.demand[c] for c in left) - (self.capacity - load))
        return [sum(into[c] for c in left) + into[0] * (1 + math.ceil(beyond / self.capacity))]

    def optimum(self):
        """The best of all ways to cut an order of the customers into tours."""

        def tour(customers):
            if sum(self.demand[c] for c in customers) > self.capacity:
                return math.inf
            at = time = total = 0
            for to in customers:
                total += self.way[at][to]
                at, time = to, self.there(at, to, time)
                if time is None:
                    return math.inf
            return total + self.way[at][0] if time + self.way[at][0] <= self.due[0] else math.inf

        tours = cache(tour)
        best = math.inf
        for order in permutations(range(1, 8)):
            for parts in range(self.fleet):
                for cuts in combinations(range(1, 7), parts):
                    ends = (0, *cuts, 7)
                    best = min(best, sum(tours(order[a:b]) for a, b in zip(ends, ends[1:])))
        return best
class Hall(Problem):
    """A way through a hall to its exit, with a door that a key opens."""

    folder = "grid"
    comes_back = True
    resources = {2: 1}
    plan = ["#########", "#a..#...#", "#.#.d.#e#", "#.#.#.###", "#..k#...#", "#########"]
    moves = [("right", 1, 0), ("left", -1, 0), ("down", 0, 1), ("up", 0, -1)]

    def place_of(self, thing):
        return next((x, y) for y, row in enumerate(self.plan) for x, what in enumerate(row) if what == thing)

    def start(self):
        return *self.place_of("a"), 0

    def base_cost(self, state):
        return 0 if state[:2] == self.place_of("e") else None

    def free(self, state):
        x, y, key = state
        for name, dx, dy in self.moves:
            what = self.plan[y + dy][x + dx]
            if what != "#" and (what != "d" or key):
                yield name, 1, (x + dx, y + dy, key)
        if (x, y) == self.place_of("k") and not key:
            yield "take", 1, (x, y, 1)

    def steps_between(self, start, end, walls):
        """How many steps a way from one place to another takes, by breadth first search."""
        reached, steps = {start}, 0
        while end not in reached:
            following = reached | {
                (x + dx, y + dy) for x, y in reached for _, dx, dy in self.moves if self.plan[y + dy][x + dx] not in walls
            }
            if following == reached:
                return math.inf
            reached, steps = following, steps + 1
        return steps

    def optimum(self):
        start, key, end = map(self.place_of, "ake")
        return min(self.steps_between(start, end, "#d"), self.steps_between(start, key, "#d") + 1 + self.steps_between(key, end, "#"))


class KeyBehind(Hall):
    """With the key behind the door that it opens."""

    problem = "drafts/key_behind.yaml"
    plan = ["#########", "#a..#...#", "#.#.d.#e#", "#.#.#.###", "#...#..k#", "#########"]


class Ladder(Problem):
    """A step down, and out: with a preference that is dishonest where the nodes of all layers cover."""

    folder, domain, problem = "grid", "drafts/ladder.yaml", "drafts/ladder_from_1.yaml"
    resources = {0: 1}

    def start(self):
        return (1,)

    def base_cost(self, state):
        return 0 if state[0] == 3 else None

    def free(self, state):
        if state[0] == 1:
            yield "down", 0, (0,)
        if state[0] == 0:
            yield "out", 1, (3,)


PROBLEMS = [
    Tour(), Tardiness(), Talent(), AssemblyLine(), GraphClearing(), PickupDelivery(), BinPacking(), Knapsack(), RoundTour(),
    Deliveries(), JobShop(), VehicleRouting(), ULine(), Hall(),
]
# The deliveries, and the ways through a hall, in those files that the guide shows.
OF_THE_GUIDE = [Deliveries(), PlainDeliveries(), CountedTwice(), TooMuch(), Hall(), KeyBehind(), Ladder()]
