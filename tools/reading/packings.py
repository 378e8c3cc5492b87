"""Dual bounds of packings: what is left weighs so much together, and what room there is may take some of it.

In a packing each step takes a member out of those that are left and lowers the room by its size, or opens the next bin, which costs something. The weights
are those of published bounds, which look at sizes as parts of a bin: Martello and Toth's second bound, and functions of Fekete and Schepers (Scholl and Klein's
bounds for lines of stations are two of them). A whole bin weighs `unit`. The credit of a room is what may still go into it at most, so that no step
lets weights less credit fall by more than its cost: that is seen from single steps, and checked here for each room that a step may find.

A credit is written as the least of some sums, each the greater of a line and of a steep one that jumps over the next step: in this form the
solver's rules, which try a side of a greater or lesser number after the other, show for each step that it is enough."""

import math
from fractions import Fraction

from . import potentials, values
from .symbols import Unknown
from .walks import ENDLESS

MOST_ROOM, MOST_PARTS = 20000, 9
# So many sums may a credit be the least of: the solver takes some eight greater and lesser numbers apart, before a step and behind it.
MOST_LEAVES = 8


class Step:
    """A step: the member that it takes or None, the room behind it, how many bins it pays, and the rooms that it may find."""

    def __init__(self, member, behind, bins, low, high):
        self.member, self.behind, self.bins, self.low, self.high = member, behind, bins, low, high


class Packing:
    """What of a model its packings see: sizes, the room of a bin, and what a bin costs."""

    def __init__(self, shape):
        self.shape, self.m, self.modes = shape, shape.m, shape.modes
        if not self.m.minimize:
            raise Unknown("bins are counted under `reduce: min` alone")
        if shape.integer is None:
            raise Unknown("the model has no integer that is the room of a bin")
        weights = [self.weight_of(move) for move in shape.moves]
        if not any(weights):
            raise Unknown("no step pays for a bin")
        self.cost = min(weight for weight in weights if weight)
        found = list(zip(shape.moves, shape.members, shape.growth(), weights))
        self.put_sizes(found)
        self.steps = [self.step_of(*one) for one in found]

    def weight_of(self, move):
        low, _ = self.modes.atoms.span(move.weight or {})
        costs = [low]
        for base, _ in self.modes.ends(move):
            known = self.modes.known_at(base, move)
            if known is None:
                continue
            if any(self.modes.atoms.with_known(bit, known) for bit in self.shape.left(move.then[self.shape.set])):
                raise Unknown("an end may leave members over")
            cost = {} if base.cost is None else self.modes.symbolic.lazily(lambda b=base: self.modes.symbolic.number(b.cost.tree, move.then, ()), False)
            costs.append(self.modes.atoms.span(cost)[0])
        if any(x is None or x < 0 for x in costs):
            raise Unknown("a step may cost less than nothing")
        return low

    def put_sizes(self, found):
        """Sizes are what steps take of the room; a bin has the room that the widest one has when it is opened."""
        self.top = 0 if self.is_room() else max(self.shape.span_of(move.known)[1] for move in self.shape.moves)
        count, openings = self.modes.count(self.shape.set), []
        self.sizes = [None] * count
        for _, member, (grows, floor), _ in found:
            if floor > -ENDLESS:
                openings.append((member, self.top - floor))
            elif member is not None:
                self.sizes[member] = grows if self.sizes[member] is None else min(grows, self.sizes[member])
        self.room = max([room + (self.sizes[k] or 0 if k is not None else 0) for k, room in openings], default=0)
        for k, room in openings:
            if k is not None and self.sizes[k] is None:
                self.sizes[k] = self.room - room
        self.sizes = [0 if size is None else size for size in self.sizes]
        if not openings or not 0 < self.room <= MOST_ROOM or any(not 0 <= size <= self.room for size in self.sizes):
            raise Unknown(f"sizes and rooms are not those of bins with a room of 1 to {MOST_ROOM}")

    def is_room(self):
        """Whether the integer is a room, and not a load."""
        return self.shape.turn(self.shape.integer) < 0

    def step_of(self, move, member, growth, weight):
        (grows, floor), (low, high) = growth, self.shape.span_of(move.known)
        low, high = self.top - high, self.top - low
        if low < 0 or high > self.room:
            raise Unknown("the room may be more than that of a bin, or less than nothing")
        return Step(member, lambda room: min(room - grows, self.top - floor), weight // self.cost, low, high)

    def room_in(self, state):
        return self.top - self.shape.value_of(state)

    def room_text(self):
        name = self.m.variables[self.shape.integer].name
        return name if self.is_room() else f"(- {self.top} {name})"


class Weighing:
    """Weights of members and credits of rooms, in parts of which `unit` are a bin."""

    def __init__(self, packing, function):
        self.packing = packing
        parts = [function(Fraction(room, packing.room)) for room in range(packing.room + 1)]
        whole = math.lcm(*(part.denominator for part in parts))
        shares = [int(part * whole) for part in parts]
        divisor = math.gcd(whole, *shares)
        self.unit, closed = whole // divisor, [credit // divisor for credit in shares]
        self.weights = [closed[size] for size in packing.sizes]
        # the least credit that will do is taken where it can be written in few sums, or is no longer
        least = self.least_credits()
        self.credits, self.leaves = closed, leaves(closed, self.unit)
        if least[-1] <= self.unit and (leaves(least, self.unit) or self.leaves is None and len(pieces(least)) <= len(pieces(closed))):
            self.credits, self.leaves = least, leaves(least, self.unit)

    def least_credits(self):
        """What goes into a room at most, each member as often as one likes."""
        found = [0]
        pairs = sorted({(size, weight) for size, weight in zip(self.packing.sizes, self.weights) if weight and size})
        for room in range(1, self.packing.room + 1):
            found.append(max([found[-1], *(weight + found[room - size] for size, weight in pairs if size <= room)]))
        return found

    def holds(self):
        """Whether no step lets weights less credit fall by more than its cost."""
        return min(self.credits) >= 0 and all(self.holds_at(step, room) for step in self.packing.steps for room in range(step.low, step.high + 1))

    def holds_at(self, step, room):
        behind, weight = step.behind(room), 0 if step.member is None else self.weights[step.member]
        return weight - self.credits[room] + self.credits[max(0, behind)] <= self.unit * step.bins

    def bound(self, state):
        over = sum(self.weights[k] for k in self.packing.shape.left_in(state)) - self.credits[self.packing.room_in(state)] + self.unit - 1
        return self.packing.cost * (over // self.unit if over >= 0 else -(-over // self.unit))

    def text(self, added):
        """The bound, with a table for the weights."""
        shape, room = self.packing.shape, self.packing.room_text()
        v = self.packing.m.variables[shape.set]
        table = added.table("weight", [self.packing.m.objects[v.of].name], {(k,): n for k, n in enumerate(self.weights)})
        weight = f"(sum {table} {f'(~ {v.name})' if shape.fills else v.name})"
        text = self.by_pieces(weight, room) if self.leaves is None else self.bins_text(weight, least_text(self.leaves, room))
        return text if self.packing.cost == 1 else f"(* {self.packing.cost} {text})"

    def by_pieces(self, weight, room):
        """For each piece of the rooms a quotient of its own, where a credit has too many for one sum."""
        text = None
        for first, number, steep in pieces(self.credits):
            here = self.bins_text(weight, line_text(number - steep * first, steep, room))
            text = here if text is None else f"(if (>= {room} {first}) {here} {text})"
        return text

    def bins_text(self, weight, credit):
        """The bins that a weight takes, less a credit."""
        over = weight if credit == "0" else f"(- {weight} {credit})"
        return over if self.unit == 1 else f"(/ (+ {over} {self.unit - 1}) {self.unit})"


def line_text(number, steep, room):
    """A number and so many times the room."""
    if not steep:
        return str(number)
    times = room if steep == 1 else f"(* {steep} {room})"
    return times if not number else f"(+ {times} {number})" if number > 0 else f"(- {times} {-number})"


def least_text(sums, room):
    """The least of some sums, in halves, so that few lesser numbers stand within one another."""
    if len(sums) > 1:
        half = (len(sums) + 1) // 2
        return f"(min {least_text(sums[:half], room)} {least_text(sums[half:], room)})"
    ((number, steep), jump), = sums
    line = line_text(number, steep, room)
    return line if jump is None else f"(max {line} {line_text(*jump, room)})"


def leaves(numbers, steepest):
    """Sums of which the least is a list of numbers that never falls: each a line, as its number at 0 and how steep it is, and a line beside it that jumps over
    the step behind its piece, or None. None where there are more than some."""
    found = []
    for first, last, steep in stairs(numbers):
        if len(found) > MOST_LEAVES:
            return None
        line, end = (numbers[first] - steep * first, steep), numbers[last]
        jump = None if all(line[0] + steep * x >= numbers[x] for x in range(last, len(numbers))) else (end - steepest * last, steepest)
        if (line, None) not in found and (line, jump) not in found:
            found.append((line, jump))
    found = [one for one in found if one[1] is None or (one[0], None) not in found]
    return found if len(found) <= MOST_LEAVES and all(least_of(found, x) == number for x, number in enumerate(numbers)) else None


def stairs(numbers):
    """The pieces of a list by their first and last place and how steep they are, where each line lies above all that is in front of it: else each number is its own."""
    parts = pieces(numbers)
    for k, (first, number, steep) in enumerate(parts):
        last = (parts[k + 1][0] if k + 1 < len(parts) else len(numbers)) - 1
        if all(number - steep * (first - x) >= numbers[x] for x in range(first)):
            yield first, last, steep if last > first else 0
        else:
            yield from ((x, x, 0) for x in range(first, last + 1))


def least_of(sums, x):
    return min(max(number + steep * x, number + steep * x if jump is None else jump[0] + jump[1] * x) for (number, steep), jump in sums)


def pieces(numbers):
    """A list by its pieces: where one begins, its first number, and by how much each further one is greater."""
    found, k = [], 0
    while k < len(numbers):
        steep, last = numbers[k + 1] - numbers[k] if k + 1 < len(numbers) else 0, k + 1
        while last < len(numbers) and numbers[last] - numbers[last - 1] == steep:
            last += 1
        found.append((k, numbers[k], steep))
        k = last
    return found


def functions(packing):
    """Functions of a size as a part of a bin, such that parts that go into a bin together are at most 1 together."""
    yield lambda part: part
    for size in sorted({size for size in packing.sizes if 0 < 2 * size <= packing.room}):
        yield lambda part, least=Fraction(size, packing.room): Fraction(part > 1 - least) or part * (part >= least)
    for parts in range(1, MOST_PARTS + 1):
        yield lambda part, k=parts: part if (part * (k + 1)).denominator == 1 else Fraction(math.floor(part * (k + 1)), k)


class Best:
    """The weighings that say more than the model's own bounds and than one another, at the target or in states of lists that are drawn."""

    def __init__(self, packing, clock):
        self.packing, self.play, self.found = packing, values.Play(packing.m), []
        self.states = [packing.m.target, *(state for state, _ in potentials.drawn_states(packing.m, 1))]
        self.best = [potentials.own_bound(self.play, state) for state in self.states]
        self.candidates = []
        for function in functions(packing):
            clock()
            weighing = Weighing(packing, function)
            if weighing.holds():
                self.candidates.append((weighing, [weighing.bound(state) for state in self.states]))

    def gain(self, said):
        """By how much a bound says more: at the target first, and in all states together."""
        more = [said_ + 1 if best is None else max(0, said_ - best) for said_, best in zip(said, self.best)]
        return more[0], sum(more)

    def take(self, most):
        while self.candidates and len(self.found) < most:
            weighing, said = max(self.candidates, key=lambda one: self.gain(one[1]))
            if self.gain(said)[1] < max(1, len(self.states) // 100):
                break
            self.found.append(weighing)
            self.best = [said_ if best is None else max(said_, best) for said_, best in zip(said, self.best)]
        return self.found
