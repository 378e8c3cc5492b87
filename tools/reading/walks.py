"""Dual bounds that are walks: for models in which a set loses one member after the other, as tours with time windows, or is filled so.

A plan from a state takes each member that is left out once. A walk is weaker: it takes as many members out as are in the set, any of them and the same
one several times, but for the member that was taken out just before the last one. How a walk goes is seen from the mode, the number of members
that are left, and the slot in which an integer lies, which each step lets grow in its own way. Each member has a prize, which a walk gets where it takes
it out; the prizes of the members that are in the set and the cheapest walk with prizes are together a dual bound. The prizes are found by
rounds: a member that the cheapest walk takes out too often gets a lower one, one that it leaves a greater one.

The arrays are those of NumPy. Under `reduce: max` all weights are turned round, so that the cheapest walk is the best."""

import random

from . import values
from .reached import drawn_list
from .symbols import ONE, Unknown, added, is_constant, negation

# What no walk costs. Sums of it stay far from the ends of 64 bits.
ENDLESS = 1 << 50
# By how much the steps of the prizes become smaller in each of 60 rounds, and what is kept of the way before.
SHRINK, KEPT = 0.94, 0.5
PLANS = 30


class Clock:
    """A sum of numbers of the members that were taken, as the time that jobs took. It may stand in weights."""

    def __init__(self, numbers):
        self.numbers = numbers

    def polynomial(self, left):
        """The clock where these are the bits of the members that are left."""
        r = {}
        for number, bit in zip(self.numbers, left):
            r = added(r, negation(bit), number)
        return r

    def text(self, table, name, fills):
        return f"(sum {table} {name})" if fills else f"(- {sum(self.numbers)} (sum {table} {name}))"


class Shape:
    """What of a model its walks see: the set that loses members, and the integer that grows, which may be None, or the clock."""

    def __init__(self, modes, chosen, clock):
        self.modes, self.m, self.sign = modes, modes.m, 1 if modes.m.minimize else -1
        if self.m.operator != "+":
            raise Unknown(f"only costs that are added up are walks', and these are joined by `{self.m.operator}`")
        self.clock, self.set = clock, self.set_of(chosen)
        self.moves = list(modes.moves())
        if not any(move.mode == modes.mode_of(self.m.target) for move in self.moves):
            raise Unknown("no step leads on from the target")
        self.fills = any(a == {} and b == ONE for move in self.moves for a, b in zip(move.now[self.set], move.then[self.set]))
        self.members = [self.taken_by(move) for move in self.moves]
        self.integer = self.integer_of(chosen)
        self.clock_of_set = self.clock_in_weights() if self.integer is None else None

    def has_slots(self):
        return self.integer is not None or self.clock_of_set is not None

    def clock_in_weights(self):
        """The clock that stands in weights as a side of a max; None where none does."""
        numbers = [0] * self.modes.count(self.set)
        for move in self.moves:
            for monomial in move.weight or {}:
                for k, number in self.paces_in(monomial):
                    numbers[k] = max(numbers[k], number)
        return Clock(numbers) if any(numbers) else None

    def paces_in(self, monomial):
        """The members of the set with their numbers, where the monomial is a max with a sum of them that grows with each that is taken."""
        atoms = self.modes.atoms
        key = atoms.keys[monomial[0]] if len(monomial) == 1 else ("",)
        for side in map(dict, key[1:] if key[0] == "max" else ()):
            bits = [(atoms.keys[m[0]], a) for m, a in side.items() if len(m) == 1]
            if bits and len(bits) + (() in side) == len(side) and all(k[:2] == ("member", self.set) and (a > 0) == self.fills for k, a in bits):
                return [(k[2], abs(a)) for k, a in bits]
        return []

    def growth(self):
        """For each step a and b where what has slots becomes max(itself + a, b)."""
        if self.integer is not None:
            return self.growth_of(self.integer)
        if self.clock_of_set is not None:
            return [(0 if member is None else self.clock_of_set.numbers[member], -ENDLESS) for member in self.members]
        return [(0, -ENDLESS)] * len(self.moves)

    def rising(self, move):
        """The parts of a step's weight that grow with the clock: factor, and what is added to the clock and the least of it in max(clock + a, b); and the rest."""
        weight, found = dict(move.weight or {}), []
        if self.clock_of_set is None:
            return found, weight
        now = self.clock_of_set.polynomial(self.left(move.now[self.set]))
        for monomial, factor in list(weight.items()):
            if len(monomial) != 1 or self.sign * factor < 0:
                continue
            key = self.modes.atoms.keys[monomial[0]]
            sides = [added(dict(q), now, -1) for q in key[1:]] if key[0] == "max" else []
            fixed = [dict(q).get((), 0) for q in key[1:] if is_constant(dict(q))] if sides else []
            grown = [q.get((), 0) for q in sides if is_constant(q)]
            if len(fixed) == 1 and len(grown) == 1 and self.sign > 0:
                found.append((factor, grown[0], fixed[0]))
                del weight[monomial]
        return found, weight

    def place_of(self, name, places, what):
        found = [p for p in places if self.m.variables[p].name == name]
        if not found:
            raise Unknown(f"`{name}` is no {what} of this model")
        return found[0]

    def set_of(self, chosen):
        if chosen[0]:
            return self.place_of(chosen[0], self.modes.sets, "set variable")
        if not self.modes.sets:
            raise Unknown("the model has no set that could lose members")
        return max(self.modes.sets, key=self.modes.count)

    def left(self, bits):
        """Of each member the bit that it is left: it is in a set that loses members, and not in one that is filled."""
        return [negation(bit) for bit in bits] if self.fills else bits

    def left_in(self, state):
        return set(range(self.modes.count(self.set))) - set(state[self.set]) if self.fills else set(state[self.set])

    def taken_by(self, move):
        """The member that a step takes out of those that are left; None where it takes none."""
        found, name = [], self.m.variables[self.set].name
        for k, (a, b) in enumerate(zip(self.left(move.now[self.set]), self.left(move.then[self.set]))):
            if a != b:
                found.append(k)
                if a != ONE or b:
                    raise Unknown(f"`{move.step.text}` does more to `{name}` than take one member out of those that are left")
        if len(found) > 1:
            raise Unknown(f"`{move.step.text}` changes several members of `{name}`")
        return found[0] if found else None

    def turn(self, p):
        """-1 where more of an integer is better, as of a stock: then it is its opposite that grows."""
        return -1 if self.m.variables[p].preference == "greater" else 1

    def integer_of(self, chosen):
        if chosen[1]:
            p = self.place_of(chosen[1], self.modes.integers, "integer variable")
            if self.growth_of(p) is None:
                raise Unknown(f"`{chosen[1]}` does not grow by a number in each step")
            return p
        return next((p for p in self.modes.integers if self.growth_of(p) is not None), None)

    def growth_of(self, p):
        """For each step a and b where the integer becomes max(itself + a, b); None where one step is of another form."""
        found = [self.form_of(move, p) for move in self.moves]
        return None if None in found else found

    def form_of(self, move, p):
        turn = self.turn(p)
        now, then = ({monomial: turn * a for monomial, a in state[p].items()} for state in (move.now, move.then))
        if is_constant(then):
            return (-ENDLESS, then.get((), 0))
        d = added(then, now, -1)
        if is_constant(d):
            return (d.get((), 0), -ENDLESS)
        if len(then) == 1:
            ((key, factor),) = then.items()
            atom = self.modes.atoms.keys[key[0]] if len(key) == 1 and factor == turn else ("",)
            if atom[0] == ("max" if turn > 0 else "min"):
                sides = [{monomial: turn * a for monomial, a in q} for q in atom[1:]]
                fixed = [q for q in sides if is_constant(q)]
                grown = [added(q, now, -1) for q in sides if not is_constant(q)]
                if len(fixed) == 1 and len(grown) == 1 and is_constant(grown[0]):
                    return (grown[0].get((), 0), fixed[0].get((), 0))
        return None

    def span_of(self, known):
        """The span of what has slots: the integer, its opposite, or the clock."""
        if self.clock_of_set is not None:
            taken = [None if bit is None else bit is self.fills for bit in known.bits[self.set]]
            numbers = self.clock_of_set.numbers
            return sum(n for n, bit in zip(numbers, taken) if bit is True), sum(n for n, bit in zip(numbers, taken) if bit is not False)
        low, high = known.spans[self.integer]
        return (low, high) if self.turn(self.integer) > 0 else (-high, -low)

    def value_of(self, state):
        if self.clock_of_set is not None:
            left = self.left_in(state)
            return sum(n for k, n in enumerate(self.clock_of_set.numbers) if k not in left)
        return self.turn(self.integer) * state[self.integer]

    def name_of(self):
        return "a clock of the set" if self.clock_of_set is not None else f"`{self.m.variables[self.integer].name}`"


class Arcs:
    """The steps as arrays: from which mode to which, the member that is taken out or -1, the weight, and slots before and behind."""

    def __init__(self, shape, np, slots):
        self.shape, self.np, modes = shape, np, shape.modes
        self.modes = list(modes.known)
        number = {mode: k for k, mode in enumerate(self.modes)}
        self.size = max(sum(bit is not shape.fills for bit in known.bits[shape.set]) for known in modes.known.values())
        growth = shape.growth()
        self.put_slots(slots, growth)
        # members that may be left at an end: no plan need take them, so their prizes are not above 0
        self.optional, rows = set(), []
        for move, member, (grows, floor) in zip(shape.moves, shape.members, growth):
            rows += self.rows_of(move, member, grows, floor, number)
        if not rows:
            raise Unknown("no step was found")
        rows.sort(key=lambda row: row[0])
        *columns, rising = zip(*rows)
        self.origin, self.to, self.member, weight, self.grows, self.floor, self.latest, self.least, self.most = (np.array(column, np.int64) for column in columns)
        self.index()
        self.weights = weight[:, None] + np.zeros(self.slots, np.int64)
        for k, parts in enumerate(rising):
            for factor, more, floor in parts:
                self.weights[k] += factor * np.maximum(self.times + more, floor)

    def put_slots(self, slots, growth):
        """How wide slots are, and where they begin."""
        shape = self.shape
        if not shape.has_slots():
            self.first, self.width, self.slots = 0, 1, 1
            return
        if slots is None:
            slots = max(100, min(2000, 40000 // (len(self.modes) * max(1, self.size))))
        self.first = min(shape.span_of(known)[0] for known in shape.modes.known.values())
        tops = [high for high in (shape.span_of(move.known)[1] for move in shape.moves) if high < ENDLESS]
        tops += [floor for _, floor in growth if floor > -ENDLESS]
        if not tops or abs(self.first) >= ENDLESS:
            raise Unknown(f"{shape.name_of()} has no limits")
        top = max(max(tops), self.first)
        self.width = max(1, -(-(top - self.first + 1) // slots))
        self.slots = (top - self.first) // self.width + 1

    def sizes_of(self, bits, known=None):
        """How many members may be in a set of these bits."""
        low = high = 0
        for bit in bits:
            a, b = self.shape.modes.atoms.span(self.shape.modes.atoms.with_known(bit, known) if known else bit)
            low, high = low + max(0, a), high + min(1, b)
        return low, high

    def rows_of(self, move, member, grows, floor, number):
        """A row for the step to an inner state, and one for each end behind it; a row's sizes are those before the step."""
        shape, modes = self.shape, self.shape.modes
        latest = min(ENDLESS, shape.span_of(move.known)[1]) if shape.has_slots() else ENDLESS
        rising, weight = shape.rising(move)
        origin, taken = number[move.mode], 0 if member is None else 1
        low, high = self.sizes_of(shape.left(move.now[shape.set]))
        ends = modes.ends(move)
        rows = []
        if not any(sure for _, sure in ends):
            to = modes.mode_of(move.then)
            if to in number:
                rows.append((origin, number[to], -1 if member is None else member, self.least_of(weight), grows, floor, latest, low, high, rising))
        for base, _ in ends:
            known = modes.known_at(base, move)
            if known is not None:
                cost = {} if base.cost is None else modes.symbolic.lazily(lambda b=base: modes.symbolic.number(b.cost.tree, move.then, ()), False)
                left = shape.left(move.then[shape.set])
                self.optional |= {k for k, bit in enumerate(left) if modes.atoms.span(modes.atoms.with_known(bit, known))[1] > 0}
                a, b = self.sizes_of(left, known)
                rows.append((origin, -1, -1 if member is None else member, self.least_of(added(weight, cost)), grows, floor, latest, max(low, a + taken), min(high, b + taken), rising))
        return rows

    def least_of(self, weight):
        low, high = self.shape.modes.atoms.span(weight)
        end = low if self.shape.sign > 0 else high
        if end is None or abs(end) > 10**12:
            raise Unknown("a weight has no limits")
        return self.shape.sign * end

    def index(self):
        """What the rounds use again and again: the arcs of each mode side by side, filled up to the same count, and slots behind each arc."""
        np = self.np
        self.times = times = self.first + self.width * np.arange(self.slots, dtype=np.int64)
        behind = np.maximum(times[None, :] + self.grows[:, None], self.floor[:, None])
        self.in_time = times[None, :] <= self.latest[:, None]
        self.behind = np.clip((behind - self.first) // self.width, 0, self.slots - 1)
        starts = np.flatnonzero(np.concatenate(([True], self.origin[1:] != self.origin[:-1])))
        counts = np.diff(np.append(starts, len(self.origin)))
        self.from_modes = self.origin[starts]
        side = np.arange(counts.max())[None, :]
        self.is_there = side < counts[:, None]
        self.dense = np.where(self.is_there, starts[:, None] + side, 0)
        self.cells = np.maximum(0, self.to)[:, None] * self.slots + self.behind
        # the member that every step into a mode takes out, else -2
        entered = {}
        for to, member in zip(self.to.tolist(), self.member.tolist()):
            if to >= 0:
                entered.setdefault(to, set()).add(member)
        first = self.modes.index(self.shape.modes.mode_of(self.shape.m.target))
        own = [min(entered[k]) if len(entered.get(k, ())) == 1 and min(entered[k]) >= 0 and k != first else -2 for k in range(len(self.modes))]
        self.own = np.array(own, np.int64)[self.origin]


class Walks:
    """The cheapest walks for some prizes, by the number of members that are left, the mode, and the slot. `value` are those of all walks, `first` the
    member that the cheapest one takes out first, and `other` those that begin with another one."""

    def __init__(self, arcs, prizes):
        np, self.arcs, self.prizes = arcs.np, arcs, prizes
        shape = (arcs.size + 1, len(arcs.modes), arcs.slots)
        self.value, self.other, self.first = np.full(shape, ENDLESS, np.int64), np.full(shape, ENDLESS, np.int64), np.full(shape, -1, np.int64)
        self.cost = arcs.weights - np.where(arcs.member >= 0, np.append(prizes, 0)[arcs.member], 0)[:, None]
        self.takes, self.ends = arcs.member >= 0, arcs.to < 0
        self.stays = np.flatnonzero(~self.takes & ~self.ends)
        self.dense_cost = np.where(arcs.in_time, self.cost, ENDLESS)[arcs.dense]
        self.dense_cost[~arcs.is_there] = ENDLESS
        for size in range(arcs.size + 1):
            self.layer(size)
            rounds = 0
            while len(self.stays) and self.stay(size):
                rounds += 1
                if rounds > len(arcs.modes) + 2:
                    raise Unknown("steps that take no member make walks cheaper again and again")

    def usable(self, size):
        a = self.arcs
        return (self.takes | self.ends) & (a.least <= size) & (size <= a.most)

    def layer(self, size):
        """The walks with so many members left, by those with one less; and those that end."""
        np, a = self.arcs.np, self.arcs
        v = np.full((len(a.origin), a.slots), ENDLESS, np.int64)
        usable = self.usable(size)
        go = np.flatnonzero(usable & ~self.ends)
        if size and len(go):
            cells = a.cells[go]
            value, other, first = (x[size - 1].ravel() for x in (self.value, self.other, self.first))
            v[go] = np.where(first[cells] == a.own[go, None], other[cells], value[cells])
        v[usable & self.ends] = 0
        v = np.minimum(v[a.dense] + self.dense_cost, ENDLESS)
        best = v.argmin(axis=1)
        value = np.take_along_axis(v, best[:, None, :], 1)[:, 0, :]
        member = a.member[a.dense]
        first = np.where(value < ENDLESS, np.take_along_axis(member, best, 1), -1)
        np.put_along_axis(v, best[:, None, :], ENDLESS, 1)
        if self.is_mixed():
            v = np.where((member[:, :, None] == first[:, None, :]) & (first[:, None, :] >= 0), ENDLESS, v)
        self.value[size, a.from_modes], self.first[size, a.from_modes], self.other[size, a.from_modes] = value, first, v.min(axis=1)

    def is_mixed(self):
        """Whether a mode has several arcs for one member."""
        a = self.arcs
        if not hasattr(a, "mixed"):
            pairs = list(zip(a.origin.tolist(), a.member.tolist()))
            a.mixed = len(set(pairs)) < len(pairs)
        return a.mixed

    def stay(self, size):
        """Steps that take no member out. Whether one made a walk cheaper."""
        np, a, better = self.arcs.np, self.arcs, False
        for k in self.stays[(a.least[self.stays] <= size) & (size <= a.most[self.stays])]:
            v = self.value[size, a.to[k], a.behind[k]]
            v = np.where(a.in_time[k] & (v < ENDLESS), v + self.cost[k], ENDLESS)
            origin = a.origin[k]
            less = v < self.value[size, origin]
            self.value[size, origin] = np.where(less, v, self.value[size, origin])
            self.first[size, origin] = np.where(less, -1, self.first[size, origin])
            self.other[size, origin] = np.minimum(v, self.other[size, origin])
            better = better or bool(less.any())
        return better

    def place(self, state):
        """Size, mode and slot of a state."""
        a, shape = self.arcs, self.arcs.shape
        slot = min(a.slots - 1, (shape.value_of(state) - a.first) // a.width) if shape.has_slots() else 0
        return len(shape.left_in(state)), a.modes.index(shape.modes.mode_of(state)), slot

    def bound(self, state):
        """What prizes and the cheapest walk are together."""
        return int(self.value[self.place(state)]) + int(sum(int(self.prizes[k]) for k in self.arcs.shape.left_in(state)))

    def taken(self, state):
        """How often the cheapest walk from a state takes each member out."""
        a, (size, mode, slot), own = self.arcs, self.place(state), -2
        count = [0] * len(self.prizes)
        for _ in range(4 * (a.size + 2)):
            k = self.cheapest(size, mode, slot, own)
            if k is None:
                break
            member, own = int(a.member[k]), int(a.own[k])
            if member >= 0:
                count[member] += 1
                size -= 1
            if a.to[k] < 0:
                break
            mode, slot = int(a.to[k]), int(a.behind[k, slot])
        return count

    def cheapest(self, size, mode, slot, own):
        """The first arc of a cheapest walk that does not begin with a member; None where there is no walk."""
        np, a, best = self.arcs.np, self.arcs, None
        for k in np.flatnonzero((a.origin == mode) & a.in_time[:, slot] & (a.least <= size) & (size <= a.most) & (a.member != own)).tolist():
            to, before = int(a.to[k]), size - (1 if a.member[k] >= 0 else 0)
            if to >= 0 and before < 0:
                continue
            at = (before, to, int(a.behind[k, slot]))
            rest = 0 if to < 0 else int(self.other[at] if self.first[at] == a.own[k] else self.value[at])
            if rest < ENDLESS and (best is None or rest + self.cost[k, slot] < best[0]):
                best = (rest + self.cost[k, slot], k)
        return None if best is None else best[1]


def drawn_cost(m, seed):
    """The best cost of plans that are drawn by chance; None where none came to an end."""
    play, draw, best = values.Play(m), random.Random(seed), None
    for _ in range(PLANS):
        steps = drawn_list(play, draw)
        cost = None if steps is None else values.replayed(m, steps)[1].cost
        if cost is not None and (best is None or play.better(cost, best)):
            best = cost
    return best


def best_walks(arcs, rounds, clock, tell):
    """The walks with the best prizes that were found for the target."""
    np, m = arcs.np, arcs.shape.m
    inside, plan = sorted(arcs.shape.left_in(m.target)), drawn_cost(m, 1)
    prizes = np.zeros(arcs.shape.modes.count(arcs.shape.set), float)
    way, step, best = np.zeros(len(inside)), 1.0, None
    for k in range(rounds):
        found = Walks(arcs, np.rint(prizes).astype(np.int64))
        bound = found.bound(m.target)
        tell(f"round {k + 1} of {rounds}: {arcs.shape.sign * bound} at the target")
        if best is None or bound > best.bound(m.target):
            best = found
        elif k == rounds * 2 // 3:
            # the last rounds look near the best that was found
            prizes, found, bound = best.prizes.astype(float), best, best.bound(m.target)
        count = found.taken(m.target)
        wanted = np.array([1 - count[j] for j in inside])
        if not wanted.any() or clock.is_over() or bound >= ENDLESS // 2:
            break
        # a part of the way before is kept, and steps become shorter; how far it is to a plan says how long they are, where one was drawn
        way = wanted + KEPT * way
        gap = max(1, arcs.shape.sign * plan - bound) if plan is not None else max(1.0, float(np.abs(arcs.weights).mean()) * len(inside) / 4)
        prizes[inside] += step * gap / max(1.0, float(way @ way)) * way
        step *= SHRINK ** (60 / rounds)
        for j in arcs.optional:
            prizes[j] = min(0.0, prizes[j])
    return best
