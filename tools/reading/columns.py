"""The numbers that a potential has, by column: one for each member of each set that is in it, a multiple of each integer, and one for each mode.

Where they are tolls, those of integers are others in each mode, and those of members in the modes that are near them. Members may also have a number that is
multiplied by an integer, where that integer stands in weights."""

from .symbols import ONE

# How many members are near a mode at least, and how many steps times members there are about.
FEW, PAIRS = 4, 1000


class Columns:
    """`near` has the places where a member has a number of its own: mode, set and member; None where all numbers are the same in all modes."""

    def __init__(self, modes, near=None, timed=()):
        self.modes, self.near, self.timed, self.places = modes, near, timed, {}
        self.by_mode = near is not None
        for p in modes.sets:
            for k in range(modes.count(p)):
                self.put("member", None, p, k)
                for q in timed:
                    self.put("product", None, p, k, q)
        for key in sorted(near or ()):
            self.put("member", *key)
        for mode in modes.known if self.by_mode else [None]:
            for p in modes.integers:
                self.put("integer", mode, p)
        for mode in modes.known:
            self.put("mode", mode)

    def put(self, *key):
        self.places[key] = len(self.places)

    def __len__(self):
        return len(self.places)

    def of(self, kind, mode, *more):
        if kind == "member":
            is_own = self.by_mode and (mode, *more) in self.near
        else:
            is_own = kind == "mode" or self.by_mode and kind == "integer"
        return self.places[kind, mode if is_own else None, *more]

    def height(self, mode, state):
        """The potential of the states of a mode by symbols: for each monomial the columns with their factors."""
        height = {}

        def put(column, polynomial):
            for monomial, a in polynomial.items():
                height.setdefault(monomial, {})[column] = a

        put(self.of("mode", mode), ONE)
        for p in self.modes.sets:
            for k, bit in enumerate(state[p]):
                put(self.of("member", mode, p, k), bit)
                for q in self.timed:
                    put(self.of("product", mode, p, k, q), self.modes.atoms.product(bit, state[q]))
        for p in self.modes.integers:
            put(self.of("integer", mode, p), state[p])
        return height

    def at(self, state):
        """The columns of a state that is known, with their factors."""
        mode = self.modes.mode_of(state)
        found = {self.of("mode", mode): 1}
        for p in self.modes.sets:
            for k in state[p]:
                found[self.of("member", mode, p, k)] = 1
                found.update((self.of("product", mode, p, k, q), state[q]) for q in self.timed)
        for p in self.modes.integers:
            found[self.of("integer", mode, p)] = state[p]
        return found

    def settled(self):
        """The columns of members that are in, or out, in all states that have them, each with the bit and the columns of their modes."""
        found = {}
        for mode, known in self.modes.known.items():
            for p in self.modes.sets:
                for k, bit in enumerate(known.bits[p]):
                    bits, modes = found.setdefault(self.of("member", mode, p, k), (set(), []))
                    bits.add(bit)
                    modes.append(self.of("mode", mode))
        return [(column, bits == {True}, modes) for column, (bits, modes) in found.items() if bits in ({True}, {False})]


def near(modes, moves, count=None):
    """The members that are near a mode: so many that the cheapest steps from it take, and those of which it has one of the cheapest steps. Where no count is
    given, there are the more the fewer steps there are."""
    count = max(FEW, PAIRS // max(1, len(moves))) if count is None else count
    costs = {}
    for move in moves:
        low, high = modes.atoms.span(move.weight or {})
        cost = low if modes.m.minimize else None if high is None else -high
        for p in modes.sets:
            for k, (a, b) in enumerate(zip(move.now[p], move.then[p])):
                if a != b and cost is not None:
                    costs[move.mode, p, k] = min(cost, costs.get((move.mode, p, k), cost))
    groups = {}
    for key in sorted(costs, key=lambda key: (costs[key], key)):
        for group in ("from", key[0]), ("to", *key[1:]):
            groups.setdefault(group, []).append(key)
    return {key for group in groups.values() for key in group[:count]}


def in_weights(modes, moves):
    """The integers that stand in weights, as a time at which something is done."""
    keys = {modes.atoms.keys[k] for move in moves for monomial in move.weight or {} for k in monomial}
    return tuple(p for p in modes.integers if any(key[:2] == ("integer", p) for key in keys))
