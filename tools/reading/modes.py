"""The states of a model by modes: a mode is a value for each element without preference, with what is known there of all other variables.

`Modes` finds those that are reached from the target, by steps over states that are known in part. What it says of them holds of all states that
are reached; it may count some that are not."""

import itertools

from . import symbols
from .expressions import LARGEST
from .symbols import NoValue, Unknown, added, constant, greatest, is_constant, least, minus, negation

MOST_MODES = 3000
# After so many changes of a mode the spans of its integers grow to the next number that stands in the model.
PATIENCE = 12


class Known:
    """What is known in a mode: of each set's members whether they are in (None: not known), and of each integer its span."""

    def __init__(self, bits, spans):
        self.bits, self.spans = bits, spans

    def copy(self):
        return Known({p: list(held) for p, held in self.bits.items()}, dict(self.spans))

    def same(self, other):
        return self.bits == other.bits and self.spans == other.spans


class Move:
    """A step from the states of a mode: what they are before and behind it, by symbols, and its weight, which may be None."""

    __slots__ = ("known", "mode", "now", "step", "then", "weight")

    def __init__(self, mode, known, step, now, weight, then):
        self.mode, self.known, self.step, self.now, self.weight, self.then = mode, known, step, now, weight, then


class Modes:
    def __init__(self, m, clock):
        self.m, self.symbolic, self.clock = m, symbols.Symbolic(m), clock
        self.atoms = self.symbolic.atoms
        self.elements = [v.place for v in m.variables if v.kind == "element" and v.preference == "without"]
        self.sets = [v.place for v in m.variables if v.kind == "set"]
        self.integers = [v.place for v in m.variables if v.kind != "set" and v.place not in self.elements]
        self.forced = [step for step in m.steps if step.transition.forced]
        self.known, self.changes, self.waiting = {}, {}, []
        self.search()
        self.limit()

    def count(self, p):
        return self.m.objects[self.m.variables[p].of].count

    def mode_of(self, state):
        return tuple(state[p] for p in self.elements)

    def state(self, mode, known):
        """The states of a mode by symbols."""
        state = [None] * len(self.m.variables)
        for p, value in zip(self.elements, mode):
            state[p] = value
        for p in self.sets:
            state[p] = [self.atoms.atom(("member", p, k), True, None) if x is None else constant(int(x)) for k, x in enumerate(known.bits[p])]
        for p in self.integers:
            low, high = known.spans[p]
            state[p] = constant(low) if low is not None and low == high else self.atoms.atom(("integer", p, low, high), False, (low, high))
        return state

    # ---- what is known where a condition holds

    def narrow(self, t, mode, known, args, holds=True):
        """Puts into `known` what follows of a condition. Whether there can be a state."""
        op = t.op
        if op == "not":
            return self.narrow(t.parts[0], mode, known, args, not holds)
        if op == ("and" if holds else "or"):
            return all(self.narrow(p, mode, known, args, holds) for p in t.parts)
        state = self.state(mode, known)
        try:
            c = self.symbolic.condition(t, state, args)
        except NoValue:
            return False
        if is_constant(c):
            return bool(c) == holds
        if op == "all" and holds:
            (kind, o), body, _ = t.parts
            over = range(self.m.objects[o].count) if kind == "object" else [k for k, bit in enumerate(state[o]) if bit == constant(1)]
            return all(self.narrow(body, mode, known, (*args, k)) for k in over)
        if op in ("is_in", "is_subset", "is_empty"):
            self.settle(c if holds else negation(c), known)
            return True
        if op in OPPOSITE and not self.symbolic.is_set(t.parts[0]):
            d = self.symbolic.difference(t, state, args)
            return all(self.bound(e, state, known) for e in not_above_0(op if holds else OPPOSITE[op], d))
        return True

    def settle(self, c, known):
        for k, value in self.atoms.settled(c).items():
            key = self.atoms.keys[k]
            if key[0] == "member":
                known.bits[key[1]][key[2]] = bool(value)

    def bound(self, d, state, known):
        """Puts into the spans of integers that d is not above 0. Whether that can be."""
        for p in self.integers:
            if is_constant(state[p]):
                continue
            (key,) = state[p]
            c = d.get(key)
            low = self.atoms.span({k: v for k, v in d.items() if k != key})[0] if c else None
            if low is None:
                continue
            a, b = known.spans[p]
            known.spans[p] = (a, least(b, -low // c)) if c > 0 else (greatest(a, -(-low // -c)), b)
            a, b = known.spans[p]
            if a is not None and b is not None and a > b:
                return False
        return True

    def is_allowed(self, mode, known):
        return all(self.narrow(c.tree, mode, known, ()) for c in self.m.constraints)

    def conditions(self, parts, state, args):
        """The bits of conditions; None where there is no value."""
        try:
            return [self.symbolic.condition(c.tree, state, args) if k == 0 else self.symbolic.lazily(lambda c=c: self.symbolic.condition(c.tree, state, args), True) for k, c in enumerate(parts)]
        except NoValue:
            return None

    def is_base(self, mode, known):
        """Whether all states are base states."""
        state = self.state(mode, known)
        found = (self.conditions(b.conditions, state, ()) for b in self.m.bases)
        return any(bits is not None and all(bit == constant(1) for bit in bits) for bits in found)

    def ends(self, move):
        """The base cases that may hold behind a step, each with whether it surely does. One that says the same as before, in an inner state, does not."""
        out = []
        for base in self.m.bases:
            bits = self.conditions(base.conditions, move.then, ())
            if bits is not None and bits == self.conditions(base.conditions, move.now, ()):
                continue
            if bits is None or all(bits):
                out.append((base, bits is not None and all(bit == constant(1) for bit in bits)))
        return out

    def known_at(self, base, move):
        """The bits that are known where a base case holds behind a step; None where it can't."""
        known = {}
        for c in self.conditions(base.conditions, move.then, ()) or []:
            if not c:
                return None
            known.update(self.atoms.settled(c))
        return known

    # ---- steps

    def entered(self, step, mode, known):
        """What is known where a step is taken; None where it never is."""
        known = known.copy()
        for (_, (kind, o)), k in zip(step.transition.params, step.args):
            if kind == "members":
                if known.bits[o][k] is False:
                    return None
                known.bits[o][k] = True
        for _ in range(2):
            if not all(self.narrow(c.tree, mode, known, step.args) for c in step.transition.preconditions):
                return None
            if not all(self.yields(f, step, mode, known) for f in self.forced):
                return None
        return known

    def yields(self, forced, step, mode, known):
        """Whether a forced step, where it comes first, can be one that is not enabled."""
        if step.transition.forced and forced.number >= step.number:
            return True
        if not all(kind == "object" or known.bits[o][k] is True for (_, (kind, o)), k in zip(forced.transition.params, forced.args)):
            return True
        conditions = forced.transition.preconditions
        return bool(conditions) and (len(conditions) > 1 or self.narrow(conditions[0].tree, mode, known, forced.args, False))

    def behind(self, step, state):
        out = list(state)
        for e in step.transition.effects:
            v = e.variable
            if v.kind == "set":
                out[v.place] = self.symbolic.members(e.tree, state, step.args)
                continue
            value = self.symbolic.number(e.tree, state, step.args)
            if v.place in self.elements:
                if not is_constant(value):
                    raise Unknown(f"what `{v.name}` is behind `{step.text}` is not known from the elements alone")
                value = value.get((), 0)
                if not 0 <= value < 2**32:
                    raise NoValue
            out[v.place] = value
        return out

    def inner(self):
        """The modes with inner states, each with what is known of these."""
        for mode, known in list(self.known.items()):
            known = known.copy()
            if self.is_allowed(mode, known) and not self.is_base(mode, known):
                yield mode, known

    def moves(self):
        for mode, known in self.inner():
            for step in self.m.steps:
                self.clock()
                move = self.move(mode, known, step)
                if move is not None:
                    yield move

    def move(self, mode, known, step):
        inside = self.entered(step, mode, known)
        inside = None if inside is None else self.led(step, mode, inside)
        if inside is None:
            return None
        now, weight = self.state(mode, inside), step.transition.weight
        try:
            return Move(mode, inside, step, now, None if weight is None else self.symbolic.number(weight.tree, now, step.args), self.behind(step, now))
        except NoValue:
            return None

    def led(self, step, mode, known):
        """What is known before a step that leads to a state that is allowed; None where there is none."""
        for _ in range(2):
            now = self.state(mode, known)
            try:
                then = self.behind(step, now)
            except NoValue:
                return known
            if not all(self.pulled(c.tree, then, now, known, ()) for c in self.m.constraints):
                return None
        return known

    def pulled(self, t, then, now, known, args):
        """Puts into `known` what follows before a step of a condition behind it."""
        if t.op == "and":
            return all(self.pulled(p, then, now, known, args) for p in t.parts)
        if t.op == "all":
            (kind, o), body, _ = t.parts
            over = range(self.m.objects[o].count) if kind == "object" else [k for k, bit in enumerate(then[o]) if bit == constant(1)]
            return all(self.pulled(body, then, now, known, (*args, k)) for k in over)
        if t.op in OPPOSITE and not self.symbolic.is_set(t.parts[0]):
            try:
                d = self.symbolic.difference(t, then, args)
            except NoValue:
                return False
            return all((self.atoms.span(e)[0] or 0) <= 0 and self.bound(e, now, known) for e in not_above_0(t.op, d))
        return True

    # ---- the search

    def search(self):
        m = self.m
        given = {0, 1, *(m.target[p] for p in self.integers)}
        for t in m.tables:
            if t.kind == "num" and len(t.args) < 2:
                given |= set(t.cells.values())
        self.marks = sorted(given)
        first = self.mode_of(m.target)
        self.known[first] = Known({p: [k in m.target[p] for k in range(self.count(p))] for p in self.sets}, {p: (m.target[p], m.target[p]) for p in self.integers})
        self.changes[first] = 0
        self.waiting.append(first)
        while self.waiting:
            mode = self.waiting.pop(0)
            known = self.known[mode].copy()
            if self.is_allowed(mode, known) and not self.is_base(mode, known):
                for step in m.steps:
                    self.clock()
                    self.follow(step, mode, known)

    def follow(self, step, mode, known):
        inside = self.entered(step, mode, known)
        if inside is None:
            return
        try:
            then = self.behind(step, self.state(mode, inside))
        except NoValue:
            return
        reached = Known({p: [bool(bit) if is_constant(bit) else None for bit in then[p]] for p in self.sets}, {p: self.atoms.span(then[p]) for p in self.integers})
        to = self.mode_of(then)
        if self.is_allowed(to, reached):
            self.join(to, reached)

    def join(self, mode, reached):
        old = self.known.get(mode)
        if old is None:
            if len(self.known) >= MOST_MODES:
                raise Unknown(f"the elements take more than {MOST_MODES} values together")
            self.known[mode], self.changes[mode] = reached, 0
            self.waiting.append(mode)
            return
        self.changes[mode] += 1
        new = Known({p: [x if x == y else None for x, y in zip(old.bits[p], reached.bits[p])] for p in self.sets}, {})
        for p in self.integers:
            (al, ah), (bl, bh) = old.spans[p], reached.spans[p]
            low, high = (None if al is None or bl is None else min(al, bl)), (None if ah is None or bh is None else max(ah, bh))
            if self.changes[mode] > PATIENCE:
                low = low if low == al or low is None else max((x for x in self.marks if x <= low), default=None)
                high = high if high == ah or high is None else min((x for x in self.marks if x >= high), default=None)
            new.spans[p] = (low, high)
        if not new.same(old):
            self.known[mode] = new
            if mode not in self.waiting:
                self.waiting.append(mode)

    # ---- integers without an end

    def limit(self):
        """Where an integer's span has no end: the sizes of some sets fall with each step, which bounds the steps, and so the integer."""
        open_ = [p for p in self.integers if any(None in known.spans[p] for known in self.known.values())]
        if not open_:
            return
        moves = list(self.moves())
        most = self.most_steps([move for move in moves if not any(sure for _, sure in self.ends(move))])
        for p in open_ if most is not None else ():
            changes = [self.atoms.span(added(move.then[p], move.now[p], -1)) for move in moves]
            low = None if any(a is None for a, _ in changes) else self.m.target[p] + most * min((a for a, _ in changes if a < 0), default=0)
            high = None if any(b is None for _, b in changes) else self.m.target[p] + most * max((b for _, b in changes if b > 0), default=0)
            for known in self.known.values():
                a, b = known.spans[p]
                known.spans[p] = (low if a is None else a, high if b is None else b)
        for known in self.known.values():
            known.spans = {p: (-LARGEST if a is None else a, LARGEST if b is None else b) for p, (a, b) in known.spans.items()}

    def most_steps(self, moves):
        for n in range(1, len(self.sets) + 1):
            for chosen in itertools.combinations(self.sets, n):
                for signs in itertools.product((1, -1), repeat=n):
                    if all((self.atoms.span(added(self.size(move.now, chosen, signs), self.size(move.then, chosen, signs), -1))[0] or 0) >= 1 for move in moves):
                        return 1 + sum(self.count(p) for p in chosen)
        return None

    def size(self, state, chosen, signs):
        r = {}
        for p, sign in zip(chosen, signs):
            for bit in state[p]:
                r = added(r, bit, sign)
        return r


OPPOSITE = {"<": ">=", "<=": ">", ">": "<=", ">=": "<", "=": "!=", "!=": "="}


def not_above_0(op, d):
    """What is not above 0 where the comparison of a difference with 0 holds."""
    return {"<": [added(d, constant(1))], "<=": [d], ">": [added(minus(d), constant(1))], ">=": [minus(d)], "=": [d, minus(d)], "!=": []}[op]
