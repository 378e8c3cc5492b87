"""Numbers of a state that is not known as a whole: polynomials with whole coefficients over bits, which are 0 or 1, and integers within spans.

A polynomial is a map from monomials to coefficients, and a monomial is a tuple of atoms in order. An atom is a member of a set that may be in
or out, an integer, a condition, or a quotient, greatest or least that has no simpler form. The square of a bit is the bit."""

import itertools

MOST_TERMS = 200000
ONE = {(): 1}


class NoValue(Exception):
    """An expression that has no value in any of the states."""


class Unknown(Exception):
    """What is not worked out by polynomials: too long, or of a form that is not known."""


class Atoms:
    """The atoms by number: what each is, whether it is a bit, and its span, in which None is without end."""

    def __init__(self):
        self.keys, self.bits, self.spans, self.numbers, self.fresh = [], [], [], {}, 0

    def atom(self, key, bit, span):
        """The polynomial that is this atom alone."""
        k = self.numbers.get(key)
        if k is None:
            k = self.numbers[key] = len(self.keys)
            self.keys.append(key)
            self.bits.append(bit)
            self.spans.append((0, 1) if bit else span)
        return {(k,): 1}

    def unknown(self, bit):
        """A number, or a truth, of which nothing is known."""
        self.fresh += 1
        return self.atom(("unknown", self.fresh, bit), bit, (None, None))

    def joined(self, m, n):
        """The product of two monomials."""
        if not m or not n:
            return m or n
        out = []
        for k in sorted(m + n):
            if not (out and out[-1] == k and self.bits[k]):
                out.append(k)
        return tuple(out)

    def product(self, a, b):
        if len(a) * len(b) > MOST_TERMS:
            raise Unknown("a product has too many terms")
        r = {}
        for m, v in a.items():
            for n, w in b.items():
                k = self.joined(m, n)
                r[k] = r.get(k, 0) + v * w
        return {k: v for k, v in r.items() if v}

    def span_of(self, monomial):
        found = (1, 1)
        for k in monomial:
            found = product_of_spans(found, self.spans[k])
        return found

    def span(self, p):
        low = high = 0
        for m, v in p.items():
            a, b = (v, v)
            for k in m:
                a, b = product_of_spans((a, b), self.spans[k])
            low = None if low is None or a is None else low + a
            high = None if high is None or b is None else high + b
        return low, high

    def put(self, p, k, q):
        """The polynomial with another one in place of an atom."""
        r = {}
        for m, v in p.items():
            if k not in m:
                r = added(r, {m: v})
                continue
            t = {tuple(x for x in m if x != k): v}
            for _ in range(m.count(k)):
                t = self.product(t, q)
            r = added(r, t)
        return r

    # ---- bits

    def both(self, parts):
        r = constant(1)
        for p in parts:
            r = self.product(r, p)
            if not r:
                break
        return r

    def all_of(self, parts):
        """A conjunction: the product where its parts are single bits, and else an atom."""
        parts = [p for p in parts if p != constant(1)]
        if any(not p for p in parts):
            return {}
        if len(parts) < 2:
            return parts[0] if parts else constant(1)
        if all(len(p) == 1 for p in parts):
            return self.both(parts)
        return self.atom(("and", tuple(sorted({key_of(p) for p in parts}))), True, None)

    def at_most_0(self, d):
        low, high = self.span(d)
        if high is not None and high <= 0:
            return constant(1)
        if low is not None and low > 0:
            return {}
        return self.atom(("le", key_of(d)), True, None)

    def is_0(self, d):
        if is_constant(d):
            return constant(int(not d))
        low, high = self.span(d)
        if low is not None and low > 0 or high is not None and high < 0:
            return {}
        return self.atom(("eq", key_of(d if d[max(d)] > 0 else minus(d))), True, None)

    def settled(self, c):
        """The bits that are known where a condition is 1: the other value would make it 0."""
        known, parts = {}, [c]
        while parts:
            p = parts.pop()
            bits = {k for m in p for k in m if self.bits[k]}
            for k in bits if len(bits) <= 24 else ():
                for v in (0, 1):
                    high = self.span(self.put(p, k, constant(v)))[1]
                    if high is not None and high < 1:
                        known[k] = 1 - v
                        parts += self.parts_of(k, 1 - v, known)
        return known

    def parts_of(self, k, value, known):
        """What follows where a condition is 1: the parts of a conjunction, and the bits of a sum that is at an end of its span."""
        key = self.keys[k]
        if not value:
            return []
        if key[0] == "and":
            return [dict(q) for q in key[1]]
        if key[0] == "eq":
            e = dict(key[1])
            for q in (e, minus(e)):
                if self.span(q)[0] == 0 and all(len(n) <= 1 for n in q):
                    known.update({n[0]: int(w < 0) for n, w in q.items() if n and self.bits[n[0]]})
        return []

    def with_known(self, p, known):
        """The polynomial with bits that are known, within the parts of its atoms too."""
        for k, bit in known.items():
            p = self.put(p, k, constant(bit))
        for k in {k for m in p for k in m}:
            new = self.remade(k, known)
            if new is not None:
                p = self.put(p, k, new)
        return p

    def remade(self, k, known):
        """An atom with bits that are known in its parts; None where it stays as it is."""
        key = self.keys[k]
        if key[0] not in ("max", "min", "div", "and", "le", "eq"):
            return None
        parts = key[1] if key[0] == "and" else key[1:2] if key[0] in ("div", "le", "eq") else key[1:]
        new = [self.with_known(dict(q), known) for q in parts]
        if [key_of(q) for q in new] == list(parts):
            return None
        if key[0] == "div":
            return self.quotient(new[0], key[2])
        if key[0] in ("max", "min"):
            return self.extreme(key[0], *new)
        return self.all_of(new) if key[0] == "and" else self.at_most_0(new[0]) if key[0] == "le" else self.is_0(new[0])

    # ---- numbers that are no sums and products

    def extreme(self, op, a, b):
        low, high = self.span(added(a, b, -1))
        if low is not None and low >= 0:
            return a if op == "max" else b
        if high is not None and high <= 0:
            return b if op == "max" else a
        (al, ah), (bl, bh) = self.span(a), self.span(b)
        if op == "max":
            span = greatest(al, bl), None if ah is None or bh is None else max(ah, bh)
        else:
            span = None if al is None or bl is None else min(al, bl), least(ah, bh)
        return self.atom((op, *sorted((key_of(a), key_of(b)))), False, span)

    def quotient(self, a, d):
        """Rounded toward zero, by a number that is not 0."""
        if d < 0:
            return minus(self.quotient(a, -d))
        if is_constant(a):
            return constant(toward_zero(a.get((), 0), d))
        low, high = self.span(a)
        return self.atom(("div", key_of(a), d), False, tuple(None if x is None else toward_zero(x, d) for x in (low, high)))


def toward_zero(a, d):
    return a // d if a >= 0 else -(-a // d)


def greatest(a, b):
    return b if a is None else a if b is None else max(a, b)


def least(a, b):
    return b if a is None else a if b is None else min(a, b)


def constant(n):
    return {(): n} if n else {}


def is_constant(p):
    return not p or (len(p) == 1 and () in p)


def added(a, b, factor=1):
    r = dict(a)
    for m, v in b.items():
        w = r.get(m, 0) + factor * v
        if w:
            r[m] = w
        else:
            r.pop(m, None)
    return r


def minus(a):
    return {m: -v for m, v in a.items()}


def key_of(p):
    return tuple(sorted(p.items()))


def negation(bit):
    return added(constant(1), bit, -1)


def product_of_spans(a, b):
    """The span of a product; None is without end."""
    endless = float("inf")
    (al, ah), (bl, bh) = ((-endless if low is None else low, endless if high is None else high) for low, high in (a, b))
    ends = [0 if x == 0 or y == 0 else x * y for x in (al, ah) for y in (bl, bh)]
    low, high = min(ends), max(ends)
    return (None if low == -endless else low), (None if high == endless else high)


class Symbolic:
    """The polynomial of each form of expression. A state has for each variable a member's number, a polynomial, or a list of bits."""

    def __init__(self, model):
        self.model, self.atoms = model, Atoms()

    def lazily(self, call, bit):
        """What need not have a value, as the branch that is not taken."""
        try:
            return call()
        except NoValue:
            return self.atoms.unknown(bit)

    def index(self, p, of):
        """The members that a number may be, each with the bit that it is."""
        count = self.model.objects[of].count
        if is_constant(p):
            if not 0 <= p.get((), 0) < count:
                raise NoValue
            return [(constant(1), p.get((), 0))]
        found = ((self.atoms.is_0(added(p, constant(k), -1)), k) for k in range(count))
        return [(bit, k) for bit, k in found if bit]

    def fixed(self, t, state, args):
        """A number that is the same in all of the states, where it is written as one name or number; else None."""
        if t.op == "param":
            return args[t.parts[0]]
        value = t.parts[0] if t.op == "fixed" else state[t.parts[0]] if t.op == "var" else None
        return value if isinstance(value, int) else None

    def cell(self, table, parts, state, args):
        """The one cell that the parts name, where they are fixed and members; else None."""
        at = tuple(self.fixed(p, state, args) for p in parts)
        if all(k is not None and 0 <= k < self.model.objects[o].count for k, o in zip(at, table.args)):
            return table.cells.get(at, table.default)
        return None

    def cells(self, table, parts, state, args):
        one = self.cell(table, parts, state, args)
        if one is not None:
            yield ONE, one
            return
        per = [self.index(self.number(p, state, args), o) for p, o in zip(parts, table.args)]
        if all(len(found) == 1 for found in per) and all(bit == ONE for ((bit, _),) in per):
            yield ONE, table.cells.get(tuple(k for ((_, k),) in per), table.default)
            return
        for combo in itertools.product(*per):
            yield self.atoms.both([c[0] for c in combo]), table.cells.get(tuple(c[1] for c in combo), table.default)

    def number(self, t, state, args):
        op = t.op
        if op == "fixed":
            return constant(t.parts[0])
        if op == "param":
            return constant(args[t.parts[0]])
        if op == "var":
            value = state[t.parts[0]]
            return constant(value) if isinstance(value, int) else value
        if op == "cell":
            r = {}
            for bit, value in self.cells(t.parts[0], t.parts[1], state, args):
                r = constant(value) if bit is ONE else added(r, bit, value)
            return r
        if op == "sum":
            return self.total(t, state, args)
        if op == "size":
            r = {}
            for bit in self.members(t.parts[0], state, args):
                r = added(r, bit)
            return r
        if op == "if":
            return self.choice(t, state, args, self.number, False)
        r = self.number(t.parts[0], state, args)
        for p in t.parts[1:]:
            r = self.arithmetic(op, r, self.number(p, state, args))
        return r

    def total(self, t, state, args):
        table, parts, kinds = t.parts
        per = []
        for p, is_set, o in zip(parts, kinds, table.args):
            per.append([(bit, k) for k, bit in enumerate(self.members(p, state, args)) if bit] if is_set else self.index(self.number(p, state, args), o))
        r = {}
        for combo in itertools.product(*per):
            value = table.cells.get(tuple(c[1] for c in combo), table.default)
            if value:
                r = added(r, self.atoms.both([c[0] for c in combo]), value)
        return r

    def choice(self, t, state, args, call, bit):
        c = self.condition(t.parts[0], state, args)
        if is_constant(c):
            return call(t.parts[1 if c else 2], state, args)
        a = self.lazily(lambda: call(t.parts[1], state, args), bit)
        b = self.lazily(lambda: call(t.parts[2], state, args), bit)
        return added(self.atoms.product(c, a), self.atoms.product(negation(c), b))

    def arithmetic(self, op, a, b):
        if op in ("+", "-"):
            return added(a, b, 1 if op == "+" else -1)
        if op == "*":
            return self.atoms.product(a, b)
        if op in ("max", "min"):
            return self.atoms.extreme(op, a, b)
        if not is_constant(b):
            return self.atoms.unknown(False)
        if not b:
            raise NoValue
        whole = self.atoms.quotient(a, b[()])
        return whole if op == "/" else added(a, self.atoms.product(whole, b), -1)

    def members(self, t, state, args):
        op, atoms = t.op, self.atoms
        if op == "var":
            return state[t.parts[0]]
        if op == "cell":
            out = [{} for _ in range(self.model.objects[t.of].count)]
            for bit, held in self.cells(t.parts[0], t.parts[1], state, args):
                for k in held:
                    out[k] = added(out[k], bit)
            return out
        if op == "if":
            c = self.condition(t.parts[0], state, args)
            if is_constant(c):
                return self.members(t.parts[1 if c else 2], state, args)
            a, b = (self.members(p, state, args) for p in t.parts[1:])
            return [added(atoms.product(c, x), atoms.product(negation(c), y)) for x, y in zip(a, b)]
        if op in ("add", "remove"):
            number, out = self.number(t.parts[0], state, args), list(self.members(t.parts[1], state, args))
            for bit, k in self.index(number, t.of):
                out[k] = negation(atoms.product(negation(out[k]), negation(bit))) if op == "add" else atoms.product(out[k], negation(bit))
            return out
        r = self.members(t.parts[0], state, args)
        if op == "~":
            return [negation(bit) for bit in r]
        for p in t.parts[1:]:
            other = self.members(p, state, args)
            if op == "union":
                r = [negation(atoms.product(negation(x), negation(y))) for x, y in zip(r, other)]
            else:
                r = [atoms.product(x, y if op == "intersection" else negation(y)) for x, y in zip(r, other)]
        return r

    def condition(self, t, state, args):
        op, atoms = t.op, self.atoms
        if op == "fixed":
            return constant(int(t.parts[0]))
        if op == "cell":
            r = {}
            for bit, value in self.cells(t.parts[0], t.parts[1], state, args):
                r = added(r, bit, int(value))
            return r
        if op in ("and", "or"):
            return self.several(t, state, args)
        if op == "not":
            return negation(self.condition(t.parts[0], state, args))
        if op == "if":
            return self.choice(t, state, args, self.condition, True)
        if op == "is_in":
            number, held, r = self.number(t.parts[0], state, args), self.members(t.parts[1], state, args), {}
            for bit, k in self.index(number, t.parts[1].of):
                r = added(r, atoms.product(bit, held[k]))
            return r
        if op == "is_subset":
            a, b = (self.members(p, state, args) for p in t.parts)
            return atoms.all_of([negation(atoms.product(x, negation(y))) for x, y in zip(a, b)])
        if op == "is_empty":
            return atoms.all_of([negation(x) for x in self.members(t.parts[0], state, args)])
        if op == "all":
            return self.for_all(t, state, args)
        return self.comparison(t, state, args)

    def several(self, t, state, args):
        """`and` and `or`; only the first part surely has a value."""
        out = []
        for p in t.parts:
            bit = self.condition(p, state, args) if not out else self.lazily(lambda p=p: self.condition(p, state, args), True)
            out.append(bit if t.op == "and" else negation(bit))
            if not out[-1]:
                break
        r = self.atoms.all_of(out)
        return r if t.op == "and" else negation(r)

    def for_all(self, t, state, args):
        (kind, o), body, _ = t.parts
        out = []
        for k in range(self.model.objects[o].count if kind == "object" else len(state[o])):
            bit = constant(1) if kind == "object" else state[o][k]
            if bit:
                held = self.lazily(lambda k=k: self.condition(body, state, (*args, k)), True)
                out.append(negation(self.atoms.product(bit, negation(held))))
        return self.atoms.all_of(out)

    def comparison(self, t, state, args):
        op, atoms = t.op, self.atoms
        if op in ("=", "!=") and self.is_set(t.parts[0]):
            a, b = (self.members(p, state, args) for p in t.parts)
            r = atoms.all_of([added(atoms.product(x, y), atoms.product(negation(x), negation(y))) for x, y in zip(a, b)])
            return r if op == "=" else negation(r)
        d = self.difference(t, state, args)
        if op in ("=", "!="):
            return atoms.is_0(d) if op == "=" else negation(atoms.is_0(d))
        if op in ("<", ">="):
            r = atoms.at_most_0(added(d, constant(1)))
            return r if op == "<" else negation(r)
        r = atoms.at_most_0(d)
        return r if op == "<=" else negation(r)

    def difference(self, t, state, args):
        return added(*(self.number(p, state, args) for p in t.parts), -1)

    def is_set(self, t):
        if t.op == "var":
            return self.model.variables[t.parts[0]].kind == "set"
        if t.op == "cell":
            return t.parts[0].kind == "set"
        return self.is_set(t.parts[1]) if t.op == "if" else t.op in ("union", "intersection", "difference", "~", "add", "remove")
