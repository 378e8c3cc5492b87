"""Potentials of knapsacks: prices of what is scarce, found by Lagrange, without a linear program.

Where each integer has a price, the inequalities of a potential say how far apart the numbers of modes may be: the best ones are the cheapest ways from
the modes to the ends. What a state is worth then is concave in the prices, and the cheapest ways tell how steep it is. One price is found
exactly, as the place at which two lines meet; several are found in rounds. Members of sets have no prices here.

Under `reduce: max` all numbers are turned round."""

from fractions import Fraction

from .potentials import Potential
from .symbols import Unknown

ROUNDS, SHRINK = 200, 0.97
# Prices that are tried as too high.
ENDS = (10**6, 1000, 10)
# What stands for 1 where several prices are found in rounds.
UNIT = 10000


class Arc:
    """An inequality that two modes have to keep, or one mode at an end: what prices do to it."""

    __slots__ = ("origin", "parts", "to")

    def __init__(self, row, modes, prices, sign):
        columns, number = row.free
        found = {1: [], -1: []}
        for j, a in columns.items():
            if j in modes and a:
                found.setdefault(sign * a, []).append(j)
        if len(found) > 2 or any(len(group) > 1 for group in found.values()):
            raise Unknown("a step is of a form that has no cheapest ways")
        self.origin, self.to = (next(iter(found[a]), None) for a in (1, -1))
        # a part is what lies in a span, times a number that is linear in the prices
        self.parts = [(1, 1, {prices[j]: sign * a for j, a in columns.items() if j in prices}, number)]
        self.parts += [(low, high, {prices[j]: sign * a for j, a in mine.items() if j in prices}, own) for low, high, mine, own in row.parts]

    def length(self, values, unit):
        """How far the first mode's number may be above the other's, and how steep that is in each price; None where nothing is far enough."""
        total, steep = 0, [0] * len(values)
        for low, high, factors, number in self.parts:
            e = number * unit + sum(a * values[k] for k, a in factors.items())
            end = high if e > 0 else low
            if end is None:
                if e:
                    return None
                continue
            total += e * end
            for k, a in factors.items():
                steep[k] += a * end
        return -total, [-a for a in steep]


class Ways:
    """The cheapest ways from modes to the ends, for prices of which `unit` stand for 1."""

    def __init__(self, lagrange, values, unit):
        self.values, self.unit, self.length, self.steep = values, unit, {}, {}
        arcs = []
        for arc in lagrange.arcs:
            found = arc.length(values, unit)
            if found is None or arc.origin == arc.to and found[0] < 0:
                raise NoWay(found)
            if arc.origin not in (arc.to, None):
                arcs.append((arc.origin, arc.to, *found))
        for _ in range(len(lagrange.modes) + 2):
            if not self.improve(arcs):
                return
        raise NoWay(None)

    def improve(self, arcs):
        better = False
        for origin, to, far, steep in arcs:
            if to is not None and to not in self.length:
                continue
            length = far + (0 if to is None else self.length[to])
            if origin not in self.length or length < self.length[origin]:
                self.length[origin] = length
                self.steep[origin] = steep if to is None else [a + b for a, b in zip(steep, self.steep[to])]
                better = True
        return better


class NoWay(Exception):
    """Prices that no potential has; where one inequality shows that, how far it is from being kept, and how steep that is in each price."""

    def __init__(self, loop):
        super().__init__()
        self.loop = loop


class Lagrange:
    """The prices of a model's integers."""

    def __init__(self, inequalities, clock):
        self.inequalities, self.clock, self.sign = inequalities, clock, inequalities.sign
        columns = inequalities.columns
        if not inequalities.modes.integers:
            raise Unknown("the model has no integer variable, so nothing that is scarce has a price")
        self.prices = {columns.of("integer", None, p): k for k, p in enumerate(inequalities.modes.integers)}
        self.modes = {j: key[1] for key, j in columns.places.items() if key[0] == "mode"}
        # ways are looked for from the ends on
        self.arcs = [Arc(row, self.modes, self.prices, self.sign) for row in reversed([*inequalities.rows, *inequalities.floors])]

    def worth(self, values, unit, aim):
        """What an aim is worth with prices, in parts of which `unit` stand for 1, and how steep that is; None where there is no potential."""
        self.clock()
        try:
            ways = Ways(self, values, unit)
        except NoWay:
            return None
        total, steep = 0, [0] * len(values)
        for j, a in aim.items():
            if j in self.prices:
                total += a * values[self.prices[j]]
                steep[self.prices[j]] += a
            elif j in ways.length:
                total += a * ways.length[j]
                steep = [x + a * y for x, y in zip(steep, ways.steep[j])]
        return total, steep

    def potential(self, values, unit):
        """The potential with these prices, in whole numbers; None where an inequality does not hold."""
        try:
            ways = Ways(self, values, unit)
        except NoWay:
            return None
        whole = [0] * len(self.inequalities.columns)
        for j, k in self.prices.items():
            whole[j] = self.sign * values[k]
        for j, length in ways.length.items():
            whole[j] = self.sign * length
        return Potential(whole, unit) if self.inequalities.holds(whole, unit) else None

    def potentials(self, aim):
        """The best potential for an aim, where one was found."""
        start, found = [0] * len(self.prices), None
        if len(start) == 1:
            price = self.met(aim, self.first_price())
            found = None if price is None else self.potential([price.numerator], price.denominator)
        elif self.worth(start, 1, aim) is not None:
            found = self.potential(self.in_rounds(aim, start), UNIT)
        return [] if found is None else [found]

    def first_price(self):
        """The price next to 0 that a potential has, where steps that stay in a mode ask for one; None where none was found."""
        price = Fraction(0)
        for _ in range(len(self.arcs) + 1):
            try:
                Ways(self, [price.numerator], price.denominator)
                return price
            except NoWay as none:
                if none.loop is None or not none.loop[1][0]:
                    return None
                price -= Fraction(none.loop[0], price.denominator) / none.loop[1][0]
        return None

    def line(self, price, aim):
        """The line of what an aim is worth at a price: how high it is at 0, how steep it is, and its value; None where there is no potential."""
        found = self.worth([price.numerator], price.denominator, aim)
        if found is None:
            return None
        value, steep = Fraction(found[0]) / price.denominator, found[1][0]
        return value - steep * price, steep, value

    def met(self, aim, price):
        """The price from this one on with which an aim is worth most: two lines meet there, one that rises and one that falls."""
        near = None if price is None else self.line(price, aim)
        if near is None or not near[1]:
            return price
        far = next(filter(None, (self.line(price + (end if near[1] > 0 else -end), aim) for end in ENDS)), None)
        while far is not None and near[1] * far[1] < 0:
            price = (far[0] - near[0]) / (near[1] - far[1])
            here = self.line(price, aim)
            if here is None or not here[1] or here[2] >= near[0] + near[1] * price:
                break
            near, far = (here, far) if here[1] * near[1] > 0 else (near, here)
        return price

    def in_rounds(self, aim, start):
        """Prices of several integers, in rounds along the way that is steepest."""
        scale = [max(1.0, abs(float(aim.get(j, 0)))) for j in self.prices]
        best, floats = start, [float(x) for x in start]
        most, steep = self.worth(start, UNIT, aim)
        step = max(1.0, abs(float(most)) / 4)
        for _ in range(ROUNDS):
            way = [float(g) / (s * s) for g, s in zip(steep, scale)]
            size = sum(float(g) * w for g, w in zip(steep, way))
            if not size:
                break
            floats, step = [x + step * w / size for x, w in zip(floats, way)], step * SHRINK
            values = [round(x) for x in floats]
            found = self.worth(values, UNIT, aim)
            if found is None:
                floats, step = [float(x) for x in best], step / 2
                continue
            if found[0] > most:
                best, most = values, found[0]
            steep = found[1]
        return best
