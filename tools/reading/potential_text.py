"""The text of potentials: tables for their numbers, and the expressions of their sums."""

from .potentials import Potential
from .symbols import Unknown


class Writer:
    """Puts the tables and the expressions of potentials into what is added."""

    def __init__(self, m, found, added):
        self.m, self.found, self.added, self.columns = m, found, added, found.columns
        self.elements = [m.variables[p] for p in found.modes.elements]
        self.objects = [m.objects[v.of].name for v in self.elements]
        self.at = " ".join(v.name for v in self.elements)
        self.word = "toll" if self.columns.by_mode else "potential"

    def write(self, potential):
        """A quotient, or where it is split what is whole of each number and a quotient of what is left, which is never below 0."""
        unit, whole = potential.unit, []
        if unit > 1 and self.found.is_split:
            whole = self.parts(Potential([x // unit for x in potential.whole], 1), self.word)
            potential = Potential([x % unit for x in potential.whole], unit)
        rest = quotient(self.parts(potential, f"{self.word}_rest" if whole else self.word) or ["0"], unit, self.m.minimize)
        self.added.bounds.append(f"(+ {' '.join(whole)} {rest})" if whole else rest)

    def parts(self, potential, word):
        """The parts of a sum, with tables whose names begin with a word."""
        self.begins, modes, parts = word, self.found.modes, []
        for p in modes.sets:
            parts += self.of_set(potential, p)
            for q in self.columns.timed:
                parts += self.of_product(potential, p, q)
        for p in modes.integers:
            parts += self.of_integer(potential, p)
        return parts + self.of_modes(potential)

    def of_set(self, potential, p):
        """The sum of the numbers of the members of a set; nothing where all are 0."""
        v, members = self.m.variables[p], range(self.found.modes.count(p))
        cells = {(*mode, k): potential.whole[self.columns.of("member", mode, p, k)] for mode in self.rows() for k in members}
        if not any(cells.values()):
            return []
        is_wide = self.columns.by_mode and bool(self.elements)
        table = self.added.table(f"{self.begins}_{v.name}", [*(self.objects if is_wide else []), self.m.objects[v.of].name], cells)
        return [f"(sum {table} {self.at} {v.name})" if is_wide else f"(sum {table} {v.name})"]

    def of_product(self, potential, p, q):
        """An integer times the sum of further numbers of the members of a set."""
        v, name = self.m.variables[p], self.m.variables[q].name
        cells = {(k,): potential.whole[self.columns.of("product", None, p, k, q)] for k in range(self.found.modes.count(p))}
        if not any(cells.values()):
            return []
        return [f"(* {name} (sum {self.added.table(f'{self.begins}_{v.name}_{name}', [self.m.objects[v.of].name], cells)} {v.name}))"]

    def rows(self):
        """The modes that have numbers of their own."""
        if not (self.columns.by_mode and self.elements):
            return [()]
        self.look(self.found.inner)
        return list(self.found.inner)

    def of_integer(self, potential, p):
        name = self.m.variables[p].name
        factors = {mode: potential.whole[self.columns.of("integer", mode, p)] for mode in self.rows()}
        if len(set(factors.values())) == 1:
            factor = next(iter(factors.values()))
            return [] if not factor else [name if factor == 1 else f"(* {factor} {name})"]
        return [f"(* {name} ({self.added.table(f'{self.begins}_{name}', self.objects, factors)} {self.at}))"]

    def of_modes(self, potential):
        """The part that is a cell for the values of the elements."""
        values = {mode: potential.whole[self.columns.of("mode", mode)] for mode in self.found.inner}
        if not any(values.values()):
            return []
        if not self.elements:
            return [str(values[()])]
        self.look(values)
        name = self.added.table("_".join([self.begins, *(v.name for v in self.elements)]), self.objects, values)
        return [f"({name} {self.at})"]

    def look(self, modes):
        counts = [self.m.objects[v.of].count for v in self.elements]
        if any(k >= count for mode in modes for k, count in zip(mode, counts)):
            raise Unknown("an element that no base case ends has a value beyond the members of its object type")


def quotient(parts, unit, rounds_up):
    """The sum of the parts, divided where they count parts of 1; rounded to the side on which it says more."""
    if unit > 1 and rounds_up:
        parts = [*parts, str(unit - 1)]
    total = parts[0] if len(parts) == 1 else f"(+ {' '.join(parts)})"
    return total if unit == 1 else f"(/ {total} {unit})"
