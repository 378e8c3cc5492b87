"""Files of TSPLIB: their keys, their sections, and the ways between their places by each form of weights but those of crystals."""

import math

from .instances import Row, Word, shortened

PI, EARTH = 3.141592, 6378.388
PLANES = {"EUC_2D": 2, "CEIL_2D": 2, "ATT": 2, "GEO": 2, "MAN_2D": 2, "MAX_2D": 2, "EUC_3D": 3, "MAN_3D": 3, "MAX_3D": 3}
# Which cells a list of weights has, in order. A half by its columns is the other half by its rows.
ROWS = {
    "UPPER_ROW": lambda i, n: range(i + 1, n),
    "LOWER_ROW": lambda i, n: range(i),
    "UPPER_DIAG_ROW": lambda i, n: range(i, n),
    "LOWER_DIAG_ROW": lambda i, n: range(i + 1),
}
COLUMNS = {"UPPER_COL": "LOWER_ROW", "LOWER_COL": "UPPER_ROW", "UPPER_DIAG_COL": "LOWER_DIAG_ROW", "LOWER_DIAG_COL": "UPPER_DIAG_ROW"}


def nearest(value):
    return math.floor(value + 0.5)


def radians(degrees):
    """Degrees with minutes behind the point, as GEO has them."""
    whole = math.trunc(degrees)
    return PI * (whole + 5.0 * (degrees - whole) / 3.0) / 180.0


def on_earth(a, b):
    q1, q2, q3 = math.cos(a[1] - b[1]), math.cos(a[0] - b[0]), math.cos(a[0] + b[0])
    return EARTH * math.acos(max(-1.0, min(1.0, 0.5 * ((1.0 + q1) * q2 - (1.0 - q1) * q3))))


def weight(kind, a, b, scale):
    """The way from a point to another."""
    apart = [abs(x - y) for x, y in zip(a, b)]
    if kind == "GEO":
        return math.floor(scale * on_earth(a, b) + 1.0)
    if kind == "ATT":
        return math.ceil(scale * math.sqrt((apart[0] * apart[0] + apart[1] * apart[1]) / 10.0))
    if kind.startswith("MAX"):
        return max(nearest(scale * x) for x in apart)
    if kind.startswith("MAN"):
        return nearest(scale * sum(apart))
    return math.ceil(scale * math.dist(a, b)) if kind == "CEIL_2D" else nearest(scale * math.dist(a, b))


class Tsplib:
    """The keys of a file with their values, and the rows of its sections."""

    def __init__(self, it):
        self.it, self.keys, self.sections, self.heads = it, {}, {}, {}
        rows = None
        for row in it.rows:
            if row[0] == "EOF":
                break
            head = row[0].partition(":")[0]
            if head.endswith("_SECTION"):
                self.heads[head] = row[0]
                rows = self.sections.setdefault(head, [])
                row = Row([word for word in value_of(row) if word], row.line)
                if row:
                    rows.append(row)
            elif ":" in row[0] or len(row) > 1 and row[1].startswith(":"):
                self.heads[head], self.keys[head] = row[0], value_of(row)
            elif rows is not None and all(map(it.is_number, row)):
                rows.append(row)
            else:
                wrong = next((word for word in row if rows is None or not it.is_number(word)), row[0])
                it.wrong(f"`{shortened(wrong)}` is neither a key with its value, a section, nor a number", wrong)
        self.test_left_out()

    def test_left_out(self):
        """What would make another problem of it."""
        for name in ("FIXED_EDGES_SECTION", "DISTANCE"):
            if name in self.heads:
                self.it.wrong(f"{name} is left out: the models that are written have no such thing", self.heads[name])
        kind = self.value("TYPE")
        if kind in ("SOP", "HCP", "TOUR"):
            self.it.wrong(f"a file of the type {kind} is no round tour", kind)

    def value(self, key):
        """The first word of a key's value; None where there is none."""
        return next(iter(self.keys.get(key, [])), None)

    def count(self):
        if self.value("DIMENSION") is None:
            self.it.wrong("it has no DIMENSION with its value")
        return self.it.whole_number(self.value("DIMENSION"), 2, 4096)

    def ways(self):
        """The ways between places, row by row, and the numbers by which the file calls the places."""
        kind = self.value("EDGE_WEIGHT_TYPE")
        if kind in PLANES:
            return self.ways_of_points(kind)
        if kind == "EXPLICIT":
            return self.ways_of_weights(), list(range(1, self.count() + 1))
        known = ", ".join([*PLANES, "EXPLICIT"])
        return self.it.wrong(f"`{kind}` is no EDGE_WEIGHT_TYPE that is read; these are: {known}" if kind else f"it has no EDGE_WEIGHT_TYPE with its value; these are read: {known}", kind)

    def section(self, name):
        if not self.sections.get(name):
            self.it.wrong(f"it has no {name} with rows", self.heads.get(name) or self.heads.get("EDGE_WEIGHT_TYPE"))
        return self.sections[name]

    def ways_of_points(self, kind):
        size, points, names = PLANES[kind] + 1, [], []
        for row in self.section("NODE_COORD_SECTION"):
            if len(row) != size:
                self.it.wrong(f"a row of {kind} has {size} numbers, and this one {len(row)}", row[min(size, len(row)) - 1])
            name = self.it.whole_number(row[0], 0)
            if name in names:
                self.it.wrong(f"place {name} stood there before", row[0])
            names.append(name)
            points.append([self.it.real(word) for word in row[1:]])
        if len(points) != self.count():
            self.it.wrong(f"DIMENSION says {self.count()}, and {len(points)} places stand in NODE_COORD_SECTION", self.value("DIMENSION"))
        if kind == "GEO":
            points = [[radians(x) for x in point] for point in points]
        return [[0 if i == j else weight(kind, a, b, self.it.scale) for j, b in enumerate(points)] for i, a in enumerate(points)], names

    def ways_of_weights(self):
        form, n = self.value("EDGE_WEIGHT_FORMAT"), self.count()
        words = [word for row in self.section("EDGE_WEIGHT_SECTION") for word in row]
        if form == "FULL_MATRIX":
            cells = [(i, j) for i in range(n) for j in range(n)]
        elif COLUMNS.get(form, form) in ROWS:
            cells = [(i, j) for i in range(n) for j in ROWS[COLUMNS.get(form, form)](i, n)]
        else:
            known = ", ".join(["FULL_MATRIX", *ROWS, *COLUMNS])
            self.it.wrong(f"`{form}` is no EDGE_WEIGHT_FORMAT that is read; these are: {known}" if form else f"it has no EDGE_WEIGHT_FORMAT with its value; these are read: {known}", form or self.value("EDGE_WEIGHT_TYPE"))
        if len(words) != len(cells):
            at = words[len(cells)] if len(words) > len(cells) else self.sections["EDGE_WEIGHT_SECTION"][-1].after()
            self.it.wrong(f"{form} of {n} places has {len(cells)} weights, and {len(words)} stand here", at)
        way = [[0] * n for _ in range(n)]
        for (i, j), word in zip(cells, words):
            if i != j:
                way[i][j] = self.it.whole(word)
                if form != "FULL_MATRIX":
                    way[j][i] = way[i][j]
        return way

    def demands(self, names):
        """The demand of each place, in the order of the places."""
        found = {}
        for row in self.section("DEMAND_SECTION"):
            if len(row) != 2:
                self.it.wrong(f"a row of demands has two numbers, and this one {len(row)}", row[0])
            name = self.it.whole_number(row[0], 0)
            if name in found or name not in names:
                self.it.wrong(f"place {name} has a demand already" if name in found else f"there is no place {name}", row[0])
            found[name] = self.it.whole_number(row[1])
        for name in names:
            if name not in found:
                self.it.wrong(f"place {name} has no demand", self.heads["DEMAND_SECTION"])
        depots = [self.it.whole_number(word, -1) for row in self.sections.get("DEPOT_SECTION", []) for word in row]
        if depots and [name for name in depots if name != -1] != names[:1] or found[names[0]] != 0:
            self.it.wrong("the first place is to be the only depot, without a demand", self.heads.get("DEPOT_SECTION") or self.heads["DEMAND_SECTION"])
        return [found[name] for name in names]


def value_of(row):
    """The words behind the colon of a row."""
    line = row.line
    for k, word in enumerate(row):
        if ":" in word:
            rest = word.partition(":")[2]
            return ([Word(rest, line, word.column + len(word.encode()) - len(rest.encode()))] if rest else []) + row[k + 1 :]
    return row[1:]
