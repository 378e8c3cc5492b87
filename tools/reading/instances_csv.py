"""Tables of commas: a header with names of columns and a row for each member, or a square with names at its front and in its first row."""

import math
import re

from .expressions import BEGINS_NUMBER, RESERVED
from .instances import MOST_MEMBERS, Instance, Row, Word, members, shortened

SEPARATORS = ",;\t"
# What a column may be called, for each that a kind of problem asks for.
CALLED = {
    "name": ("name", "names", "city", "town", "place", "customer", "job", "item", "kind", "id", "no", "number"),
    "x": ("x", "lon", "longitude", "x_coord"),
    "y": ("y", "lat", "latitude", "y_coord"),
    "demand": ("demand", "load", "parcels", "quantity", "weight"),
    "ready": ("ready", "open", "opens", "earliest", "start", "from"),
    "due": ("due", "due date", "due_date", "close", "closes", "latest", "end", "deadline", "until"),
    "service": ("service", "stay", "duration", "service_time"),
    "length": ("length", "time", "processing", "duration", "takes", "hours", "minutes", "days"),
    "weight": ("weight", "priority"),
    "size": ("size", "weight", "length"),
    "value": ("value", "profit", "prize"),
}
TRUTHS = {"true": "true", "yes": "true", "false": "false", "no": "false"}


class Table(Instance):
    """The cells of a table, each with its place."""

    is_table = True
    capacity = vehicles = matrix = None

    def __init__(self, data, scale, path):
        super().__init__(data, scale, path)
        lines = [(number, row) for number, row in enumerate(self.text.replace("\r\n", "\n").replace("\r", "\n").split("\n"), 1) if row.strip() and not row.startswith("#")]
        if len(lines) < 2:
            self.wrong("a table has a first row with the names of its columns, and a row for each member")
        self.separator = max(SEPARATORS, key=lines[0][1].count)
        self.heads, *self.cells = [self.parted(row, number) for number, row in lines]
        for row in self.cells:
            if len(row) != len(self.heads):
                at = row[len(self.heads)] if len(row) > len(self.heads) else row.after()
                self.wrong(f"the first row has {len(self.heads)} cells, and this one {len(row)}", at)
        self.at_most(MOST_MEMBERS, self.cells)
        self.rows, self.words = [self.heads, *self.cells], [self.heads[0]]

    def parted(self, text, number):
        """The cells of a line; a cell in double quotes may have the separator in it, and two of them for one."""
        found, k, column, end = [], 0, 1, 0
        form = re.compile(rf'\s*"((?:[^"]|"")*)"\s*(?={re.escape(self.separator)}|$)|([^{re.escape(self.separator)}]*)')
        while k <= len(text):
            match = form.match(text, k)
            cell = match[1].replace('""', '"') if match[1] is not None else match[2]
            start = match.start(1) if match[1] is not None else match.start(2) + len(cell) - len(cell.lstrip())
            column, end = column + len(text[end:start].encode()), start
            word = Word(cell.strip(), number, column)
            if match[1] is None and word.startswith('"'):
                self.wrong("a quote is not closed in its cell", word)
            found.append(word)
            k = match.end() + 1
        return Row(found, number)

    # ---- a square

    def is_square(self):
        """Whether the names in the first row are those in the first column."""
        return len(self.heads) > 2 and self.heads[1:] == [row[0] for row in self.cells]

    def square(self):
        """The numbers of a square; that of a member with itself may be left out."""
        return [[0 if i == j and not self.is_number(word) else self.exact(word) for j, word in enumerate(row[1:])] for i, row in enumerate(self.cells)]

    def exact(self, word):
        """A number that is whole once it is scaled."""
        value = self.number(word) * self.scale
        if value.denominator != 1:
            self.wrong(f"`{shortened(word)}` is not whole{'' if self.scale == 1 else f' when it is taken {self.scale} times'}; --scale N takes all numbers N times", word)
        return int(value)

    # ---- columns

    def place_of(self, what):
        """The place of a column; None where there is none that is called so."""
        heads = [head.lower() for head in self.heads]
        return next((heads.index(name) for name in CALLED[what] if name in heads), None)

    def column(self, what, default=None):
        """The cells of a column that a kind of problem asks for; empty cells have the default."""
        place = self.place_of(what)
        if place is None and default is None:
            self.wrong(f"there is no column `{what}`; it may be called {', '.join(CALLED[what])}", self.heads[0])
        found = []
        for row in self.cells:
            word = row[place] if place is not None else Word(default, row.line, 1)
            if not word and default is None:
                self.wrong(f"the cell of `{self.heads[place]}` is empty", word)
            found.append(word or Word(default, word.line, word.column))
        return found

    def names(self):
        """The names of the members; None where no column has them."""
        place = 0 if self.is_square() else self.place_of("name")
        if place is None:
            texts = [k for k in range(len(self.heads)) if all(row[k] and not self.is_number(row[k]) for row in self.cells)]
            place = texts[0] if texts else None
        if place is None or all(self.is_number(row[place]) for row in self.cells):
            return None
        seen = {}
        for row in self.cells:
            if not row[place] or row[place] in seen:
                self.wrong("a name is wanted here" if not row[place] else f"`{shortened(row[place])}` stood there before", row[place])
            seen[row[place]] = True
        return list(seen)

    def customers(self):
        """Rows as a published table has them: number, x, y, demand, ready, due, service."""
        points = [self.column("x"), self.column("y")] if not self.matrix else [self.column("x", "0"), self.column("y", "0")]
        columns = [*points, self.column("demand", "0"), self.column("ready", "0"), self.column("due", "1000000000"), self.column("service", "0")]
        rows = [Row([Word(str(k), cells[0].line, 1), *cells], cells[0].line) for k, cells in enumerate(zip(*columns))]
        if len(rows) < 2:
            self.wrong("there are fewer than two rows of places")
        return rows


    def option(self, name):
        """A number that no column has, by an option."""
        if getattr(self, name) is None:
            self.wrong(f"a table does not say it: --{name} N is wanted")
        return getattr(self, name)

    def plane_or_square(self):
        """The ways between places: of the square, or of the table of ways, or as the crow flies, rounded to the nearest."""
        if self.is_square():
            return self.square()
        if self.matrix:
            return self.matrix.between(self)
        points = [(self.real(x), self.real(y)) for x, y in zip(self.column("x"), self.column("y"))]
        return [[math.floor(self.scale * math.dist(a, b) + 0.5) for b in points] for a in points]

    def ways(self, rows, with_service):
        if not self.matrix:
            return super().ways(rows, with_service)
        stays = [self.whole(row[6]) if with_service else 0 for row in rows]
        return [[0 if i == j else way + stays[i] for j, way in enumerate(row)] for i, row in enumerate(self.matrix.between(self))]

    def between(self, table):
        """The square of ways, in the order of the members of another table."""
        if not self.is_square():
            self.wrong("a table of ways has the names of places in its first row and, in the same order, in its first column")
        way, mine, names = self.square(), self.heads[1:], table.names() or self.heads[1:]
        if sorted(mine) != sorted(names):
            at = next((word for word in mine if word not in names), self.heads[0])
            self.wrong(f"its places are not those of {table.path}: {len(mine)} and {len(names)}" + (f", and `{shortened(at)}` is not there" if at else ""), at)
        order = [mine.index(name) for name in names]
        return [[way[i][j] for j in order] for i in order]


def names_text(of, names):
    """A file of names."""
    return f"{of}: [ " + ", ".join(quoted(name) for name in names) + " ]\n"


def quoted(name):
    return name if re.fullmatch(r"[A-Za-z\u00c0-\u024f][\w .-]*", name) and not name.endswith(" ") else "'" + name.replace("'", "''") + "'"


# ---- tables for a model of one's own

def named(table, text, at):
    """A name that the language takes, made of a column's."""
    found = re.sub(r"[()|\s\x00-\x1f\x7f-\x9f]+", "_", text).strip("_")
    if not found:
        table.wrong("a name is wanted here", at)
    return f"{found}_" if found in RESERVED else f"t_{found}" if BEGINS_NUMBER.match(found) else found


def cells_of(table, place, names):
    """The type of a column and its cells, those that are empty left out."""
    words = [(k, row[place]) for k, row in enumerate(table.cells) if row[place]]
    if words and all(word.lower() in TRUTHS for _, word in words):
        return "bool", [(k, TRUTHS[word.lower()]) for k, word in words]
    if names and words and all(word in names for _, word in words):
        return "element", [(k, names.index(word)) for k, word in words]
    return "integer", [(k, table.exact(word)) for k, word in words]


def shown(cells, count):
    """The cells of a column: as a list, or as a map where some are left out."""
    return members(value for _, value in cells) if len(cells) == count else "{ " + ", ".join(f"{k}: {value}" for k, value in cells) + " }" if cells else "{ }"


def csv(table, name):
    """A piece of a problem: the number of members, and a table for each column or for the square; and what the domain has to say of them."""
    of, count, names = named(table, name.strip("'"), table.heads[0]), len(table.cells), table.names()
    if table.is_square():
        kinds = [(f"{of}_table", "integer", [of, of], "[\n" + "".join(f"    {members(row)},\n" for row in table.square()) + "  ]")]
    else:
        kinds, texts = [], table.place_of("name") if table.place_of("name") is not None else -1
        for place, head in enumerate(table.heads):
            if names and [row[place] for row in table.cells] == names or place == texts:
                continue
            title = named(table, head, head)
            if title in [kind[0] for kind in kinds] or title == of:
                table.wrong(f"`{title}` is there already", head)
            type_, cells = cells_of(table, place, names)
            kinds.append((title, type_, [of], shown(cells, count)))
    declared = "".join(f"#   - {{ name: {title}, type: {type_}, args: {members(args)} }}\n" for title, type_, args, _ in kinds)
    values = "".join(f"  {title}: {text}\n" for title, _, _, text in kinds)
    return f"# The domain has:\n# objects: [ {of} ]\n# tables:\n{declared}object_numbers: {{ {of}: {count} }}\ntable_values:\n{values}"
