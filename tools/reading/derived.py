"""The text of a model with bounds more: tables and dual bounds put in front of those that stand there, and cells put in front of theirs. Bounds that
a checker leaves open are put behind the model's own, since it stops at the first one that it does not prove.

What stands there stays as it is, each byte. The text that comes out is read again, and has to be the same model with these bounds more."""

import re

from . import model, shell, yaml_text

WORD = re.compile(rb"\w+")
# A line behind those of a list or a map.
TOP_LEVEL = re.compile(rb"[^\s#-]|---")


class Added:
    """What is added: object types with their counts, tables by their lines in the two files, and bounds."""

    def __init__(self, domain, problem):
        self.taken = {word.decode("utf-8", "replace") for data in (domain, problem) for word in WORD.findall(data)}
        self.objects, self.tables, self.cells, self.bounds, self.behind = [], [], [], [], []

    def name(self, wanted):
        """A name that stands nowhere in the two texts."""
        name, k = wanted, 1
        while name in self.taken:
            k += 1
            name = f"{wanted}_{k}"
        self.taken.add(name)
        return name

    def object(self, wanted, count):
        name = self.name(wanted)
        self.objects.append((name, count))
        return name

    def table(self, wanted, args, cells, default=0):
        """A table of integers; cells that are the default are left out."""
        name = self.name(wanted)
        told = "" if default == 0 else f", default: {default}"
        self.tables.append(f"{{ name: {name}, type: integer, args: [ {', '.join(args)} ]{told} }}")
        self.cells.append((name, cells_of(len(args), cells, default)))
        return name


def cells_of(depth, cells, default):
    """The cells of a table: a map for one argument, and else a list as deep as there are arguments."""
    given = {key: value for key, value in cells.items() if value != default}
    if depth == 1:
        return f"{{ {', '.join(f'{key[0]}: {value}' for key, value in given.items())} }}" if given else "{}"
    return rows_of(depth, given, default)


def rows_of(depth, given, default):
    """The list for the keys that are left at this depth; what stands behind the last cell that is given is left out."""
    if depth == 0:
        return str(given.get((), default))
    parts = {}
    for key, value in given.items():
        parts.setdefault(key[0], {})[key[1:]] = value
    found = [rows_of(depth - 1, parts.get(k, {}), default) for k in range(max(parts, default=-1) + 1)]
    return f"[ {', '.join(found)} ]" if found else "[]"


class Text:
    """The lines of a file, and what is put into them: for each place in a line of the file the bytes for it, or lines in front of it."""

    def __init__(self, data):
        self.data = data[3:] if data.startswith(b"\xef\xbb\xbf") else data
        self.pairs = {k.text: (k, v) for k, v in yaml_text.read(data).pairs if k.kind == "scalar"}
        self.lines = self.data.split(b"\n")
        self.ending = b"\r" if self.lines[0].endswith(b"\r") else b""
        self.put_in, self.in_front, self.behind = [], [], []

    def put_items(self, key, items):
        """Puts items in front of a list."""
        self.put(key, [b"- " + item.encode() for item in items], [item.encode() for item in items])

    def put_behind(self, key, items):
        """Puts items behind those of a list in block form. Whether it is one."""
        value = self.pairs[key][1] if key in self.pairs else None
        if value is None or value.kind == "scalar" or self.lines[value.line - 1][value.column - 1 : value.column] in (b"[", b"{"):
            return False
        row = self.lines[value.line - 1]
        indent = row[: len(row) - len(row.lstrip(b" "))]
        end = next((k for k in range(value.line, len(self.lines)) if TOP_LEVEL.match(self.lines[k])), len(self.lines))
        while not self.lines[end - 1].strip() or self.lines[end - 1].startswith(b"#"):
            end -= 1
        self.in_front.append((end, [indent + b"- " + item.encode() + self.ending for item in items]))
        return True

    def put_pairs(self, key, pairs):
        """Puts pairs in front of a map."""
        texts = [f"{name}: {value}".encode() for name, value in pairs]
        self.put(key, texts, texts)

    def put(self, key, block, flow):
        if not block:
            return
        if key not in self.pairs:
            self.behind += [key.encode() + b":" + self.ending, *(b"  " + text + self.ending for text in block)]
            return
        name, value = self.pairs[key]
        line, column = value.line - 1, value.column - 1
        row = self.lines[line]
        if value.kind != "scalar" and row[column : column + 1] in (b"[", b"{"):
            is_empty = not (value.items or value.pairs)
            self.put_in.append((line, column + 1, b" " + b", ".join(flow) + (b" " if is_empty else b",")))
        elif value.is_empty() or value.kind != "scalar":
            indent = b"  " if value.is_empty() else row[: len(row) - len(row.lstrip(b" "))]
            self.in_front.append((name.line, [indent + text + self.ending for text in block]))
        else:
            raise shell.Stop(f"what stands under `{key}` is no list and no map")

    def bytes(self):
        lines = list(self.lines)
        for line, column, text in self.put_in:
            lines[line] = lines[line][:column] + text + lines[line][column:]
        for line, block in sorted(self.in_front, reverse=True):
            lines[line:line] = block
        if self.behind:
            while lines and not lines[-1].strip():
                lines.pop()
            if self.ending and not lines[-1].endswith(b"\r"):
                lines[-1] += b"\r"
            lines += [*self.behind, b""]
        return b"\n".join(lines)


def texts(domain, problem, added):
    """The two texts with what is added, read again."""
    before = model.load(domain, problem)
    first, second = Text(domain), Text(problem)
    first.put_items("objects", [name for name, _ in added.objects])
    second.put_pairs("object_numbers", added.objects)
    first.put_items("tables", added.tables)
    second.put_pairs("table_values", added.cells)
    if added.behind and not first.put_behind("dual_bounds", added.behind):
        added.bounds, added.behind = [*added.bounds, *added.behind], []
    first.put_items("dual_bounds", added.bounds)
    found = first.bytes(), second.bytes()
    after = model.load(*found)
    if not is_same(before, after, added):
        raise shell.Stop("the text with the bounds in it is read as another model")
    return found


def is_same(before, after, added):
    """Whether the later model is the earlier one with these bounds in front of its own, and behind them."""
    first, last = len(added.bounds), len(after.bounds) - len(added.behind)
    return (
        [b.node.text for b in after.bounds[:first]] == added.bounds
        and [b.node.text for b in after.bounds[last:]] == added.behind
        and [b.node.shape() for b in after.bounds[first:last]] == [b.node.shape() for b in before.bounds]
        and [step.text for step in after.steps] == [step.text for step in before.steps]
        and [t.node.shape() for t in after.transitions] == [t.node.shape() for t in before.transitions]
        and [c.node.shape() for c in after.constraints] == [c.node.shape() for c in before.constraints]
        and after.target == before.target
        and [t.cells for t in after.tables[len(added.tables) :]] == [t.cells for t in before.tables]
    )

