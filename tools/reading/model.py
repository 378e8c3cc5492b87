"""Reads a model from the texts of a domain and a problem: `load` gives it with the place of each of its parts, or the first
refusal, with a sentence of what its number leaves open."""

import itertools
import re

from . import yaml_text
from .expressions import BEGINS_NUMBER, CONTROL, LARGEST, RESERVED, WHOLE, Scope, Tree, listed, near, read_expr
from .places import Refused

MOST_NAMES, MOST_RULES, MOST_MEMBERS, MOST_WORDS, MOST_GROUND = 1024, 65536, 4096, 16777216, 65536
KEYS = {
    "domain": ("domain cost_type reduce objects state_variables tables transitions constraints base_cases dual_bounds".split(), ["state_variables"]),
    "problem": ("domain problem object_numbers target table_values reduce transitions constraints base_cases dual_bounds".split(), ["target"]),
    "variable": ("name type object preference".split(), ["name", "type"]),
    "table": ("name type args object default".split(), ["name", "type"]),
    "transition": ("name parameters preconditions effects cost forced direction".split(), ["name"]),
    "parameter": (["name", "object"], ["name", "object"]),
    "condition": (["condition", "forall"], ["condition"]),
    "base case": (["conditions", "cost"], ["conditions"]),
}
TRUTHS = {"true": True, "True": True, "TRUE": True, "false": False, "False": False, "FALSE": False}


class Thing:
    """A part of a model, with its fields."""

    def __init__(self, **fields):
        self.__dict__.update(fields)


def refuse(number, node, why=None, offset=None):
    raise Refused(number, node.line, node.column, offset, why)


# ---- nodes as what they must be

def keyed(node, kind, keys=KEYS):
    """The entries of a map whose keys are known, by their names, once its shape and its keys are right."""
    known, needed = keys[kind]
    if node.is_empty() and kind not in ("domain", "problem"):
        pairs = []
    elif node.kind != "map":
        refuse(50, node, f"a map is wanted here, with the keys {listed(known)}")
    else:
        pairs = node.pairs
    entries = {}
    for key, value in pairs:
        name = key.text if key.kind == "scalar" else None
        if name in ("base_states", "state_functions") and name not in known:
            refuse(52, key, f"`{name}` is left out")
        if name not in known:
            shown = f"`{name}`" if name is not None else "a list"
            other = {"domain": "problem", "problem": "domain"}.get(kind)
            close = f"; it is one of the {other}." if other and name in KEYS[other][0] else near(name or "", known)
            if other and all(part.kind == "scalar" and part.text in KEYS[other][0] for part, _ in pairs):
                close = f"; all keys here are of a {other}: do the two files stand in each other's place?"
            refuse(41, key, f"{shown} is no key of a {kind}{close} Its keys are: {listed(known)}")
        entries[name] = value
    for name in needed:
        if name not in entries:
            refuse(40, node, f"the key `{name}` is missing; a {kind} has {listed(needed)}, and may have {listed(k for k in known if k not in needed)}")
    return entries


def items(node, most, what):
    if node is None or node.is_empty():
        return []
    if node.kind != "list":
        refuse(50, node, f"a list is wanted here, of {what}")
    if len(node.items) > most:
        refuse(49, node, f"at most {most} {what} may stand here, and there are {len(node.items)}")
    return node.items


def pairs_of(node, what):
    if node is None or node.is_empty():
        return []
    if node.kind != "map":
        refuse(50, node, f"a map is wanted here, of {what}")
    return node.pairs


def scalar(node, what):
    if node.kind != "scalar":
        refuse(50, node, f"{what} is wanted here, and no list or map")
    return node.text


def word(node, what, known, left_out=(), continuous=False):
    text = scalar(node, what)
    if text == "continuous" and continuous:
        refuse(34, node, "numbers are whole: `continuous` is left out")
    if text in left_out:
        refuse(52, node, f"`{text}` is left out; allowed are {listed(known)}")
    if text not in known:
        refuse(50, node, f"`{text}` is not known here{near(text, known)} Allowed are: {listed(known)}")
    return text


def number(node, least, most, what):
    text = scalar(node, what)
    if not WHOLE.match(text):
        refuse(42, node, f"{what} is wanted here, and `{text}` is no whole number")
    value = int(text)
    if not least <= value <= most:
        refuse(42, node, f"{what} lies in {least} to {most}")
    return value


def member(node, o):
    value = number(node, 0, LARGEST, f"a member of `{o.name}`")
    if value >= o.count:
        refuse(44, node, f"`{o.name}` has {o.count} members, which are {'0 to ' + str(o.count - 1) if o.count else 'none'}")
    return value


def members(node, o):
    if node.kind != "list" and not node.is_empty():
        refuse(50, node, f"a list of members of `{o.name}` is wanted here, as [ 0, 1 ]")
    return frozenset(member(item, o) for item in node.items)


def name_of(node, taken, what):
    text = scalar(node, what)
    raw = node.raw
    if not raw or len(raw) > 200:
        refuse(51, node, f"{what} has 1 to 200 bytes")
    if text in RESERVED:
        refuse(51, node, f"`{text}` is a word of expressions")
    if BEGINS_NUMBER.match(text):
        refuse(51, node, f"`{text}` begins as a number does")
    if CONTROL.search(text) or re.search(r"[()| \t\r\n]", text):
        refuse(51, node, f"{what} is one word without brackets, bars, blanks and control characters")
    if text in taken:
        refuse(43, node, f"`{text}` was there before: {taken[text]}")
    return text


class Loader:
    def __init__(self, domain, problem):
        self.domain, self.problem = domain, problem
        self.names = {}  # what each name of an object type, variable or table is
        self.given = {}  # where a reading stands that refuses: the file
        self.file = "domain"

    def within(self, file, call, *args):
        """Refusals of this call are of that file."""
        try:
            return call(*args)
        except Refused as refused:
            raise refused.of(file)

    # ---- what is declared

    def settings(self):
        d = self.within("domain", keyed, self.domain, "domain")
        if "domain" in d:
            self.within("domain", scalar, d["domain"], "a name")
        p = self.within("problem", keyed, self.problem, "problem")
        for key in ("domain", "problem"):
            if key in p:
                self.within("problem", scalar, p[key], "a name")
        self.d, self.p = d, p
        if "cost_type" in d:
            self.within("domain", word, d["cost_type"], "a type", ["integer"], (), True)
        reduce = "min"
        for file, keys in (("domain", d), ("problem", p)):
            if "reduce" in keys:
                reduce = self.within(file, word, keys["reduce"], "`min` or `max`", ["min", "max"], ("sum", "product"))
        self.minimize = reduce == "min"

    def read_objects(self):
        self.objects = []
        for item in items(self.d.get("objects"), MOST_NAMES, "object types"):
            name = name_of(item, self.names, "an object type's name")
            self.names[name] = "an object type"
            self.objects.append(Thing(name=name, count=None, node=item, names=[]))

    def read_numbers(self):
        for key, value in pairs_of(self.p.get("object_numbers"), "object types with their numbers"):
            o = self.object_named(key)
            o.count = number(value, 0, LARGEST, "a number of members")
            if o.count > MOST_MEMBERS:
                refuse(49, value, f"an object type has at most {MOST_MEMBERS} members")
        for o in self.objects:
            if o.count is None:
                refuse(40, self.problem, f"`object_numbers` does not say how many members `{o.name}` has")

    def object_named(self, node):
        text = scalar(node, "an object type's name") if node.kind == "scalar" else None
        for o in self.objects:
            if o.name == text:
                return o
        known = [o.name for o in self.objects]
        shown = f"`{text}`" if text is not None else "a list"
        return refuse(30, node, f"{shown} is no object type{near(text or '', known)} The object types are: {listed(known)}")

    def object_key(self, entries, node, why):
        if "object" not in entries:
            refuse(40, node, f"the key `object` is missing: {why}")
        scalar(entries["object"], "an object type's name")
        return self.objects.index(self.object_named(entries["object"]))

    def read_variables(self):
        self.variables = []
        for node in items(self.d["state_variables"], MOST_NAMES, "variables"):
            entries = keyed(node, "variable")
            name = name_of(entries["name"], self.names, "a variable's name")
            kind = word(entries["type"], "a type", ["element", "set", "integer"], (), True)
            of = None
            if kind in ("element", "set"):
                of = self.object_key(entries, node, f"a variable of the type `{kind}` has an object type")
            preference = "without"
            if "preference" in entries:
                known = ["less", "greater"]
                text = scalar(entries["preference"], "`less` or `greater`")
                if kind == "set" and text in known:
                    refuse(50, entries["preference"], "a set variable has no preference")
                preference = word(entries["preference"], "`less` or `greater`", known)
            self.names[name] = "a variable"
            self.variables.append(Thing(name=name, kind=kind, of=of, preference=preference, node=node, place=len(self.variables)))

    def read_tables(self):
        self.tables = []
        for node in items(self.d.get("tables"), MOST_NAMES, "tables"):
            entries = keyed(node, "table")
            name = name_of(entries["name"], self.names, "a table's name")
            known = ["integer", "element", "bool", "boolean", "set"]
            type_ = word(entries["type"], "a type", known, (), True)
            args = []
            for arg in items(entries.get("args"), 4, "arguments"):
                scalar(arg, "an object type's name")
                args.append(self.objects.index(self.object_named(arg)))
            of = None
            if type_ == "set":
                of = self.object_key(entries, node, "a table of sets says of which object type")
            kind = {"integer": "num", "element": "num", "set": "set"}.get(type_, "cond")
            t = Thing(name=name, type=type_, kind=kind, args=args, of=of, node=node, cells={}, given={}, entry=None)
            t.default = self.cell(entries["default"], t) if "default" in entries else {"num": 0, "set": frozenset(), "cond": False}[kind]
            self.names[name] = "a table"
            self.tables.append(t)
        words = sum(self.words_of(t) for t in self.tables)
        if words > MOST_WORDS:
            refuse(49, self.d["tables"], f"all tables together have at most {MOST_WORDS} words, and these have {words}")

    def words_of(self, t):
        cells = 1
        for arg in t.args:
            cells *= self.objects[arg].count
        return cells * (max(1, (self.objects[t.of].count + 1) // 2) if t.kind == "set" else 1)

    def cell(self, node, t):
        if t.kind == "num":
            return number(node, -LARGEST, LARGEST, "a whole number")
        if t.kind == "set":
            return members(node, self.objects[t.of])
        return TRUTHS[word(node, "a truth value", list(TRUTHS))]

    def read_cells(self):
        tables = {t.name: t for t in self.tables}
        for key, value in pairs_of(self.p.get("table_values"), "tables with their values"):
            name = key.text if key.kind == "scalar" else None
            if name not in tables:
                shown = f"`{name}`" if name is not None else "a list"
                refuse(30, key, f"{shown} is no table{near(name or '', tables)} The tables are: {listed(tables)}")
            t = tables[name]
            t.entry = value
            if not t.args:
                t.cells[()] = self.cell(value, t)
            elif value.kind == "list":
                self.rows(value, t, ())
            else:
                self.mapped(value, t)

    def mapped(self, node, t):
        if node.kind != "map" and not node.is_empty():
            what = "number" if len(t.args) == 1 else "list of numbers"
            refuse(50, node, f"a map is wanted here, from a {what} to the value of that cell, or a list")
        for key, value in node.pairs:
            at = self.cell_key(key, t)
            if at in t.cells:
                refuse(43, key, f"the cell {list(at)} of `{t.name}` was given before")
            t.cells[at] = None
            t.given[at] = key
            t.cells[at] = self.cell(value, t)

    def cell_key(self, key, t):
        if key.kind == "scalar":
            parts = [key]
        elif key.kind == "list":
            parts = key.items
        else:
            parts = []
        if len(parts) != len(t.args) or not parts:
            refuse(50, key, f"`{t.name}` takes {len(t.args)} argument{'s' * (len(t.args) > 1)}, so a cell's key has as many numbers")
        return tuple(member(part, self.objects[arg]) for part, arg in zip(parts, t.args))

    def rows(self, node, t, at):
        """A list as deep as the table has arguments."""
        if len(at) == len(t.args):
            t.cells[at] = self.cell(node, t)
            return
        if node.kind != "list" and not (node.is_empty() and at):
            refuse(50, node, f"a list is wanted here: `{t.name}` takes {len(t.args)} arguments")
        o = self.objects[t.args[len(at)]]
        for k, item in enumerate(node.items):
            if k >= o.count:
                refuse(44, item, f"`{o.name}` has {o.count} members, so this list has at most as many items")
            self.rows(item, t, (*at, k))

    def read_target(self):
        node = self.p["target"]
        values = {}
        by_name = {v.name: v for v in self.variables}
        self.target_nodes = {}
        for key, value in pairs_of(node, "variables with their values"):
            name = key.text if key.kind == "scalar" else None
            if name not in by_name:
                shown = f"`{name}`" if name is not None else "a list"
                refuse(45, key, f"{shown} is no variable{near(name or '', by_name)} The variables are: {listed(by_name)}")
            v = by_name[name]
            self.target_nodes[name] = value
            if v.kind == "set":
                values[name] = members(value, self.objects[v.of])
            elif v.kind == "element":
                values[name] = number(value, 0, 2**32 - 1, "an element's value")
            else:
                values[name] = number(value, -LARGEST, LARGEST, "a whole number")
        for v in self.variables:
            if v.name not in values:
                refuse(45, node, f"the target gives the variable `{v.name}` no value")
        self.target = [values[v.name] for v in self.variables]

    # ---- rules

    def typed(self, node, call):
        """An expression of a scalar, typed by that call of the scope."""
        if node.kind != "scalar":
            refuse(50, node, "an expression is wanted here, and no list or map; one that begins with `[` or `{` needs quotes")
        try:
            return call(read_expr(node.raw))
        except Refused as r:
            raise Refused(r.number, node.line, node.column, r.offset, r.why) from None

    def params(self, node, of_transition):
        """Names and ranges: an object type, or the members of a set variable."""
        taken = dict(self.names)
        found = []
        for item in items(node, 4, "parameters"):
            entries = keyed(item, "parameter")
            name = name_of(entries["name"], taken, "a parameter's name")
            text = scalar(entries["object"], "an object type or a set variable")
            over = next((("object", i) for i, o in enumerate(self.objects) if o.name == text), None)
            over = over or next((("members", v.place) for v in self.variables if v.name == text and v.kind == "set"), None)
            if over is None:
                known = [o.name for o in self.objects] + [v.name for v in self.variables if v.kind == "set"]
                refuse(30, entries["object"], f"`{text}` is no object type and no set variable{near(text, known)} These are: {listed(known)}")
            taken[name] = "a parameter"
            found.append((name, over))
        return found

    def condition(self, node):
        if node.kind == "map":
            entries = keyed(node, "condition")
            found = self.params(entries.get("forall"), False)
            self.scope.params += [name for name, _ in found]
            inner = self.condition(entries["condition"])
            del self.scope.params[len(self.scope.params) - len(found) :]
            for name, over in reversed(found):
                inner = Thing(tree=Tree("all", [over, inner.tree, name], inner.tree.form), node=inner.node)
            return inner
        return Thing(tree=self.typed(node, self.scope.cond), node=node)

    def transition(self, node):
        entries = keyed(node, "transition")
        named = entries["name"]
        text = scalar(named, "a transition's name")
        if not named.raw or len(named.raw) > 200:
            refuse(51, named, "a transition's name has 1 to 200 bytes")
        if CONTROL.search(text) or text[0] == " " or text[-1] == " ":
            refuse(51, named, "a transition's name has no control characters and no space at its ends")
        found = self.params(entries.get("parameters"), True)
        self.scope.params = [name for name, _ in found]
        t = Thing(name=text, node=node, params=found, effects=[], weight=None, operator=None, cost=entries.get("cost"))
        t.preconditions = [self.condition(c) for c in items(entries.get("preconditions"), 256, "conditions")]
        by_name = {v.name: v for v in self.variables}
        for key, value in pairs_of(entries.get("effects"), "variables with expressions"):
            name = key.text if key.kind == "scalar" else None
            if name not in by_name:
                shown = f"`{name}`" if name is not None else "a list"
                refuse(30, key, f"{shown} is no variable{near(name or '', by_name)} The variables are: {listed(by_name)}")
            v = by_name[name]
            call = (lambda e, of=v.of: self.scope.set(e, of)) if v.kind == "set" else self.scope.num
            t.effects.append(Thing(variable=v, tree=self.typed(value, call), node=value))
        if t.cost is not None:
            joined = self.typed(t.cost, self.scope.cost)
            if joined:
                t.operator, t.weight = joined[0], Thing(tree=joined[1], node=t.cost)
        t.forced = "forced" in entries and TRUTHS[word(entries["forced"], "a truth value", list(TRUTHS))]
        if "direction" in entries:
            if scalar(entries["direction"], "`forward`") != "forward":
                refuse(52, entries["direction"], "only `direction: forward` is read")
        self.scope.params = []
        return t

    def base_case(self, node):
        cost, listing = None, node
        if node.kind == "map":
            entries = keyed(node, "base case")
            listing, cost = entries["conditions"], entries.get("cost")
        elif node.kind == "scalar" and not node.is_empty():
            refuse(50, node, "a base case is a list of conditions, or a map with `conditions`; a `-` more makes one of this condition")
        conditions = [self.condition(c) for c in items(listing, 256, "conditions")]
        return Thing(node=node, conditions=conditions, cost=self.numeric(cost) if cost is not None else None)

    def numeric(self, node):
        return Thing(tree=self.typed(node, self.scope.num), node=node)

    def of_both(self, key, most, call, what):
        """What both files say under a key, the domain's first."""
        found = []
        for file, keys in (("domain", self.d), ("problem", self.p)):
            def all_of(keys=keys, file=file):
                nodes = items(keys.get(key), most, what)
                if len(found) + len(nodes) > most:
                    refuse(49, keys[key], f"both files together have at most {most} {what}")
                for node in nodes:
                    it = call(node)
                    it.file = file
                    found.append(it)

            self.within(file, all_of)
        return found

    def test_operators(self):
        first = None
        for t in self.transitions:
            if t.operator and first is None:
                first = t
            elif t.operator and t.operator != first.operator:
                why = f"costs are joined by `{first.operator}` at {first.file}:{first.cost.line}, and all transitions of a model join by one operator"
                raise Refused(46, t.cost.line, t.cost.column, None, why).of(t.file)
        self.operator = first.operator if first else "+"

    def ground(self):
        self.steps, texts = [], {}
        for t in self.transitions:
            counts = [self.objects[of].count if kind == "object" else self.objects[self.variables[of].of].count for _, (kind, of) in t.params]
            size = 1
            for count in counts:
                size *= count
            if len(self.steps) + size > MOST_GROUND:
                why = f"`{t.name}` has {size} ground transitions, one for each choice of its parameters, and all together are at most {MOST_GROUND}"
                raise Refused(35, t.node.line, t.node.column, None, why).of(t.file)
            for args in itertools.product(*map(range, counts)):
                text = " ".join([t.name, *map(str, args)])
                self.steps.append(Thing(transition=t, args=args, text=text, shown=text, number=len(self.steps)))
        self.by_text = {}
        for step in self.steps:
            if step.text in self.by_text:
                t = step.transition
                raise Refused(43, t.node.line, t.node.column, None, f"the step `{step.text}` was there before").of(t.file)
            self.by_text[step.text] = step

    def load(self):
        self.settings()
        self.within("domain", self.read_objects)
        self.within("problem", self.read_numbers)
        self.within("domain", self.read_variables)
        self.within("domain", self.read_tables)
        self.within("problem", self.read_cells)
        self.within("problem", self.read_target)
        self.scope = Scope(self.variables, self.tables, self.objects)
        self.transitions = self.of_both("transitions", MOST_RULES, self.transition, "transitions")
        self.test_operators()
        self.constraints = self.of_both("constraints", MOST_RULES, self.condition, "constraints")
        self.bases = self.of_both("base_cases", MOST_RULES, self.base_case, "base cases")
        self.bounds = self.of_both("dual_bounds", MOST_NAMES, self.numeric, "dual bounds")
        for number_, bound in enumerate(self.bounds, 1):
            bound.number = number_
        if not self.bases:
            raise Refused(48, self.domain.line, self.domain.column, None, "neither file has a base case, so no list could end").of("domain")
        self.ground()
        return self


def trees(domain, problem):
    """The trees of two texts."""
    found = []
    for file, data in (("domain", domain), ("problem", problem)):
        try:
            found.append(yaml_text.read(data))
        except Refused as refused:
            raise refused.of(file)
    return found


def load(domain, problem):
    """The model that two texts mean, or their first refusal."""
    return Loader(*trees(domain, problem)).load()


def lines_of(data):
    """The lines of the third file, or its first byte that is no UTF-8: they end with a line feed, with a carriage return before it, or
    with the file."""
    bad = yaml_text.first_bad_byte(data)
    if bad < len(data):
        line = data.count(b"\n", 0, bad)
        raise Refused(10, line + 1, bad - (data.rfind(b"\n", 0, bad) + 1) + 1).of("list")
    rows = data.decode("utf-8").split("\n")
    last = rows.pop()
    return [row.removesuffix("\r") for row in rows] + [last] * (last != "")


def step_of(model, text):
    """The step that a line names. A refusal is 71 where a transition's name begins the line, and else 70; its place is the caller's."""
    step = model.by_text.get(text)
    if step is not None:
        return step
    named = [t for t in model.transitions if text == t.name or text.startswith(t.name + " ")]
    if named:
        t = named[0]
        raise Refused(71, 0, 1, None, f"`{t.name}` takes {len(t.params)} argument{'s' * (len(t.params) != 1)}, each a member that is there, with one space before each")
    known = [t.name for t in model.transitions]
    raise Refused(70, 0, 1, None, f"`{text}` names no transition{near(text.split(' ')[0], known)} The transitions are: {listed(known)}")


def read_list(model, data):
    """The steps of a list, one on each line, or its first refusal."""
    steps = []
    for k, text in enumerate(lines_of(data), 1):
        if text.strip(" \t"):
            try:
                steps.append(step_of(model, text))
            except Refused as bad:
                raise Refused(bad.number, k, 1, None, bad.why).of("list") from None
    return steps
