"""Reads all of YAML-DyPDL that a widened model may have, into a model of the package `dypdl`: `load` gives it, or the first refusal.

Beyond docs/LANGUAGE.md these are state functions, base states, decimals, least, greatest and product over sets, unions over sets, roundings, and
costs of any form; what of them cannot be said to the solver is refused when the model is written."""

import os
import re
import sys
from fractions import Fraction

from . import model as plain
from .expressions import COND_OPS, LARGEST, NUM_OPS, SET_OPS, WHOLE, Scope, listed, near
from .model import Thing, items, keyed, name_of, pairs_of, refuse, scalar, word
from .places import Refused

sys.path.insert(0, os.path.join(os.path.dirname(os.path.dirname(os.path.dirname(os.path.abspath(__file__)))), "python"))

from dypdl import trees  # noqa: E402
from dypdl.errors import ModelError  # noqa: E402
from dypdl.expressions import FloatExpr  # noqa: E402
from dypdl.model import Model  # noqa: E402
from dypdl.tables import BoolTable, ElementTable, FloatTable, IntTable, SetTable  # noqa: E402
from dypdl.transitions import BaseCase, Transition  # noqa: E402
from dypdl.trees import CONDITION, NUMBER, SET, Tree  # noqa: E402
from dypdl.variables import ElementVar, FloatVar, IntVar, ObjectType, Parameter, SetVar, StateFunction  # noqa: E402
from dypdl.writer import written  # noqa: E402

DECIMAL = re.compile(r"[+-]?([0-9]+(\.[0-9]*)?|\.[0-9]+)([eE][+-]?[0-9]{1,3})?\Z")
KEYS = {
    **plain.KEYS,
    "domain": (plain.KEYS["domain"][0] + ["state_functions", "base_states"], plain.KEYS["domain"][1]),
    "problem": (plain.KEYS["problem"][0] + ["base_states"], plain.KEYS["problem"][1]),
    "state function": (["name", "type", "object", "expression"], ["name", "type", "expression"]),
    "base state": (["state", "cost"], ["state"]),
}
KINDS = {"num": NUMBER, "set": SET, "cond": CONDITION}
ROUNDINGS = ("floor", "ceil", "round", "trunc")
UNSAID = {"sqrt": "a root", "log": "a logarithm"}
WIDE_NUMBERS = {**NUM_OPS, "product": None, "abs": 1, "neg": 1, "pow": 2, **dict.fromkeys(ROUNDINGS, 1)}
OVER = {"sum": "sum", "product": "product", "max": "greatest", "min": "least"}
SETS_OVER = {"union": "union_over", "intersection": "intersection_over"}
HEADS = {"/": "quotient", "%": "rest", "~": "complement"}
MOST_POWER = 16


class Spot:
    """A place in one of the two files."""

    def __init__(self, file, line, column, offset=None):
        self.file, self.line, self.column, self.offset = file, line, column, offset

    def __str__(self):
        return f"{self.file}:{self.line}:{self.column}" + ("" if self.offset is None else f"+{self.offset}")


class Wide(Scope):
    """Types forms as trees of the package. `real` says whether a number need not be whole: then `/` is exact, and else it goes toward 0.

    Variables, tables and functions are Things with the name, the kind `num`, `set` or `cond`, and `it`, what they are in the package."""

    def __init__(self, variables, tables, objects):
        super().__init__(variables, tables, objects)
        self.functions, self.given, self.decimals = {}, [], []
        self.node = self.file = None

    def spot(self, form):
        return Spot(self.file, self.node.line, self.node.column, form.offset)

    def tree(self, op, parts, kind, form, of=None):
        return Tree(op, tuple(parts), kind, of, self.spot(form))

    def known(self):
        return [*super().known(), *self.functions]

    def said_of(self, word):
        if word in self.functions and self.param(word) is None:
            return f"`{word}` is a state function"
        return super().said_of(word)

    def is_real(self, form):
        """Whether there is a number in a form that need not be whole, and is not rounded."""
        if form.kind == "word":
            text = form.word
            thing = self.variables.get(text) or self.tables.get(text) or self.functions.get(text)
            return bool(DECIMAL.match(text) and not WHOLE.match(text)) or (thing is not None and thing.real)
        head = form.parts[0].word if form.kind == "list" and form.parts[0].kind == "word" else None
        if form.kind != "list" or head in ROUNDINGS:
            return False
        return any(self.is_real(part) for part in (form.parts[2:] if head == "if" else form.parts))

    # ---- words

    def wide_word(self, form, wanted, of, real, cost):
        text = form.word
        if text == "cost" and cost:
            return self.tree("cost", (), NUMBER, form)
        place = self.param(text)
        if place is None and wanted == "num" and DECIMAL.match(text) and not WHOLE.match(text):
            if not real:
                self.refuse(34, form, f"a whole number is wanted here, and `{text}` is none")
            return self.tree("number", [self.decimal(text)], NUMBER, form)
        if place is None and text in self.functions:
            function = self.functions[text]
            if function.kind != wanted:
                self.wrong(form, wanted, self.said_of(text))
            self.test_object(form, wanted, of, function.of)
            self.test_whole(form, function, real)
            return self.tree("function", [function.it], KINDS[wanted], form, function.it.tree.of)
        found = super().word(form, wanted, of)
        if found.op == "fixed":
            return self.tree("truth" if wanted == "cond" else "number", found.parts, KINDS[wanted], form)
        if found.op == "param":
            return self.tree("parameter", [self.given[place]], NUMBER, form)
        if found.op == "var":
            self.test_whole(form, self.variables[text], real)
            return self.tree("variable", [self.variables[text].it], KINDS[wanted], form, self.type_of(found.of))
        self.test_whole(form, self.tables[text], real)
        return self.tree("cell", [self.tables[text].it], KINDS[wanted], form, self.type_of(found.of))

    def decimal(self, text):
        found = Fraction(text)
        self.decimals.append(found)
        return found.numerator if found.denominator == 1 else found

    def test_whole(self, form, thing, real):
        if thing.real and not real:
            self.refuse(34, form, f"a whole number is wanted here, and `{thing.name}` need not be one: floor, ceil, round or trunc")

    def type_of(self, of):
        return None if of is None else self.objects[of].it

    def index_of(self, tree):
        """The object type of a set tree, as the scope numbers them."""
        return next(k for k, o in enumerate(self.objects) if o.it is tree.of)

    # ---- numbers

    def wide_num(self, form, real=False, cost=False):
        """A number. `cost` may stand in it where it is the cost of a step."""
        if form.kind == "word":
            return self.wide_word(form, "num", None, real, cost)
        if form.kind == "bars":
            return self.tree("size", [self.wide_set(form.parts[0], None)], NUMBER, form)
        first = form.parts[0].word if form.parts[0].kind == "word" else None
        if first in UNSAID:
            self.refuse(34, form, f"{UNSAID[first]} is no decimal in general, so no scale carries it")
        head = first if first in WIDE_NUMBERS else self.head(form, "num", NUM_OPS)
        if head in OVER and self.table_first(form):
            return self.over(form, OVER[head], real, NUMBER)
        if head == "sum":
            super().sum(form)  # which refuses it
        if head not in WIDE_NUMBERS:
            return self.wide_cell(form, None, real)
        return self.operation(form, head, real, cost)

    def operation(self, form, head, real, cost):
        count = None if head == "-" and len(form.parts) == 2 else WIDE_NUMBERS[head]
        parts = self.operands(form, 1 if count is None and head == "-" else count)
        if head == "if":
            test = self.wide_cond(parts[0])
            return self.tree("if", [test, self.wide_num(parts[1], real, cost), self.wide_num(parts[2], real, cost)], NUMBER, form)
        if head in ROUNDINGS:
            return self.tree(head, [self.wide_num(parts[0], True)], NUMBER, form)
        if head == "pow":
            return self.power(form, parts, real)
        inner = [self.wide_num(part, real, cost) for part in parts]
        if head == "abs":
            zero = self.tree("number", [0], NUMBER, form)
            return self.tree("max", [inner[0], self.tree("-", [zero, inner[0]], NUMBER, form)], NUMBER, form)
        if head == "neg" or len(inner) == 1:
            return self.tree("-", [self.tree("number", [0], NUMBER, form), inner[0]], NUMBER, form)
        if head == "%" and any(map(self.is_real, parts)):
            self.refuse(34, form, "what a division leaves is a whole number of whole numbers alone")
        return self.tree("ratio" if head == "/" and real else "*" if head == "product" else HEADS.get(head, head), inner, NUMBER, form)

    def power(self, form, parts, real):
        exponent = int(parts[1].word) if parts[1].kind == "word" and WHOLE.match(parts[1].word) else 0
        if not 1 <= exponent <= MOST_POWER:
            self.refuse(34, form, f"a power is one of 1 to {MOST_POWER}: no scale carries another")
        base = self.wide_num(parts[0], real)
        return base if exponent == 1 else self.tree("*", [base] * exponent, NUMBER, form)

    def table_first(self, form):
        """Whether the first operand is the name of a table with arguments."""
        first = form.parts[1] if len(form.parts) > 1 else None
        if first is None or first.kind != "word" or self.param(first.word) is not None:
            return False
        return first.word in self.tables and bool(self.tables[first.word].args)

    def over(self, form, op, real, kind):
        """Cells of a table over sets."""
        table, given = self.tables[form.parts[1].word], form.parts[2:]
        if (table.kind != "num" or table.type == "element") if kind == NUMBER else table.kind != "set":
            self.refuse(31, form.parts[1], f"cells of `{table.name}` are not taken together by `{form.parts[0].word}`")
        self.test_whole(form, table, real)
        if len(given) != len(table.args):
            self.refuse(32, form, f"the table `{table.name}` takes {len(table.args)} argument{'s' * (len(table.args) > 1)}, and {len(given)} stand{'s' * (len(given) == 1)} here")
        parts = [self.wide_set(part, of) if self.is_set(part) else self.wide_num(part) for part, of in zip(given, table.args)]
        if not any(part.kind == SET for part in parts):
            op = "cell"
        return self.tree(op, [table.it, *parts], kind, form, table.it.of)

    def wide_cell(self, form, of, real):
        table, parts = self.tables[form.parts[0].word], form.parts[1:]
        self.test_object(form, table.kind, of, table.of)
        self.test_whole(form, table, real)
        if len(parts) != len(table.args):
            self.refuse(32, form, f"the table `{table.name}` takes {len(table.args)} argument{'s' * (len(table.args) != 1)}, and {len(parts)} stand{'s' * (len(parts) == 1)} here")
        return self.tree("cell", [table.it, *map(self.wide_num, parts)], KINDS[table.kind], form, self.type_of(table.of))

    # ---- sets

    def is_set(self, form):
        if form.kind == "word" and form.word in self.functions and self.param(form.word) is None:
            return self.functions[form.word].kind == "set"
        return super().is_set(form)

    def wide_set(self, form, of):
        if form.kind == "word":
            return self.wide_word(form, "set", of, False, False)
        head = self.head(form, "set", SET_OPS)
        if head in SETS_OVER and self.table_first(form):
            tree = self.over(form, SETS_OVER[head], False, SET)
            self.test_object(form, "set", of, self.index_of(tree))
            return tree
        if head not in SET_OPS:
            return self.wide_cell(form, of, False)
        parts = self.operands(form, SET_OPS[head])
        if head == "if":
            test, first = self.wide_cond(parts[0]), self.wide_set(parts[1], of)
            return self.tree("if", [test, first, self.wide_set(parts[2], self.index_of(first))], SET, form, first.of)
        if head in ("add", "remove"):
            number, inner = self.wide_num(parts[0]), self.wide_set(parts[1], of)
            return self.tree(head, [number, inner], SET, form, inner.of)
        found = []
        for part in parts:
            found.append(self.wide_set(part, of))
            of = self.index_of(found[-1])
        return self.tree(HEADS.get(head, head), found, SET, form, found[0].of)

    # ---- conditions

    def wide_cond(self, form):
        if form.kind == "word":
            return self.wide_word(form, "cond", None, False, False)
        head = self.head(form, "cond", COND_OPS)
        if head not in COND_OPS:
            return self.wide_cell(form, None, False)
        parts = self.operands(form, COND_OPS[head])
        if head in ("and", "or", "not", "if"):
            return self.tree(head, [self.wide_cond(part) for part in parts], CONDITION, form)
        if (head in ("=", "!=") and self.is_set(parts[0])) or head == "is_subset":
            first = self.wide_set(parts[0], None)
            return self.tree(head, [first, self.wide_set(parts[1], self.index_of(first))], CONDITION, form)
        if head == "is_in":
            return self.tree(head, [self.wide_num(parts[0]), self.wide_set(parts[1], None)], CONDITION, form)
        if head == "is_empty":
            return self.tree(head, [self.wide_set(parts[0], None)], CONDITION, form)
        real = any(map(self.is_real, parts))
        return self.tree(head, [self.wide_num(part, real) for part in parts], CONDITION, form)


class Loader(plain.Loader):
    """Reads both files as the reader of the profile does, in its order, into a model of the package."""

    def settings(self):
        self.d = self.within("domain", keyed, self.domain, "domain", KEYS)
        self.p = self.within("problem", keyed, self.problem, "problem", KEYS)
        for file, keys in (("domain", self.d), ("problem", self.p)):
            for key in ("domain", "problem"):
                if key in keys:
                    self.within(file, scalar, keys[key], "a name")
        cost = self.within("domain", word, self.d["cost_type"], "a type", ["integer", "continuous"]) if "cost_type" in self.d else "integer"
        reduce = "min"
        for file, keys in (("domain", self.d), ("problem", self.p)):
            if "reduce" in keys:
                reduce = self.within(file, self.reduce, keys["reduce"])
        self.model = Model(reduce == "max", cost == "continuous", 1, self.d["domain"].text if "domain" in self.d else "model")
        if "problem" in self.p:
            self.model.problem_name = self.p["problem"].text

    def reduce(self, node):
        text = word(node, "`min` or `max`", ["min", "max", "sum", "product"])
        if text in ("sum", "product"):
            refuse(52, node, f"`{text}` takes the costs of all plans together, and the solver looks for one plan: `min` and `max` alone can be said")
        return text

    def place(self, node):
        return Spot(self.file_of(node), node.line, node.column)

    def file_of(self, node):
        return "problem" if node in self.nodes_of_problem() else "domain"

    def nodes_of_problem(self):
        if not hasattr(self, "_nodes"):
            self._nodes, stack = set(), [self.problem]
            while stack:
                node = stack.pop()
                self._nodes.add(node)
                stack += node.items + [part for pair in node.pairs for part in pair]
        return self._nodes

    def read_numbers(self):
        super().read_numbers()
        for o in self.objects:
            o.it = ObjectType(o.name, o.count, self.place(o.node))
            self.model.object_types.append(o.it)

    # ---- variables and tables

    def read_variables(self):
        self.variables = []
        for node in items(self.d["state_variables"], plain.MOST_NAMES, "variables"):
            entries = keyed(node, "variable")
            name = name_of(entries["name"], self.names, "a variable's name")
            type_ = word(entries["type"], "a type", ["element", "set", "integer", "continuous"])
            of = self.object_key(entries, node, f"a variable of the type `{type_}` has an object type") if type_ in ("element", "set") else None
            less = None
            if "preference" in entries:
                less = word(entries["preference"], "`less` or `greater`", ["less", "greater"]) == "less"
                if type_ == "set":
                    refuse(50, entries["preference"], "a set variable has no preference")
            self.names[name] = "a variable"
            kind = "set" if type_ == "set" else type_
            self.variables.append(Thing(name=name, kind=kind, of=of, node=node, less=less, real=type_ == "continuous", type=type_, place=len(self.variables)))

    def read_tables(self):
        self.tables = []
        for node in items(self.d.get("tables"), plain.MOST_NAMES, "tables"):
            entries = keyed(node, "table")
            name = name_of(entries["name"], self.names, "a table's name")
            type_ = word(entries["type"], "a type", ["integer", "element", "bool", "boolean", "set", "continuous"])
            args = []
            for arg in items(entries.get("args"), 4, "arguments"):
                scalar(arg, "an object type's name")
                args.append(self.objects.index(self.object_named(arg)))
            of = self.object_key(entries, node, "a table of sets says of which object type") if type_ == "set" else None
            kind = {"set": "set", "bool": "cond", "boolean": "cond"}.get(type_, "num")
            t = Thing(name=name, type=type_, kind=kind, args=args, of=of, node=node, cells={}, given={}, entry=None, real=type_ == "continuous")
            t.default = self.cell(entries["default"], t) if "default" in entries else {"num": 0, "set": frozenset(), "cond": False}[kind]
            self.names[name] = "a table"
            self.tables.append(t)

    def cell(self, node, t):
        return self.decimal(node, "a number") if t.real else super().cell(node, t)

    def decimal(self, node, what):
        text = scalar(node, what)
        if not DECIMAL.match(text):
            refuse(42, node, f"{what} is wanted here, and `{text}` is none")
        found = Fraction(text)
        self.decimals.append((found, self.place(node)))
        return found.numerator if found.denominator == 1 else found

    def make_tables(self):
        kinds = {"integer": IntTable, "continuous": FloatTable, "element": ElementTable, "set": SetTable}
        for t in self.tables:
            types = [self.objects[arg].it for arg in t.args]
            more = {"of": self.objects[t.of].it} if t.kind == "set" else {}
            t.it = kinds.get(t.type, BoolTable)(dict(t.cells), t.default, t.name, types=types, **more)
            t.it.place = self.place(t.node)
            self.model.tables.append(t.it)

    def read_target(self):
        node = self.p["target"]
        values = self.state_of(node)
        for v in self.variables:
            if v.name not in values:
                refuse(45, node, f"the target gives the variable `{v.name}` no value")
        makers = {"integer": IntVar, "continuous": FloatVar, "element": ElementVar, "set": SetVar}
        for v in self.variables:
            v.it = makers[v.type](v.name, values[v.name], None if v.of is None else self.objects[v.of].it, v.less)
            v.it.place = self.place(v.node)
            self.model.variables.append(v.it)

    def state_of(self, node):
        """The values that a map gives to variables."""
        by_name, values = {v.name: v for v in self.variables}, {}
        for key, value in pairs_of(node, "variables with their values"):
            name = key.text if key.kind == "scalar" else None
            if name not in by_name:
                shown = f"`{name}`" if name is not None else "a list"
                refuse(45, key, f"{shown} is no variable{near(name or '', by_name)} The variables are: {listed(by_name)}")
            v = by_name[name]
            if v.type == "set":
                values[name] = plain.members(value, self.objects[v.of])
            elif v.type == "continuous":
                values[name] = self.decimal(value, "a number")
            elif v.type == "element":
                values[name] = plain.number(value, 0, 2**32 - 1, "an element's value")
            else:
                values[name] = plain.number(value, -LARGEST, LARGEST, "a whole number")
        return values

    # ---- rules

    def typed(self, node, call):
        self.scope.node, self.scope.file = node, self.file_of(node)
        return super().typed(node, call)

    def read_functions(self):
        for node in items(self.d.get("state_functions"), plain.MOST_NAMES, "state functions"):
            entries = keyed(node, "state function", KEYS)
            name = name_of(entries["name"], self.names, "a state function's name")
            type_ = word(entries["type"], "a type", ["integer", "element", "continuous", "set", "bool", "boolean", "condition"])
            kind = {"integer": "num", "element": "num", "continuous": "num", "set": "set"}.get(type_, "cond")
            of = self.object_key(entries, node, "a state function of the type `set` has an object type") if type_ == "set" else None
            calls = {"num": lambda f, real=type_ == "continuous": self.scope.wide_num(f, real), "set": lambda f, of=of: self.scope.wide_set(f, of), "cond": self.scope.wide_cond}
            function = StateFunction(name, self.typed(entries["expression"], calls[kind]), self.place(node))
            self.names[name] = "a state function"
            self.model.functions.append(function)
            self.scope.functions[name] = Thing(name=name, kind=kind, of=of, real=type_ == "continuous", it=function)

    def read_parameters(self, node):
        """The parameters of a transition or a forall, as those of the package."""
        found = []
        for name, (kind, k) in self.params(node, True):
            found.append(Parameter(name, self.objects[k].it if kind == "object" else self.variables[k].it))
        return found

    def in_force(self, parameters, call):
        """What a call gives while these parameters are in force."""
        self.scope.params += [p.name for p in parameters]
        self.scope.given += parameters
        try:
            return call()
        finally:
            count = len(parameters)
            del self.scope.params[len(self.scope.params) - count :], self.scope.given[len(self.scope.given) - count :]

    def wide_condition(self, node):
        if node.kind != "map":
            return self.typed(node, self.scope.wide_cond)
        entries = keyed(node, "condition")
        parameters = self.read_parameters(entries.get("forall"))
        inner = self.in_force(parameters, lambda: self.wide_condition(entries["condition"]))
        for parameter in reversed(parameters):
            inner = Tree("forall", (parameter, inner), CONDITION, None, inner.place)
        return inner

    def wide_transition(self, node):
        entries = keyed(node, "transition")
        named = entries["name"]
        text = scalar(named, "a transition's name")
        if not named.raw or len(named.raw) > 200:
            refuse(51, named, "a transition's name has 1 to 200 bytes")
        if plain.CONTROL.search(text) or text[0] == " " or text[-1] == " ":
            refuse(51, named, "a transition's name has no control characters and no space at its ends")
        step = Transition(text, parameters=self.read_parameters(entries.get("parameters")))
        step.place = self.place(node)
        self.in_force(step.parameters, lambda: self.fill(step, entries))
        forced = "forced" in entries and plain.TRUTHS[word(entries["forced"], "a truth value", list(plain.TRUTHS))]
        if "direction" in entries and scalar(entries["direction"], "`forward`") != "forward":
            refuse(52, entries["direction"], "the solver searches from the target on, so `direction: backward` cannot be said")
        self.test_name(text, node)
        self.model.steps.append((step, forced))

    def test_name(self, text, node):
        if any(step.name == text for step, _ in self.model.steps):
            refuse(43, node, f"the step `{text}` was there before")

    def fill(self, step, entries):
        for c in items(entries.get("preconditions"), 256, "conditions"):
            step.precondition_trees.append(self.wide_condition(c))
        by_name = {v.name: v for v in self.variables}
        for key, value in pairs_of(entries.get("effects"), "variables with expressions"):
            name = key.text if key.kind == "scalar" else None
            if name not in by_name:
                shown = f"`{name}`" if name is not None else "a list"
                refuse(30, key, f"{shown} is no variable{near(name or '', by_name)} The variables are: {listed(by_name)}")
            v = by_name[name]
            call = (lambda f, of=v.of: self.scope.wide_set(f, of)) if v.type == "set" else (lambda f, real=v.real: self.scope.wide_num(f, real))
            step.effects.append((v.it, self.typed(value, call)))
        if "cost" in entries:
            tree = self.typed(entries["cost"], lambda f: self.scope.wide_num(f, self.model.float_cost, True))
            step.cost = FloatExpr(tree)

    def wide_base_case(self, node):
        cost, listing = None, node
        if node.kind == "map":
            entries = keyed(node, "base case")
            listing, cost = entries["conditions"], entries.get("cost")
        elif node.kind == "scalar" and not node.is_empty():
            refuse(50, node, "a base case is a list of conditions, or a map with `conditions`")
        conditions = [self.wide_condition(c) for c in items(listing, 256, "conditions")]
        self.model.base_cases.append(BaseCase(conditions, self.real_number(cost), self.place(node)))

    def real_number(self, node):
        return None if node is None else self.typed(node, lambda f: self.scope.wide_num(f, self.model.float_cost))

    def base_state(self, node):
        """A base case with an equation for each variable."""
        if node.kind == "map" and any(key.kind == "scalar" and key.text == "state" for key, _ in node.pairs) and all(v.name != "state" for v in self.variables):
            entries = keyed(node, "base state", KEYS)
            state, cost = entries["state"], entries.get("cost")
        else:
            state, cost = node, None
        values, conditions = self.state_of(state), []
        for v in self.variables:
            if v.name not in values:
                refuse(45, state, f"the base state gives the variable `{v.name}` no value")
            spot = self.place(state)
            value = Tree("members", (values[v.name],), SET, v.it.object_type, spot) if v.type == "set" else trees.number(values[v.name], spot)
            conditions.append(Tree("=", (v.it.tree, value), CONDITION, None, spot))
        self.model.base_cases.append(BaseCase(conditions, self.real_number(cost), self.place(state)))

    def load(self):
        self.decimals = []
        self.settings()
        self.within("domain", self.read_objects)
        self.within("problem", self.read_numbers)
        self.within("domain", self.read_variables)
        self.within("domain", self.read_tables)
        self.within("problem", self.read_cells)
        self.within("problem", self.read_target)
        self.make_tables()
        self.scope = Wide(self.variables, self.tables, self.objects)
        self.within("domain", self.read_functions)
        self.of_both("transitions", plain.MOST_RULES, lambda node: self.wide_transition(node) or Thing(), "transitions")
        self.of_both("constraints", plain.MOST_RULES, lambda node: self.model.constraints.append(self.wide_condition(node)) or Thing(), "constraints")
        self.of_both("base_cases", plain.MOST_RULES, lambda node: self.wide_base_case(node) or Thing(), "base cases")
        self.of_both("base_states", plain.MOST_RULES, lambda node: self.base_state(node) or Thing(), "base states")
        self.of_both("dual_bounds", plain.MOST_NAMES, lambda node: self.model.bounds.append(self.bound(node)) or Thing(), "dual bounds")
        if not self.model.base_cases:
            raise Refused(48, self.domain.line, self.domain.column, None, "neither file has a base case or a base state, so no list could end").of("domain")
        return self

    def bound(self, node):
        return self.typed(node, lambda f: self.scope.wide_num(f, self.model.float_cost or self.scope.is_real(f)))

    def least_scale(self):
        """The least power of ten of which all decimals of the texts are parts."""
        for scale in (10**k for k in range(13)):
            if all((found * scale).denominator == 1 for found in [*(d for d, _ in self.decimals), *self.scope.decimals]):
                return scale
        return refuse_at(max(self.decimals, key=lambda pair: pair[0].denominator)[1], "a number has more than 12 digits behind its point") if self.decimals else 1


def refuse_at(spot, why, number=52):
    raise Refused(number, spot.line, spot.column, spot.offset, why).of(spot.file)


def load(domain, problem):
    """The loader of two texts, whose `model` is what they mean; or their first refusal."""
    return Loader(*plain.trees(domain, problem)).load()


def widened(loader, scale=None):
    """The model as it is written in the profile; refused where something cannot be said, at its place."""
    loader.model.scale = scale or loader.least_scale()
    try:
        return written(loader.model, faithful=True)
    except ModelError as error:
        if isinstance(error.place, Spot):
            refuse_at(error.place, error.why)
        raise Refused(52, 1, 1, None, error.why).of("domain") from None
