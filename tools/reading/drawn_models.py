"""Small models that are drawn by chance, with dual bounds and preferences that may lie: tours, rounds of a van, knapsacks, bins, jobs one behind the
other, stocks, counters, costs that are joined by max; and changes of such a model.

An expression is a word, or a list of its operator and its operands; `|` is the size of a set."""

import copy

NUMBERS, SIGNS, RELATIONS = ("+", "-", "*", "max", "min"), ("+", "-", "*", "/", "%", "max", "min"), ("<", "<=", ">", ">=", "=", "!=")
SETS = ("union", "intersection", "difference")
KINDS = ("tour", "tour", "knapsack", "bins", "jobs", "stock", "counter", "counter", "places")


def text(e):
    if not isinstance(e, list):
        return str(e)
    return f"|{text(e[1])}|" if e[0] == "|" else f"({' '.join(text(part) for part in e)})"


def listed(items):
    return f"[ {', '.join(items)} ]" if items else "[]"


def quoted(e):
    return f'"{text(e)}"'


class Drawn:
    """A model as it is drawn. Variables are (name, kind, preference), over one object type `o`; tables are (name, kind, number of arguments, cells)."""

    def __init__(self, draw):
        self.draw, self.count = draw, draw.choice([2, 3, 4, 4, 5, 5, 6])
        self.minimize, self.join = draw.random() < 0.6, draw.choice(["+", "+", "+", "+", "max", "min"])
        self.variables, self.tables, self.target = [], {}, {}
        self.transitions, self.constraints, self.bases, self.bounds = [], [], [], []
        self.kind = draw.choice(KINDS)
        getattr(self, self.kind)()
        for _ in range(draw.choice([0, 0, 1, 1, 2, 3])):
            self.change()

    # ---- parts

    def variable(self, name, kind, start, preference=None):
        self.variables.append([name, kind, preference])
        self.target[name] = start

    def cells(self, name, args, low, high, kind="integer"):
        """A table, each cell drawn between low and high."""
        keys = [()]
        for _ in range(args):
            keys = [(*key, k) for key in keys for k in range(self.count)]
        self.tables[name] = [kind, args, {key: self.draw.randint(low, high) for key in keys}]

    def preference(self, usual):
        """Mostly what is usual there."""
        return self.draw.choice([usual, usual, usual, "less", "greater", None])

    def transition(self, name, parameters, preconditions, effects, weight, forced=False):
        self.transitions.append({"name": name, "parameters": parameters, "preconditions": preconditions, "effects": effects, "weight": weight, "forced": forced})

    def some(self, *items):
        return [item for item in items if self.draw.random() < 0.5]

    def is_likely(self, chance):
        return self.draw.random() < chance

    # ---- kinds of models

    def tour(self):
        draw, n = self.draw, self.count
        self.minimize = draw.random() < 0.8
        self.variable("left", "set", list(range(1, n)))
        self.variable("at", "element", 0)
        self.cells("c", 2, draw.choice([0, 0, -2]), 7)
        self.cells("d", 1, 4, 25)
        self.cells("r", 1, 0, 9)
        timed = draw.random() < 0.7
        there = ["+", "t", ["c", "at", "p"]]
        effects = {"left": ["remove", "p", "left"], "at": "p"}
        if timed:
            self.variable("t", "integer", 0, self.preference("less"))
            effects["t"] = draw.choice([there, ["max", there, ["r", "p"]], ["max", ["r", "p"], there], ["-", "t", ["r", "p"]], ["/", there, 2]])
        weight = draw.choice([["c", "at", "p"], ["c", "at", "p"], ["-", effects["t"], "t"] if timed else 1, ["max", ["c", "at", "p"], ["r", "p"]]])
        self.transition("visit", [("p", "left")], self.some(["<=", there, ["d", "p"]]) if timed else [], effects, weight)
        self.transition("return", [], [["is_empty", "left"], ["!=", "at", 0]], {"at": 0, **({"t": ["+", "t", ["c", "at", 0]]} if timed else {})}, ["c", "at", 0])
        self.bases.append(([["is_empty", "left"], ["=", "at", 0]], draw.choice([None, None, 0, "t" if timed else 2, ["r", 1]])))
        if timed and draw.random() < 0.5:
            self.constraints.append((["<=", ["+", "t", ["c", "at", "j"]], ["d", "j"]], "left"))
        self.least("into", lambda k: [self.tables["c"][2][i, k] for i in range(n) if i != k])
        self.least("out", lambda k: [self.tables["c"][2][k, i] for i in range(n) if i != k])
        home = ["if", ["!=", "at", 0], ["into", 0], 0]
        self.bounds += [["sum", "into", "left"], ["+", ["sum", "into", "left"], home], ["+", ["sum", "out", "left"], ["if", ["!=", "at", 0], ["out", "at"], 0]], ["sum", "into", ["add", "at", "left"]]]

    def least(self, name, of):
        """A table with the least of some numbers for each member, the greatest where costs are to be great; some cells one too great."""
        best = min if self.minimize else max
        self.tables[name] = ["integer", 1, {(k,): best(of(k), default=0) + (self.draw.random() < 0.05) for k in range(self.count)}]

    def knapsack(self):
        draw = self.draw
        self.minimize = draw.random() < 0.15
        self.cells("v", 1, draw.choice([0, 1, -2]), 9)
        self.cells("w", 1, draw.choice([0, 1, 1, 2]), 5)
        self.variable("room", "integer", draw.randint(3, 12), self.preference("greater"))
        fits = ["<=", ["w", "p"], "room"]
        if draw.random() < 0.5:
            self.variable("left", "set", list(range(self.count)))
            self.transition("take", [("p", "left")], [fits], {"left": ["remove", "p", "left"], "room": ["-", "room", ["w", "p"]]}, ["v", "p"])
            self.transition("skip", [("p", "left")], self.some([">", ["w", "p"], "room"]), {"left": ["remove", "p", "left"]}, draw.choice([0, None]), draw.random() < 0.3)
            self.bases.append(([["is_empty", "left"]], draw.choice([None, 0, "room", ["/", "room", 2]])))
            rest = ["sum", "v", "left"]
        else:
            last = self.count - 1
            self.variable("i", "element", 0)
            self.variable("k", "integer", 0)
            more = {"i": ["if", ["<", "i", last], ["+", "i", 1], "i"], "k": ["+", "k", 1]}
            self.transition("take", [], [["<=", ["w", "i"], "room"]], {**more, "room": ["-", "room", ["w", "i"]]}, ["v", "i"])
            self.transition("skip", [], [], more, draw.choice([0, None]))
            self.bases.append(([[">=", "k", self.count]], draw.choice([None, 0, "room"])))
            rest = ["*", max(0, *self.tables["v"][2].values()), ["-", self.count, "k"]]
        rate = max(v * 10 // max(1, w) + 1 for v, w in zip(self.tables["v"][2].values(), self.tables["w"][2].values()))
        self.bounds += [rest, ["/", ["*", "room", rate], 10], ["/", ["+", ["*", "room", rate], 9], 10], ["min", rest, ["*", "room", rate]], ["*", "room", draw.randint(1, 9)]]

    def bins(self):
        draw, cap = self.draw, self.draw.randint(4, 9)
        self.minimize, self.join = draw.random() < 0.9, "+"
        self.cells("w", 1, draw.choice([0, 1, 1]), cap)
        self.variable("left", "set", list(range(self.count)))
        self.variable("room", "integer", draw.choice([0, 0, 3]), self.preference("greater"))
        self.transition("put", [("p", "left")], [["<=", ["w", "p"], "room"]], {"left": ["remove", "p", "left"], "room": ["-", "room", ["w", "p"]]}, draw.choice([0, None, 0]))
        unfit = [[">", ["w", "j"], "room"], "left"]
        self.transition("open", [], [tuple(unfit)] if draw.random() < 0.5 else [["<", "room", cap]], {"room": cap}, draw.choice([1, 1, 2]), draw.random() < 0.2)
        self.bases.append(([["is_empty", "left"]], draw.choice([None, None, 0, ["if", ["<", "room", 2], 1, 0]])))
        over = ["-", ["sum", "w", "left"], "room"]
        self.tables["half"] = ["integer", 1, {(k,): int(2 * self.tables["w"][2][k,] > cap) for k in range(self.count)}]
        self.bounds += [["/", ["+", over, cap - 1], cap], ["/", over, cap], ["max", 0, ["/", ["+", over, cap - 1], cap]], ["-", ["sum", "half", "left"], ["if", [">=", "room", cap // 2 + 1], 1, 0]], ["if", [">", over, 0], 1, 0]]

    def jobs(self):
        draw = self.draw
        self.minimize = draw.random() < 0.8
        self.cells("l", 1, 0, 5)
        self.cells("d", 1, 0, 12)
        self.cells("v", 1, draw.choice([0, 0, -1]), 3)
        self.variable("left", "set", list(range(self.count)))
        clock = draw.random() < 0.6
        done = ["sum", "l", ["~", "left"]]
        if clock:
            self.variable("t", "integer", 0, self.preference("less"))
            done = "t"
        late = ["max", 0, ["-", ["+", done, ["l", "p"]], ["d", "p"]]]
        weight = draw.choice([["*", ["v", "p"], late], late, ["+", late, ["v", "p"]], ["*", ["v", "p"], ["+", done, ["l", "p"]]]])
        effects = {"left": ["remove", "p", "left"], **({"t": ["+", "t", ["l", "p"]]} if clock else {})}
        self.transition("do", [("p", "left")], self.some(["not", ["is_in", 0, "left"]])[:1] if draw.random() < 0.2 else [], effects, weight)
        if draw.random() < 0.3:
            self.transition("wait", [], [["<", done, 4]], {"t": ["+", "t", 1]} if clock else {}, draw.choice([0, 1, None]))
        self.bases.append(([["is_empty", "left"]], draw.choice([None, None, done, 3])))
        self.tables["late"] = ["integer", 1, {(k,): max(0, self.tables["l"][2][k,] - self.tables["d"][2][k,]) for k in range(self.count)}]
        self.bounds += [["sum", "late", "left"], ["sum", "v", "left"], ["*", ["|", "left"], done], ["max", 0, ["-", ["+", done, ["sum", "l", "left"]], 12]]]

    def stock(self):
        draw, last = self.draw, self.draw.randint(3, 7)
        self.minimize = draw.random() < 0.8
        self.variable("k", "integer", 0)
        self.variable("s", "integer", draw.randint(0, 4), self.preference(draw.choice(["less", "greater"])))
        need, most = draw.randint(0, 3), draw.randint(1, 4)
        over = ["<", "k", last]
        self.transition("make", [], [over, *self.some(["<", "s", 6])], {"k": ["+", "k", 1], "s": ["+", "s", most - need]}, draw.choice([3, ["+", "s", 2], ["*", 2, "s"], ["-", 5, "s"]]))
        self.transition("keep", [], [over, [">=", "s", need]], {"k": ["+", "k", 1], "s": ["-", "s", need]}, draw.choice(["s", 0, ["*", 1, "s"], ["/", "s", 2], None]))
        if draw.random() < 0.5:
            self.transition("spill", [], [[">", "s", 0]], {"s": draw.choice([["-", "s", 1], ["/", "s", 2], 0])}, draw.choice([0, 1, -1, None]), draw.random() < 0.2)
        self.bases.append(([[">=", "k", last]], draw.choice([None, "s", ["-", 3, "s"], ["max", 0, ["-", 4, "s"]]])))
        rest = ["-", last, "k"]
        self.bounds += [0, ["*", rest, draw.randint(0, 3)], ["-", ["*", need, rest], "s"], ["/", ["-", ["*", need, rest], "s"], most], ["max", 0, ["-", ["*", need, rest], "s"]]]

    def counter(self):
        draw, last = self.draw, self.draw.randint(3, 6)
        self.variable("k", "integer", 0)
        self.variable("e", "element", 0, draw.choice([None, None, None, "less", "greater"]))
        for name in ["a", "b"][: draw.choice([1, 1, 2])]:
            self.variable(name, "integer", draw.randint(-1, 2), draw.choice([None, "less", "greater", "less", "greater"]))
        if draw.random() < 0.4:
            self.variable("left", "set", [k for k in range(self.count) if draw.random() < 0.6])
        self.cells("v", 1, -1, 5)
        self.cells("g", 1, 0, self.count - 1, "element")
        self.cells("on", 1, 0, 1, "bool")
        for number in range(draw.choice([2, 2, 3, 4])):
            parameters = [("p", draw.choice(["o", "left"]) if "left" in self.target else "o")] if draw.random() < 0.4 else []
            names = [p for p, _ in parameters]
            effects = {"k": ["+", "k", 1]}
            for name, kind, _ in self.variables[1:]:
                if draw.random() < 0.5:
                    effects[name] = self.effect(name, kind, names)
            self.transition(f"go{number}", parameters, [["<", "k", last], *([self.condition(2, names)] if draw.random() < 0.4 else [])], effects, self.number(draw.choice([0, 1, 1, 2]), names), draw.random() < 0.1)
        self.bases.append(([draw.choice([["=", "k", last], [">=", "k", last]]), *([self.condition(1, [])] if draw.random() < 0.2 else [])], draw.choice([None, self.number(1, [])])))
        if draw.random() < 0.3:
            self.constraints.append((["or", self.condition(1, []), self.condition(1, [])], None))
        rest = ["-", last, "k"]
        self.bounds += [["*", rest, draw.randint(-1, 4)], rest, ["v", "e"], ["+", ["*", rest, -1], "a"], ["max", "a", rest], ["min", "a", 0]]

    def places(self):
        """A graph in which places come again."""
        draw, n = self.draw, self.count
        self.variable("at", "element", 0)
        self.cells("c", 2, draw.choice([0, 1, 1]), 7)
        self.cells("on", 2, 0, 1, "bool")
        effects = {"at": "p"}
        if draw.random() < 0.6:
            self.variable("t", "integer", draw.randint(0, 6), self.preference(draw.choice(["greater", "less"])))
            effects["t"] = draw.choice([["-", "t", 1], ["+", "t", 1], ["-", "t", ["c", "at", "p"]], ["max", 0, ["-", "t", 1]], ["min", 6, ["+", "t", 1]]])
        limit = [[">", "t", 0]] if "t" in self.target and draw.random() < 0.7 else []
        self.transition("go", [("p", "o")], [*self.some(["on", "at", "p"]), *limit, *self.some(["!=", "at", "p"])], effects, ["c", "at", "p"])
        if "t" in self.target:
            self.transition("rest", [], [["<", "t", 3]], {"t": draw.choice([["+", "t", 1], 3])}, draw.choice([0, 1, None]), draw.random() < 0.2)
        self.bases.append(([["=", "at", n - 1]], draw.choice([None, 2, "t" if "t" in self.target else 1])))
        self.tables["far"] = ["integer", 1, self.distances()]
        self.bounds += [0, ["far", "at"], ["if", ["=", "at", n - 1], 0, 1], ["max", 0, ["far", "at"]]]

    def distances(self):
        """How far each place is from the last one; one too far here and there."""
        c, far = self.tables["c"][2], {(k,): 0 if k == self.count - 1 else 99 for k in range(self.count)}
        for _ in range(self.count):
            for a in range(self.count - 1):
                far[a,] = min(c[a, b] + far[b,] for b in range(self.count))
        return {key: value + (self.draw.random() < 0.1) for key, value in far.items()}

    # ---- expressions

    def named(self, kind):
        return [name for name, of, _ in self.variables if of == kind]

    def number(self, depth, names):
        """A number, in which `names` may stand as members."""
        draw, members = self.draw, [*names, *self.named("element")]
        leaves = [*self.named("integer"), *self.named("integer"), *members, draw.randint(-2, 5)]
        cells = [[name, *(draw.choice(members or [0]) for _ in range(args))] for name, (kind, args, _) in self.tables.items() if kind == "integer" and args]
        if depth <= 0 or draw.random() < 0.15:
            return draw.choice(cells or leaves) if draw.random() < 0.3 else draw.choice(leaves)
        kind = draw.random()
        sets = self.named("set")
        if kind < 0.5:
            return [draw.choice(NUMBERS), self.number(depth - 1, names), self.number(depth - 1, names)]
        if kind < 0.62:
            return [draw.choice("/%"), self.number(depth - 1, names), draw.choice([2, 3, -2, 4])]
        if kind < 0.72:
            return ["if", self.condition(depth - 1, names), self.number(depth - 1, names), self.number(depth - 1, names)]
        if kind < 0.85 and sets:
            one = [name for name, (of, args, _) in self.tables.items() if of == "integer" and args == 1]
            return ["sum", draw.choice(one), self.set(1, names)] if one and draw.random() < 0.6 else ["|", self.set(1, names)]
        return draw.choice(cells or leaves)

    def condition(self, depth, names):
        draw, sets, members = self.draw, self.named("set"), [*names, *self.named("element"), 0]
        kind = draw.random()
        if depth > 1 and kind < 0.25:
            return [draw.choice(["and", "or"]), self.condition(depth - 1, names), self.condition(depth - 1, names)]
        if depth > 0 and kind < 0.35:
            return ["not", self.condition(depth - 1, names)]
        if sets and kind < 0.55:
            return draw.choice([["is_in", draw.choice(members), self.set(depth - 1, names)], ["is_empty", self.set(depth - 1, names)], ["is_subset", self.set(0, names), self.set(depth - 1, names)]])
        truths = [[name, *(draw.choice(members) for _ in range(args))] for name, (of, args, _) in self.tables.items() if of == "bool"]
        if truths and kind < 0.65:
            return draw.choice(truths)
        return [draw.choice(RELATIONS), self.number(depth - 1, names), self.number(depth - 1, names)]

    def set(self, depth, names):
        draw, sets = self.draw, self.named("set")
        members = [*names, *self.named("element"), draw.randrange(self.count)]
        if depth <= 0 or draw.random() < 0.4:
            return draw.choice(sets)
        return draw.choice([["remove", draw.choice(members), self.set(depth - 1, names)], ["add", draw.choice(members), self.set(depth - 1, names)], ["~", self.set(depth - 1, names)],
                            [draw.choice(SETS), self.set(depth - 1, names), self.set(depth - 1, names)]])

    def effect(self, name, kind, names):
        draw = self.draw
        if kind == "set":
            return self.set(2, names)
        if kind == "element":
            cells = [[table, draw.choice([*names, name])] for table, (of, _, _) in self.tables.items() if of == "element"]
            return draw.choice([*cells, *names, draw.randrange(self.count), ["%", ["+", name, 1], self.count], name])
        wrapped = ["%", self.number(1, names), draw.choice([3, 5, 7])]
        return draw.choice([["+", name, self.number(0, names)], ["max", name, self.number(1, names)], ["min", name, self.number(1, names)], ["-", name, 1], self.number(1, names), wrapped, ["+", name, ["v", "e"]] if "v" in self.tables and "e" in self.target else ["+", name, 1]])

    # ---- changes

    def copied(self):
        """A copy, which draws from the same source."""
        found = copy.copy(self)
        for name in ("variables", "tables", "target", "transitions", "constraints", "bases", "bounds"):
            setattr(found, name, copy.deepcopy(getattr(self, name)))
        return found

    def places_of_expressions(self):
        """Each expression of the model but its bounds: its kind, its names, and where it stands."""
        for t in self.transitions:
            names = [name for name, _ in t["parameters"]]
            for k, condition in enumerate(t["preconditions"]):
                if isinstance(condition, tuple):
                    yield "condition", [*names, "j"], t["preconditions"], k
                else:
                    yield "condition", names, t["preconditions"], k
            for name in t["effects"]:
                yield next(kind for other, kind, _ in self.variables if other == name), names, t["effects"], name
            yield "number", names, t, "weight"
        for k, (_, over) in enumerate(self.constraints):
            yield "condition", ["j"] if over else [], self.constraints, k
        for k, _ in enumerate(self.bases):
            yield "base", [], self.bases, k

    def change(self):
        """Changes the model in one place."""
        draw, kind = self.draw, self.draw.random()
        if kind < 0.2:
            self.change_cell()
        elif kind < 0.4:
            v = draw.choice([v for v in self.variables if v[1] != "set"] or [[None, None, None]])
            v[2] = draw.choice([None, "less", "greater"])
        elif kind < 0.47:
            t = draw.choice(self.transitions)
            t["forced"] = not t["forced"]
        elif kind < 0.5:
            self.minimize = not self.minimize
        else:
            self.change_expression()

    def change_cell(self):
        draw = self.draw
        numbers = [name for name, (kind, _, _) in self.tables.items() if kind == "integer"]
        if numbers:
            cells = self.tables[draw.choice(numbers)][2]
            cells[draw.choice(list(cells))] += draw.choice([-3, -1, -1, 1, 1, 4])

    def change_expression(self):
        draw = self.draw
        kind, names, holder, key = draw.choice(list(self.places_of_expressions()))
        old = holder[key]
        if kind == "base":
            conditions, cost = old
            holder[key] = (conditions, self.changed(cost, "number", names)) if draw.random() < 0.5 else ([self.changed(c, "condition", names) for c in conditions], cost)
        elif isinstance(old, tuple):
            holder[key] = (self.changed(old[0], "condition", names), old[1])
        else:
            holder[key] = self.changed(old, kind, names)

    def new(self, kind, names):
        if kind == "condition":
            return self.condition(1, names)
        if kind == "set":
            return self.set(1, names)
        return self.effect(self.named("element")[0], "element", names) if kind == "element" else self.number(1, names)

    def changed(self, e, kind, names):
        """An expression with a change somewhere in it: another number, another operator, another part."""
        draw = self.draw
        if not isinstance(e, list):
            if isinstance(e, int) and draw.random() < 0.7:
                return e + draw.choice([-2, -1, -1, 1, 1, 2])
            return self.new(kind, names)
        if draw.random() < 0.1:
            return self.new(kind, names)
        e = copy.deepcopy(e)
        for group in (SIGNS, RELATIONS, SETS, ("and", "or"), ("add", "remove")):
            if e[0] in group and draw.random() < 0.35:
                e[0] = draw.choice(group)
                return e
        k = draw.randrange(1, len(e))
        part = self.kind_of_part(e, k, kind)
        if part == "member":
            e[k] = draw.choice([*names, *self.named("element"), draw.randrange(self.count)])
        elif part:
            e[k] = self.changed(e[k], part, names)
        return e

    def kind_of_part(self, e, k, kind):
        """The kind of a part of an expression; None where it is not to be changed."""
        op = e[0]
        if op == "if":
            return "condition" if k == 1 else kind
        if op in ("and", "or", "not"):
            return "condition"
        if op in SIGNS:
            return "number"
        if op in RELATIONS:
            return None if any(isinstance(part, str) and part in self.named("set") for part in e[1:]) else "number"
        if op == "sum":
            return None if k == 1 else "set"
        if op in ("is_in", "add", "remove"):
            return "member" if k == 1 else "set"
        if op in (*SETS, "~", "|", "is_empty", "is_subset"):
            return "set"
        return "member" if op in self.tables else None

    # ---- its text

    def texts(self, bounds):
        """The two files, with these bounds."""
        lines = [f"domain: drawn\nreduce: {'min' if self.minimize else 'max'}\nobjects: [ o ]\nstate_variables:"]
        for name, kind, preference in self.variables:
            over = "" if kind == "integer" else ", object: o"
            lines.append(f"- {{ name: {name}, type: {kind}{over}{f', preference: {preference}' if preference else ''} }}")
        if self.tables:
            lines.append("tables:")
        for name, (kind, args, _) in self.tables.items():
            lines.append(f"- {{ name: {name}, type: {kind}, args: {listed(['o'] * args)} }}")
        lines.append("transitions:")
        for t in self.transitions:
            lines += self.lines_of(t)
        if self.constraints:
            lines += ["constraints:", *(f"- {self.condition_text(c if c[1] else c[0])}" for c in self.constraints)]
        lines.append("base_cases:")
        for conditions, cost in self.bases:
            lines.append(f"- {{ conditions: {listed([quoted(c) for c in conditions])}{'' if cost is None else f', cost: {quoted(cost)}'} }}")
        if bounds:
            lines += ["dual_bounds:", *(f"- {quoted(b)}" for b in bounds)]
        return "\n".join(lines) + "\n", self.problem()

    def lines_of(self, t):
        yield f"- name: {t['name']}"
        if t["parameters"]:
            yield f"  parameters: {listed([f'{{ name: {name}, object: {over} }}' for name, over in t['parameters']])}"
        if t["preconditions"]:
            yield f"  preconditions: {listed([self.condition_text(c) for c in t['preconditions']])}"
        yield f"  effects: {{ {', '.join(f'{name}: {quoted(e)}' for name, e in t['effects'].items())} }}"
        if t["weight"] is not None:
            yield f"  cost: {quoted([self.join, 'cost', t['weight']])}"
        if t["forced"]:
            yield "  forced: true"

    def condition_text(self, c):
        """A condition, or one with the set over which `j` ranges."""
        return f"{{ condition: {quoted(c[0])}, forall: [ {{ name: j, object: {c[1]} }} ] }}" if isinstance(c, tuple) else quoted(c)

    def problem(self):
        lines = [f"domain: drawn\nproblem: one\nobject_numbers: {{ o: {self.count} }}\ntarget:"]
        lines += [f"  {name}: {listed([str(k) for k in value]) if isinstance(value, list) else value}" for name, value in self.target.items()]
        if self.tables:
            lines.append("table_values:")
        for name, (kind, _, cells) in self.tables.items():
            shown = {key: str(value) if kind != "bool" else "true" if value else "false" for key, value in cells.items()}
            lines.append(f"  {name}: {{ {', '.join(f'{key[0] if len(key) == 1 else list(key)}: {value}' for key, value in shown.items())} }}")
        return "\n".join(lines) + "\n"
