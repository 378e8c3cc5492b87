"""What expressions mean in a state, and how a list of steps goes: `replayed` tells it step by step.

A state is a list with a number or a frozenset for each variable, in order of definition."""

from .expressions import LARGEST

KIND_WORDS = {
    "Range": "the result lies beyond 2^62 - 1, or an element is to hold more than 2^32 - 1",
    "ZeroDivisor": "the right operand of a division is 0",
    "Negative": "a number below 0 stands where a member of an object type is wanted",
    "Index": "a number stands where a member is wanted, and the object type has no such member",
}


class Fault(Exception):
    """An expression without a value: its kind, the form that has none, and in words what its operands were."""

    def __init__(self, kind, tree, why):
        super().__init__(kind)
        self.kind, self.tree, self.why = kind, tree, why
        self.spot = self.node = None

    def at(self, spot, node):
        if self.spot is None:
            self.spot, self.node = spot, node
        return self


def shown(value):
    """A value as it is written in a target."""
    if isinstance(value, bool):
        return "true" if value else "false"
    if isinstance(value, frozenset):
        return "{" + ", ".join(map(str, sorted(value))) + "}"
    return str(value)


def member(o, k):
    """A member by its name, or by its number where it has none."""
    return o.names[k] if 0 <= k < len(o.names) else str(k)


def ranges_over(m, over):
    """The object type over which a parameter ranges."""
    kind, of = over
    return m.objects[of if kind == "object" else m.variables[of].of]


def shown_step(m, step):
    """The text of a step, with the names of members."""
    return " ".join([step.transition.name, *(member(ranges_over(m, over), k) for (_, over), k in zip(step.transition.params, step.args))])


def shown_of(m, v, value):
    """The value of a variable, with the names of members."""
    if v.kind == "set":
        return "{" + ", ".join(member(m.objects[v.of], k) for k in sorted(value)) + "}"
    return member(m.objects[v.of], value) if v.kind == "element" else str(value)


class Values:
    """The value of each form of expression in a model."""

    def __init__(self, model):
        self.model = model

    def ranged(self, value, tree, why):
        if abs(value) > LARGEST:
            raise Fault("Range", tree, f"{why} is {value}")
        return value

    def member(self, value, of, tree):
        o = self.model.objects[of]
        if value < 0:
            raise Fault("Negative", tree, f"{value} is to be a member of `{o.name}`")
        if value >= o.count:
            raise Fault("Index", tree, f"{value} is to be a member of `{o.name}`, which has {o.count}: " + (f"0 to {o.count - 1}" if o.count else "none"))
        return value

    def read(self, table, at):
        return table.cells.get(at, table.default)

    def of(self, tree, state, args):
        call = getattr(self, "of_" + NAMES.get(tree.op, tree.op))
        return call(tree, state, args)

    def of_fixed(self, tree, _state, _args):
        return tree.parts[0]

    def of_param(self, tree, _state, args):
        return args[tree.parts[0]]

    def of_var(self, tree, state, _args):
        return state[tree.parts[0]]

    def of_cell(self, tree, state, args):
        table, parts = tree.parts
        at = [self.of(part, state, args) for part in parts]
        for value, of, part in zip(at, table.args, parts):
            self.member(value, of, part)
        return self.read(table, tuple(at))

    def of_sum(self, tree, state, args):
        table, parts, kinds = tree.parts
        given = [self.of(part, state, args) for part in parts]
        for value, of, part, is_set in zip(given, table.args, parts, kinds):
            if not is_set:
                self.member(value, of, part)
        total = 0
        cells = [()]
        for value, is_set in zip(given, kinds):
            cells = [(*at, k) for at in cells for k in (sorted(value) if is_set else [value])]
        for at in cells:
            total += self.read(table, at)
        return self.ranged(total, tree, "the sum")

    def of_size(self, tree, state, args):
        return len(self.of(tree.parts[0], state, args))

    def of_if(self, tree, state, args):
        test = self.of(tree.parts[0], state, args)
        return self.of(tree.parts[1 if test else 2], state, args)

    def of_arithmetic(self, tree, state, args):
        values = [self.of(tree.parts[0], state, args)]
        for part in tree.parts[1:]:
            values.append(self.of(part, state, args))
            values = [self.operation(tree, *values)]
        return values[0]

    def operation(self, tree, a, b):
        op = tree.op
        if op == "max":
            return max(a, b)
        if op == "min":
            return min(a, b)
        if op in "/%":
            if b == 0:
                raise Fault("ZeroDivisor", tree, f"{a} is divided by 0")
            whole = abs(a) // abs(b) * (1 if (a < 0) == (b < 0) else -1)
            return self.ranged(whole if op == "/" else a - whole * b, tree, f"{a} {op} {b}")
        return self.ranged(a + b if op == "+" else a - b if op == "-" else a * b, tree, f"{a} {op} {b}")

    def of_all_of(self, tree, state, args):
        """`and` and `or`: up to the first that decides."""
        stop = tree.op == "or"
        return next((stop for part in tree.parts if self.of(part, state, args) == stop), not stop)

    def of_not(self, tree, state, args):
        return not self.of(tree.parts[0], state, args)

    def of_compare(self, tree, state, args):
        a, b = (self.of(part, state, args) for part in tree.parts)
        return {"=": a == b, "!=": a != b}[tree.op] if tree.op in ("=", "!=") else {"<": a < b, "<=": a <= b, ">": a > b, ">=": a >= b}[tree.op]

    def of_is_in(self, tree, state, args):
        number, members = (self.of(part, state, args) for part in tree.parts)
        return self.member(number, tree.parts[1].of, tree.parts[0]) in members

    def of_is_subset(self, tree, state, args):
        a, b = (self.of(part, state, args) for part in tree.parts)
        return a <= b

    def of_is_empty(self, tree, state, args):
        return not self.of(tree.parts[0], state, args)

    def of_sets(self, tree, state, args):
        value = self.of(tree.parts[0], state, args)
        for part in tree.parts[1:]:
            other = self.of(part, state, args)
            value = {"union": value | other, "intersection": value & other, "difference": value - other}[tree.op]
        return value

    def of_complement(self, tree, state, args):
        inner = self.of(tree.parts[0], state, args)
        return frozenset(range(self.model.objects[tree.parts[0].of].count)) - inner

    def of_with(self, tree, state, args):
        number, members = (self.of(part, state, args) for part in tree.parts)
        self.member(number, tree.parts[1].of, tree.parts[0])
        return members | {number} if tree.op == "add" else members - {number}

    def of_all(self, tree, state, args):
        """A forall over one variable, up to the first member of which it is false."""
        (kind, of), body, _ = tree.parts
        over = range(self.model.objects[of].count) if kind == "object" else sorted(state[of])
        return all(self.of(body, state, (*args, k)) for k in over)

    def counterexample(self, tree, state, args):
        """Of a false forall the first members of which it is false, by name."""
        found = []
        while tree.op == "all":
            (kind, of), body, name = tree.parts
            over = range(self.model.objects[of].count) if kind == "object" else sorted(state[of])
            first = next((k for k in over if not self.of(body, state, (*args, k))), None)
            if first is None:
                break
            found.append(f"{name} = {member(ranges_over(self.model, (kind, of)), first)}")
            args, tree = (*args, first), body
        return found, tree, args


NAMES = {
    "max": "arithmetic", "min": "arithmetic", "+": "arithmetic", "-": "arithmetic", "*": "arithmetic", "/": "arithmetic",
    "%": "arithmetic", "and": "all_of", "or": "all_of", "=": "compare", "!=": "compare", "<": "compare", "<=": "compare",
    ">": "compare", ">=": "compare", "union": "sets", "intersection": "sets", "difference": "sets", "~": "complement",
    "add": "with", "remove": "with",
}


class Play:
    """Steps of a model in its states, in the order of evaluation, each fault with its spot."""

    def __init__(self, model):
        self.model, self.values = model, Values(model)
        self.forced = [step for step in model.steps if step.transition.forced]
        self.in_turn = self.forced + [step for step in model.steps if not step.transition.forced]

    def value(self, part, state, args, spot):
        try:
            return self.values.of(part.tree, state, args)
        except Fault as fault:
            raise fault.at(spot, part.node) from None

    def better(self, a, b):
        return a < b if self.model.minimize else a > b

    def join(self, a, b):
        if a is None or b is None:
            return b if a is None else a
        return {"+": a + b, "max": max(a, b), "min": min(a, b)}[self.model.operator]

    def word(self, cost):
        """The number by which a cost so far is compared: the lesser one is better. That of no cost is between or beyond them."""
        if cost is not None:
            return 2**63 + (cost if self.model.minimize else -cost)
        if self.model.operator == "+":
            return 2**63
        return 0 if self.model.minimize == (self.model.operator == "max") else 2**64 - 2

    def ranged(self, value, spot, node, why):
        if value is not None and abs(value) > LARGEST:
            raise Fault("Range", None, f"{why} is {value}").at(spot, node)
        return value

    def forbidding(self, state):
        """The first constraint that is false, with its place from 1; or None."""
        for k, c in enumerate(self.model.constraints, 1):
            if not self.value(c, state, (), f"constraint {k}"):
                return k, c
        return None

    def base_cost(self, state):
        """The best cost of the base cases that hold; None where none does."""
        best = None
        for k, b in enumerate(self.model.bases, 1):
            for j, c in enumerate(b.conditions, 1):
                if not self.value(c, state, (), f"base {k} condition {j}"):
                    break
            else:
                cost = self.value(b.cost, state, (), f"base {k} cost") if b.cost else 0
                if best is None or self.better(cost, best):
                    best = cost
        return best

    def bound(self, state):
        """The tightest dual bound; None where there is none."""
        found = [self.value(b, state, (), f"bound {b.number}") for b in self.model.bounds]
        return (max(found) if self.model.minimize else min(found)) if found else None

    def disabling(self, step, state):
        """Why a step is not enabled: ('parameter', name, variable, value), or ('precondition', place, part); else None."""
        for (name, (kind, of)), value in zip(step.transition.params, step.args):
            if kind == "members" and value not in state[of]:
                return "parameter", name, self.model.variables[of], value
        for k, c in enumerate(step.transition.preconditions, 1):
            if not self.value(c, state, step.args, f"{step.text} precondition {k}"):
                return "precondition", k, c
        return None

    def forced_before(self, step, state):
        """The first forced step that is tested before this one and is enabled; or None."""
        for other in self.forced:
            if step and step.transition.forced and other.number >= step.number:
                break
            if self.disabling(other, state) is None:
                return other
        return None

    def steps_from(self, state):
        """The steps that are considered and enabled. One with a fault in a precondition is not enabled; behind a forced one that is enabled,
        or that has a fault, none is considered."""
        for step in self.in_turn:
            try:
                enabled = self.disabling(step, state) is None
            except Fault:
                enabled = None
            if enabled:
                yield step
            if enabled is not False and step.transition.forced:
                return

    def after(self, step, state, cost):
        """The weight, the cost so far and the state after a step that is enabled."""
        t = step.transition
        weight = self.value(t.weight, state, step.args, f"{step.text} weight") if t.weight else None
        so_far = self.join(cost, weight)
        if weight is not None:
            self.ranged(so_far, f"{step.text} cost", t.cost, f"{cost} {self.model.operator} {weight}")
        following = list(state)
        for e in t.effects:
            spot = f"{step.text} effect {e.variable.name}"
            value = self.value(e, state, step.args, spot)
            if e.variable.kind == "element" and value < 0:
                raise Fault("Negative", e.tree, f"the element variable `{e.variable.name}` is to become {value}").at(spot, e.node)
            if e.variable.kind == "element" and value >= 2**32:
                raise Fault("Range", e.tree, f"the element variable `{e.variable.name}` is to become {value}").at(spot, e.node)
            following[e.variable.place] = value
        return weight, so_far, following


class Stop:
    """How a list ends: after so many steps, with this cost or reason, and in words why."""

    def __init__(self, done, state, cost=None, reason=None, why=None, part=None, args=(), fault=None):
        self.done, self.state, self.cost, self.reason, self.why = done, state, cost, reason, why
        self.part, self.args, self.fault = part, args, fault

    def verdict(self, steps):
        """The lines that `replay` prints."""
        if self.fault is not None:
            lines = [f"verdict fault {self.fault.kind} at {self.fault.spot} after {self.done}"]
            return lines + [step.text for step in steps[: self.done]]
        if self.reason is None:
            return [f"verdict legal {self.cost}"]
        return [f"verdict illegal {self.done} {self.reason}"]


def replayed(model, steps):
    """The states on the way, each with the weight that led to it and the cost so far; and how it ends."""
    play = Play(model)
    state, cost = model.target, None
    way = [(None, None, state)]
    for done in range(len(steps) + 1):
        step = steps[done] if done < len(steps) else None
        try:
            stop = ended(play, state, cost, step, done)
            if stop:
                return way, stop
            weight, cost, state = play.after(step, state, cost)
        except Fault as fault:
            return way, Stop(done, state, fault=fault)
        way.append((weight, cost, state))
    raise AssertionError("a list ends after its last step")


def ended(play, state, cost, step, done):
    """The stop in this state, or None where the step may be taken."""
    forbidding = play.forbidding(state)
    if forbidding:
        k, c = forbidding
        return Stop(done, state, reason="NotAllowed", why=f"constraint {k} is false", part=c)
    end = play.base_cost(state)
    if step is None:
        if end is None:
            return Stop(done, state, reason="NotBase", why="no step is left, and no base case holds")
        total = play.ranged(play.join(cost, end), "total", None, "the total")
        return Stop(done, state, cost=total)
    if end is not None:
        return Stop(done, state, reason="AfterBase", why="a base case holds, so the list ends here")
    other = play.forced_before(step, state)
    if other:
        return Stop(done, state, reason="Forced", why=f"the forced step `{other.shown}` is enabled, so it is the only one")
    why = play.disabling(step, state)
    if why is None:
        return None
    if why[0] == "parameter":
        _, name, variable, value = why
        return Stop(done, state, reason="NotEnabled", why=f"{member(play.model.objects[variable.of], value)} is no member of `{variable.name}`, over which `{name}` ranges")
    return Stop(done, state, reason="NotEnabled", why=f"precondition {why[1]} is false", part=why[2], args=step.args)
