"""Writes a model as the two texts of YAML-DyPDL, and remembers which part of it each line comes from."""

from __future__ import annotations

import math
import re
from typing import Any, Dict, Iterable, List, Optional, Sequence, Tuple

from .errors import LeftOut, ModelError
from .exact import LARGEST, shown
from .folding import Folding
from .instances import Instance, Instances
from .lowering import Lowering
from .model import Model
from .names import CONTROL, Steps, Words, quoted
from .transitions import BaseCase, Transition
from .trees import MOST_OPERANDS, SET, Tree, walk
from .variables import Parameter

MOST_BYTES = 16777216
MOST_FORMS = 200
MOST_CONDITIONS = 256
MOST_PARAMETERS = 4
HEADS = {"quotient": "/", "rest": "%", "complement": "~"}


class Text:
    """Lines, each with the part of the model that it says."""

    def __init__(self) -> None:
        self.lines: List[str] = []
        self.owners: List[Any] = []

    def add(self, line: str, owner: Any = None) -> None:
        self.lines.append(line)
        self.owners.append(owner)

    def __str__(self) -> str:
        return "\n".join(self.lines) + "\n"


class Written:
    """A model as it was written: two texts, whose line each part is, and what each name in the output stands for.

    `spots` gives the tree that the program means by a spot such as `bound 2` or `visit 3 precondition 1`, where that was written; `names` the
    names of variables as they stand in the text; `told` how often what was written out, in words.
    """

    def __init__(self, model: Model) -> None:
        self.model = model
        self.domain_text, self.problem_text = Text(), Text()
        self.steps: Dict[str, Transition] = {}
        self.with_parameters: Dict[str, Transition] = {}
        self.spots: Dict[str, Any] = {}
        self.names: Dict[Any, str] = {}
        self.told: Dict[str, int] = {}

    @property
    def domain(self) -> str:
        return str(self.domain_text)

    @property
    def problem(self) -> str:
        return str(self.problem_text)

    def step(self, text: str) -> Transition:
        """The step that a line of the output names. Raises KeyError where it names none."""
        found = self.steps.get(text)
        if found is not None:
            return found
        words = text.split(" ")
        for count in range(1, min(MOST_PARAMETERS, len(words) - 1) + 1):
            transition = self.with_parameters.get(" ".join(words[:-count]))
            if transition is not None and len(transition.parameters) == count and all(re.fullmatch("[0-9]+", w) for w in words[-count:]):
                return transition.bound_to([int(w) for w in words[-count:]])
        raise KeyError(text)

    def owner(self, file: str, line: int) -> Any:
        """The part of the model that a line of a file says; None where it says none."""
        owners = (self.domain_text if file == "domain" else self.problem_text).owners
        return owners[line - 1] if 0 < line <= len(owners) else None

    def line(self, file: str, line: int) -> str:
        lines = (self.domain_text if file == "domain" else self.problem_text).lines
        return lines[line - 1].strip() if 0 < line <= len(lines) else ""

    def spot(self, text: str) -> Any:
        """What the program means by a spot. That of a step may name its parameters."""
        if text in self.spots:
            return self.spots[text]
        found = re.match(r"(.*) (precondition \d+|weight|cost|effect .*)\Z", text)
        if not found:
            return None
        step = found.group(1)
        while step and f"{step} {found.group(2)}" not in self.spots and re.search(r" \d+\Z", step):
            step = step[: step.rindex(" ")]
        return self.spots.get(f"{step} {found.group(2)}")


def written(model: Model, faithful: bool = False) -> Written:
    """The texts of a model. Raises ModelError or LeftOut, with the place, where something cannot be said.

    faithful: whether conditions stay one by one as they are, where they can; else families of them are folded into one.
    """
    try:
        return Writer(model, faithful).write()
    except RecursionError:
        raise ModelError("an expression has too many forms in one another: the program reads at most 200") from None


class Conditions:
    """Conditions as they are written: each its tree, the parameters of a forall, and the tree that it was made from."""

    def __init__(self, tree: Tree, parameters: List[Parameter], source: Tree) -> None:
        self.tree, self.parameters, self.source = tree, parameters, source


class Writer:
    def __init__(self, model: Model, faithful: bool = False) -> None:
        self.model, self.out, self.faithful = model, Written(model), faithful
        self.instances = Instances(model)
        self.lowering, self.folding = Lowering(model, self.instances), Folding(model)
        self.words, self.step_names = Words(), Steps()
        self.known = set(model.variables)

    # ---- what is written, in trees

    def write(self) -> Written:
        if not self.model.base_cases:
            raise ModelError("the model has no base case, so no plan could end")
        if not self.model.variables:
            raise ModelError("the model has no variable")
        steps = [(step, forced, self.preconditions(step), self.effects(step), self.cost(step)) for step, forced in self.model.steps]
        self.test_one_operator(steps)
        constraints = self.conditions(self.model.constraints, (), None)
        bases = [(base, self.conditions(base.conditions, (), base.place), self.base_cost(base)) for base in self.model.base_cases]
        bounds = [(tree, self.checked(tree, (), self.lowering.bound)) for tree in self.model.bounds]
        self.instances.closed()
        self.name_all()
        self.domain_head()
        self.transitions(steps)
        self.constraint_lines(constraints)
        self.base_lines(bases)
        self.bound_lines(bounds)
        self.problem_lines()
        for text in (self.out.domain_text, self.out.problem_text):
            if sum(len(line.encode("utf-8")) + 1 for line in text.lines) > MOST_BYTES:
                raise ModelError(f"the model has more than {MOST_BYTES} bytes as a text")
        self.out.names, self.out.told = dict(self.words.names), dict(self.lowering.told)
        return self.out

    def checked(self, tree: Tree, parameters: Iterable[Parameter], call: Any, place: Any = None) -> Any:
        """What a tree becomes, once all that it names is of this model and in force. `place` is that of an error which has none: a bare variable
        has the place where it was declared."""
        known = place if tree.op in ("variable", "parameter", "function") and place is not None else tree.place or place
        self.test_names(tree, set(parameters), known)
        try:
            return call(tree)
        except ModelError as error:
            if error.place is None or error.place is tree.place:
                raise type(error)(error.why, known) from None
            raise

    def test_names(self, tree: Tree, in_force: "set[Any]", place: Any) -> None:
        in_force = in_force | {part.parts[0] for part in walk(tree) if part.op == "forall"}
        for part in walk(tree):
            if part.op == "variable" and part.parts[0] not in self.known:
                raise ModelError(f"the variable `{part.parts[0]}` is of another model", place)
            if part.op == "parameter" and part.parts[0] not in in_force:
                raise ModelError(f"the parameter `{part.parts[0]}` is none of this transition: parameters=[..]", place)
            if part.op == "function":
                self.test_names(part.parts[0].tree, set(), part.parts[0].place)

    def conditions(self, trees: Sequence[Tree], parameters: Iterable[Parameter], place: Any) -> List[Conditions]:
        found: List[Conditions] = []
        sources = list(trees) if self.faithful else self.folding.folded(list(parts_of_and(trees)))
        for source in sources:
            quantified, tree = [], source
            while tree.op == "forall":
                quantified.append(tree.parts[0])
                tree = tree.parts[1]
            if len(quantified) > MOST_PARAMETERS:
                raise LeftOut(f"a forall over more than {MOST_PARAMETERS} parameters", source.place)
            lowered = self.checked(tree, [*parameters, *quantified], self.lowering.condition, place)
            if self.faithful or not (lowered.op == "truth" and lowered.parts[0]):
                found.append(Conditions(lowered, quantified, source))
        return joined_beyond(found)

    def preconditions(self, step: Transition) -> List[Conditions]:
        return self.conditions(step.precondition_trees, step.parameters, step.place)

    def effects(self, step: Transition) -> List[Tuple[Any, Tree, Tree]]:
        for variable, tree in step.effects:
            if variable not in self.known:
                raise ModelError(f"the variable `{variable}` is of another model", step.place)
        return [(variable, self.checked(tree, step.parameters, lambda t, v=variable: self.lowering.value(v, t), step.place), tree) for variable, tree in step.effects]

    def cost(self, step: Transition) -> Tuple[Optional[str], Optional[Tree], Tree]:
        tree = step.cost.tree if hasattr(step.cost, "tree") else None
        if tree is None:
            raise LeftOut(f"the cost of `{step.name}` is {shown(step.cost)}, without state_cost(): write {shown(step.cost)} + dp.IntExpr.state_cost()", step.place)
        op, weight = self.checked(tree, step.parameters, self.lowering.cost, step.place)
        return op, weight, tree

    def test_one_operator(self, steps: Sequence[Any]) -> None:
        first: Any = None
        for step, _, _, _, (op, _, tree) in steps:
            if op is not None and first is None:
                first = (op, step)
            elif op is not None and op != first[0]:
                raise LeftOut(f"the cost of `{step.name}` is joined by `{op}`, and that of `{first[1].name}` by `{first[0]}`: all steps of a model use one", tree.place)

    def base_cost(self, base: BaseCase) -> Optional[Tree]:
        if base.cost is None:
            return None
        call = (lambda t: self.lowering.stored(t, "the cost of a base case")) if self.model.float_cost else self.lowering.whole
        return self.checked(base.cost, (), call, base.place)

    # ---- names

    def name_all(self) -> None:
        for of in [*self.model.object_types, *self.instances.made_types.values()]:
            self.words.name(of, of.name, "objects")
        for variable in self.model.variables:
            self.words.name(variable, variable.name, "variable")
        for instance in self.instances.all:
            instance.name = self.words.name(instance, instance.table.name, "table")

    def parameter_names(self, parameters: Sequence[Parameter], inside: Dict[Parameter, str]) -> Dict[Parameter, str]:
        """Names for parameters, which none of the others in force has, and nothing else of the model."""
        space = Words()
        space.taken = self.words.taken | set(inside.values())
        return {**inside, **{p: space.name(p, p.name, "parameter") for p in parameters}}

    # ---- lines

    def text(self, tree: Tree, names: Dict[Parameter, str], place: Any = None) -> str:
        found = form(tree, self.words.names, names, 1, place or tree.place)
        return f"'{found}'" if found[0] == "|" else found

    def domain_head(self) -> None:
        add, names = self.out.domain_text.add, self.words.names
        add(f"domain: {quoted(plain(self.model.name))}")
        add("cost_type: integer")
        add(f"reduce: {'max' if self.model.maximize else 'min'}")
        types = [*self.model.object_types, *self.instances.made_types.values()]
        if types:
            add("objects:")
        for of in types:
            add(f"  - {names[of]}", of)
        add("state_variables:")
        for v in self.model.variables:
            kind = "integer" if v.kind == "continuous" else v.kind
            of = f", object: {names[v.object_type]}" if kind in ("element", "set") else ""
            preference = "" if v.less_is_better is None else f", preference: {'less' if v.less_is_better else 'greater'}"
            add(f"  - {{ name: {names[v]}, type: {kind}{of}{preference} }}", v)
        if self.instances.all:
            add("tables:")
        for instance in self.instances.all:
            add(f"  - {{ {', '.join(self.table_keys(instance))} }}", instance.table)

    def table_keys(self, instance: Instance) -> List[str]:
        table, names = instance.table, self.words.names
        kind = {"set": "set", "condition": "bool"}.get(table.kind, "element" if table.element else "integer")
        keys = [f"name: {instance.name}", f"type: {kind}"]
        if instance.types:
            keys.append(f"args: [ {', '.join(names[of] for of in instance.types)} ]")
        if table.kind == SET:
            keys.append(f"object: {names[table.of]}")
        if table.default:
            keys.append(f"default: {self.cell(table, table.default)}")
        return keys

    def condition_lines(self, conditions: Sequence[Conditions], indent: str, names: Dict[Parameter, str], spot: str) -> None:
        for number, one in enumerate(conditions, 1):
            inner = self.parameter_names(one.parameters, names)
            text = self.text(one.tree, inner, one.source.place)
            self.out.spots[f"{spot} {number}"] = one.source
            if not one.parameters:
                self.out.domain_text.add(f"{indent}- {text}", one.source)
                continue
            self.out.domain_text.add(f"{indent}- condition: {text}", one.source)
            over = ", ".join(f"{{ name: {inner[p]}, object: {self.words.names[p.over]} }}" for p in one.parameters)
            self.out.domain_text.add(f"{indent}  forall: [ {over} ]", one.source)

    def transitions(self, steps: Sequence[Any]) -> None:
        if steps:
            self.out.domain_text.add("transitions:")
        for step, *_ in steps:
            self.test_parameters(step)
        for step, forced, conditions, effects, cost in steps:
            self.transition(step, forced, conditions, effects, cost)

    def test_parameters(self, step: Transition) -> None:
        if len(step.parameters) > MOST_PARAMETERS or len(set(step.parameters)) < len(step.parameters):
            raise LeftOut(f"`{step.name}` has more than {MOST_PARAMETERS} parameters, or one of them twice", step.place)
        for parameter in step.parameters:
            if parameter.over not in self.words.names:
                raise ModelError(f"the parameter `{parameter}` of `{step.name}` ranges over what is none of this model", step.place)

    def transition(self, step: Transition, forced: bool, conditions: Any, effects: Any, cost: Any) -> None:
        add, name = self.out.domain_text.add, self.step_names.name(step.name)
        names = self.parameter_names(step.parameters, {})
        add(f"  - name: {quoted(name)}", step)
        if step.parameters:
            self.out.with_parameters[name] = step
            add("    parameters: [ " + ", ".join(f"{{ name: {names[p]}, object: {self.words.names[p.over]} }}" for p in step.parameters) + " ]", step)
        else:
            self.out.steps[name] = step
        if forced:
            add("    forced: true", step)
        if conditions:
            add("    preconditions:", step)
        self.condition_lines(conditions, "      ", names, f"{name} precondition")
        if effects:
            add("    effects:", step)
        for variable, tree, source in effects:
            self.out.spots[f"{name} effect {self.words.names[variable]}"] = source
            add(f"      {self.words.names[variable]}: {self.text(tree, names, source.place)}", source)
        op, weight, source = cost
        self.out.spots[f"{name} weight"] = self.out.spots[f"{name} cost"] = source
        add("    cost: cost" if weight is None else f"    cost: ({op} cost {self.text(weight, names, source.place).strip(chr(39))})", source)

    def constraint_lines(self, constraints: Sequence[Conditions]) -> None:
        if constraints:
            self.out.domain_text.add("constraints:")
        self.condition_lines(constraints, "  ", {}, "constraint")

    def base_lines(self, bases: Sequence[Any]) -> None:
        add = self.out.domain_text.add
        add("base_cases:")
        for number, (base, conditions, cost) in enumerate(bases, 1):
            add("  - conditions:" if conditions else "  - conditions: [ ]", base)
            self.condition_lines(conditions, "      ", {}, f"base {number} condition")
            if cost is not None:
                self.out.spots[f"base {number} cost"] = base.cost
                add(f"    cost: {self.text(cost, {}, base.cost.place)}", base.cost)

    def bound_lines(self, bounds: Sequence[Tuple[Tree, Tree]]) -> None:
        if bounds:
            self.out.domain_text.add("dual_bounds:")
        for number, (source, tree) in enumerate(bounds, 1):
            self.out.spots[f"bound {number}"] = source
            self.out.domain_text.add(f"  - {self.text(tree, {}, source.place)}", source)

    # ---- the problem

    def problem_lines(self) -> None:
        add, names = self.out.problem_text.add, self.words.names
        add(f"domain: {quoted(plain(self.model.name))}")
        add(f"problem: {quoted(plain(self.model.problem_name))}")
        types = [*self.model.object_types, *self.instances.made_types.values()]
        if types:
            add("object_numbers:")
        for of in types:
            add(f"  {names[of]}: {of.number}", of)
        add("target:")
        for v in self.model.variables:
            add(f"  {names[v]}: {self.target(v)}", v)
        tables = [instance for instance in self.instances.all if instance.table.given]
        if tables:
            add("table_values:")
        for instance in tables:
            add(f"  {instance.name}: {self.cells(instance)}", instance.table)

    def target(self, variable: Any) -> str:
        if variable.kind == "set":
            beyond = [k for k in variable.target if k >= variable.object_type.number]
            if beyond:
                raise ModelError(f"the target of `{variable}` has {max(beyond)}, and `{variable.object_type}` has {variable.object_type.number} members", variable.place)
            return members(variable.target)
        if variable.kind == "continuous":
            return str(self.lowering.held(variable.target, f"the target of `{variable}`", variable.place))
        return str(variable.target)

    def cell(self, table: Any, value: Any) -> str:
        if table.kind == SET:
            return members(value)
        if isinstance(value, bool):
            return "true" if value else "false"
        if table.continuous:
            return str(self.lowering.held(value, f"a cell of `{table}`", table.place))
        if abs(value) > LARGEST:
            raise ModelError(f"a cell of `{table}` is beyond 2^62 - 1", table.place)
        return str(value)

    def cells(self, instance: Instance) -> str:
        """The cells of a table: one value, lists, or a map where the table was a dict."""
        table = instance.table
        if not instance.types:
            return self.cell(table, table.given[()])
        counts = [of.number for of in instance.types]  # type: ignore[union-attr]
        if table.is_dict and len(table.given) < math.prod(counts):
            inside = {at: value for at, value in table.given.items() if all(k < n for k, n in zip(at, counts))}
            keys = (f"{at[0]}" if len(at) == 1 else f"[{', '.join(map(str, at))}]" for at in inside)
            return "{ " + ", ".join(f"{key}: {self.cell(table, value)}" for key, value in zip(keys, inside.values())) + " }"
        return self.rows(table, counts if table.is_dict else [min(a, b) for a, b in zip(table.shape, counts)], ())

    def rows(self, table: Any, shape: List[int], at: Tuple[int, ...]) -> str:
        if len(at) == len(shape):
            return self.cell(table, table.given[at])
        return "[ " + ", ".join(self.rows(table, shape, (*at, k)) for k in range(shape[len(at)])) + " ]"


# ---- expressions as texts

def form(tree: Tree, names: Dict[Any, str], parameters: Dict[Parameter, str], depth: int, place: Any) -> str:
    """An expression in prefix form."""
    op = tree.op
    if op == "number":
        if abs(tree.parts[0]) > LARGEST:
            raise ModelError(f"the number {shown(tree.parts[0])} is beyond 2^62 - 1", place)
        return str(tree.parts[0])
    if op == "truth":
        return "true" if tree.parts[0] else "false"
    if op == "variable":
        return names[tree.parts[0]]
    if op == "parameter":
        return parameters[tree.parts[0]]
    if depth > MOST_FORMS:
        raise ModelError(f"an expression has more than {MOST_FORMS} forms in one another", place)
    if op in ("cell", "sum"):
        head = f"sum {names[tree.parts[0]]}" if op == "sum" else names[tree.parts[0]]
        if len(tree.parts) == 1:
            return head
        return f"({head} {' '.join(form(part, names, parameters, depth + 1, place) for part in tree.parts[1:])})"
    if op == "size":
        return f"|{form(tree.parts[0], names, parameters, depth + 1, place)}|"
    parts = balanced(tree)
    return f"({HEADS.get(op, op)} {' '.join(form(part, names, parameters, depth + 1, place) for part in parts)})"


def balanced(tree: Tree) -> Sequence[Any]:
    """The operands, in groups where they are very many."""
    if len(tree.parts) <= MOST_OPERANDS:
        return tree.parts
    step = max(MOST_OPERANDS, -(-len(tree.parts) // MOST_OPERANDS))
    groups = [tree.parts[k : k + step] for k in range(0, len(tree.parts), step)]
    return [group[0] if len(group) == 1 else tree.with_parts(group) for group in groups]


def members(found: Iterable[int]) -> str:
    return f"[ {', '.join(map(str, sorted(found)))} ]" if found else "[ ]"


def plain(name: str) -> str:
    """A name on one line."""
    return CONTROL.sub(" ", name.encode("utf-8", "replace").decode("utf-8")).strip() or "model"


def parts_of_and(trees: Iterable[Tree]) -> Iterable[Tree]:
    """Conditions of which all must hold, each by itself."""
    for tree in trees:
        if tree.op == "and":
            yield from parts_of_and(tree.parts)
        else:
            yield tree


def joined_beyond(conditions: List[Conditions]) -> List[Conditions]:
    """At most as many conditions as may stand in a list: those beyond are joined by `and`."""
    while len(conditions) > MOST_CONDITIONS:
        k = next((k for k in range(MOST_CONDITIONS - 1, len(conditions) - 1) if not conditions[k].parameters and not conditions[k + 1].parameters), None)
        if k is None:
            break
        end = k
        while end < len(conditions) and not conditions[end].parameters:
            end += 1
        tree = Tree("and", tuple(one.tree for one in conditions[k:end]), conditions[k].tree.kind)
        conditions = [*conditions[:k], Conditions(tree, [], conditions[k].source), *conditions[end:]]
    return conditions

