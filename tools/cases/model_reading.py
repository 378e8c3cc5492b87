"""What a run over the texts of any model prints, by the reader of tools/reading and the search of model_search.py, which share no code
with the solver. A fault in a search is not told here."""

import sys
from pathlib import Path

sys.path.insert(0, str(Path(__file__).resolve().parent.parent))

from reading import model, values  # noqa: E402
from reading.places import Refused  # noqa: E402

from model_search import Search  # noqa: E402

JOINS = {"+": "plus", "max": "max", "min": "min"}


class Problem:
    """A model that was read, as model_search.py searches it."""

    def __init__(self, read):
        self.read, self.play = read, values.Play(read)
        self.maximize, self.operator, self.join = not read.minimize, read.operator, self.play.join
        signs = {"less": -1, "greater": 1}
        self.resources = {v.place: signs[v.preference] for v in read.variables if v.preference in signs}

    def start(self):
        return tuple(self.read.target)

    def is_allowed(self, state):
        return self.play.forbidding(state) is None

    def base_cost(self, state):
        return self.play.base_cost(state)

    def bounds(self, state):
        found = self.play.bound(state)
        return [] if found is None else [found]

    def steps(self, state):
        enabled = (step for step in self.read.steps if self.play.disabling(step, state) is None)
        forced = next((step for step in self.read.steps if step.transition.forced and self.play.disabling(step, state) is None), None)
        for step in [forced] if forced else enabled:
            weight, _, after = self.play.after(step, state, None)
            yield step.text, weight, tuple(after)


def cells_of(table, objects):
    cells = 1
    for arg in table.args:
        cells *= objects[arg].count
    return cells


def shown(read, keys):
    """What `show` prints of a model."""
    names = [keys[key].text if key in keys else "-" for keys, key in zip(keys, ("domain", "problem"))]
    of = [f" {read.objects[v.of].name}" if v.of is not None else "" for v in read.variables]
    grounds = [sum(step.transition is t for step in read.steps) for t in read.transitions]
    return "".join(
        f"{line}\n"
        for line in [
            f"domain {names[0]}",
            f"problem {names[1]}",
            f"reduce {'min' if read.minimize else 'max'} join {JOINS[read.operator]}",
            *(f"object {o.name} {o.count}" for o in read.objects),
            *(f"variable {v.name} {v.kind}{name} {v.preference}" for v, name in zip(read.variables, of)),
            *(f"table {t.name} {cells_of(t, read.objects)}" for t in read.tables),
            *(f"transition {t.name} {count}" for t, count in zip(read.transitions, grounds)),
            f"ground {len(read.steps)}",
            f"constraints {len(read.constraints)}",
            f"bases {len(read.bases)}",
            f"bounds {len(read.bounds)}",
        ]
    )


def run(words, domain, problem):
    """The output and the status of `solve d p` or `show d p` over two texts."""
    try:
        read = model.load(domain, problem)
    except Refused as refused:
        return f"{refused.line_printed()}\n", 3
    if words == "show d p":
        return shown(read, (read.d, read.p)), 0
    assert words == "solve d p"
    return Search(Problem(read)).run()
