"""Which dual bounds and preferences of the models of models/ the solver's checker proves, as lines of `solve --prune proved`. What is proved is the checker's own
affair, as long as it is true; these runs fix it, so that a change of it is seen. Behind the lines stands what a search of one visit prints, the same
whatever is proved."""

import re
from pathlib import Path

from small_runs import told, words

# Of each folder: how many of its dual bounds are proved, which stand in front; how many there are; and how many nodes the one visit drops.
BOUNDS = {
    "assembly_line": (2, 2, 0), "bin_packing": (1, 1, 0), "deliveries": (1, 1, 3), "electric_van": (1, 1, 6), "graph_clearing": (6, 6, 5), "grid": (0, 0, 1),
    "job_shop": (0, 12, 2), "knapsack": (1, 1, 1), "language": (1, 1, 2), "lot_sizing": (1, 1, 9), "matrix_chain": (1, 1, 6), "multi_knapsack": (4, 4, 1),
    "open_stacks": (1, 1, 7), "pickup_delivery": (1, 1, 3), "round_tour": (2, 2, 5), "setup_times": (1, 1, 5), "talent": (1, 1, 5), "tardiness": (1, 1, 6),
    "u_line": (2, 2, 0), "vehicle_routing": (1, 1, 6),
}

# The folders of which all preferences are proved; of the others none is.
PREFERENCES = ("deliveries", "electric_van", "grid", "knapsack", "multi_knapsack", "setup_times", "vehicle_routing")


def preferred(domain):
    """The names of the variables of a domain's text that have a preference, in order."""
    return re.findall(r"^ *- \{ name: (\w+),[^}]*preference: \w+", domain, flags=re.M)


def parts(name, domain, proved, bounds):
    lines = [f"bound {number} {'proved' if number <= proved else 'open'}" for number in range(1, bounds + 1)]
    return [*lines, *(f"preference {variable} {'proved' if name in PREFERENCES else 'open'}" for variable in preferred(domain))]


def runs():
    for name, (proved, bounds, dropped) in BOUNDS.items():
        domain, problem = (Path("models", name, file).read_text(encoding="utf-8") for file in ("domain.yaml", "problem.yaml"))
        out = told(*parts(name, domain, proved, bounds), f"pass 1 share 1 visited 1 dropped {dropped}", "verdict stopped 1")
        yield f"proved: parts of {name}", [("domain", domain), ("problem", problem)], [(words("solve d p --prune proved --budget 1"), out, 11)]


RUNS = [*runs()]
