"""The kinds of bounds that tools/bounds makes: each puts its tables and bounds into what is added, and tells what was made. What makes one kind alone is
imported where that kind is made, since reading it takes longer than making a small bound."""

from . import derive_words, linear, modes, potentials
from .symbols import Unknown

KINDS = ("walks", "tolls", "knapsacks", "packings")


def wanted(kind):
    """The module that a kind is made by, and what is told where it is not there; or nothing."""
    if kind == "walks":
        return "numpy", "tables of walks are made by NumPy, which is not there: Debian's package `python3-numpy` has it"
    return ("scipy.optimize", linear.WANTED) if kind == "tolls" else (None, None)


def made(m, given, limit, added):
    """How many bounds were made, and of what; what the model's own say at the target, and what these do."""
    limit.tell("the states of the model are put into modes")
    found = modes.Modes(m, limit)
    if given.KIND == "walks":
        return of_walks(m, found, given, limit, added)
    if given.KIND == "packings":
        return of_packings(m, found, given, limit, added)
    by_mode = given.KIND == "tolls"
    inequalities = potentials.Inequalities(found, limit, by_mode, given.near)
    program = potentials.Program(inequalities, linear.solved, limit) if by_mode else prices_of(inequalities, limit)
    return derive_words.potentials_of(m, inequalities, program, limit, given.most or (1 if by_mode else 3), added)


def prices_of(inequalities, limit):
    from . import lagrange

    return lagrange.Lagrange(inequalities, limit)


def shape_of(found, given, limit):
    from . import walks

    shape = walks.Shape(found, (given.set, None if given.integer == "-" else given.integer), limit)
    if given.integer == "-":
        shape.integer = shape.clock_of_set = None
    return shape


def of_walks(m, found, given, limit, added):
    import numpy

    from . import walk_text, walks

    shape = shape_of(found, given, limit)
    arcs = walks.Arcs(shape, numpy, given.slots)
    best = walks.best_walks(arcs, given.rounds, limit.clock, limit.tell)
    own = walk_text.own_where_it_says_more(best)
    walk_text.written(best, added)
    slots = f" and {arcs.slots} slots of {shape.name_of()}" if shape.has_slots() else ""
    return 1, f"walks over {len(arcs.modes)} modes{slots}", own, shape.sign * best.bound(m.target)


def of_packings(m, found, given, limit, added):
    from . import packings

    packing = packings.Packing(shape_of(found, given, limit))
    limit.tell("weights of members and credits of rooms are tried")
    best = packings.Best(packing, limit)
    own = best.best[0]
    taken = best.take(given.most or 3)
    if not taken:
        raise Unknown("no function of sizes says more than the model's own bounds")
    added.behind += [weighing.text(added) for weighing in taken]
    return len(taken), f"bins of {packing.room}", own, best.best[0]
