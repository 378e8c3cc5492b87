"""The text of walks: their prizes, their table, and the expression of both."""

from . import potentials, values, walks
from .symbols import Unknown


def written(best, added):
    """Puts the tables and the expression of walks into what is added."""
    arcs, shape = best.arcs, best.arcs.shape
    m, sign, np = shape.m, shape.sign, arcs.np
    variable = m.variables[shape.set]
    elements = [m.variables[p] for p in shape.modes.elements]
    if any(k >= m.objects[v.of].count for mode in arcs.modes for k, v in zip(mode, elements)):
        raise Unknown("an element has a value beyond the members of its object type")
    none = endless(best)
    prizes = added.table(f"prize_{variable.name}", [m.objects[variable.of].name], {(k,): sign * int(x) for k, x in enumerate(best.prizes)})
    args, at = [], []
    if arcs.size < m.objects[variable.of].count:
        args.append(m.objects[variable.of].name)
    else:
        args.append(added.object("left", arcs.size + 1))
    left = f"(~ {variable.name})" if shape.fills else variable.name
    at.append(f"|{left}|")
    args += [m.objects[v.of].name for v in elements]
    at += [v.name for v in elements]
    if arcs.slots > 1:
        args.append(added.object("slot", arcs.slots))
        name = clock_of(shape, added)
        falls = shape.integer is not None and shape.turn(shape.integer) < 0
        since = f"(- {-arcs.first} {name})" if falls else name if not arcs.first else f"(- {name} {arcs.first})"
        at.append(f"(min {since if arcs.width == 1 else f'(/ {since} {arcs.width})'} {arcs.slots - 1})")
    cells = {}
    for size, mode, slot in zip(*(axis.tolist() for axis in np.nonzero(best.value < walks.ENDLESS // 2))):
        key = (size, *arcs.modes[mode], *([slot] if arcs.slots > 1 else []))
        cells[key] = sign * int(best.value[size, mode, slot])
    walk = added.table("walk", args, cells, sign * none)
    added.behind.append(f"(+ (sum {prizes} {left}) ({walk} {' '.join(at)}))")


def clock_of(shape, added):
    """The expression of what has slots."""
    if shape.clock_of_set is None:
        return shape.m.variables[shape.integer].name
    v = shape.m.variables[shape.set]
    pace = added.table("pace", [shape.m.objects[v.of].name], {(k,): n for k, n in enumerate(shape.clock_of_set.numbers)})
    return shape.clock_of_set.text(pace, v.name, shape.fills)


def endless(best):
    """What a state costs from which no walk leads to an end: more than any plan of the model."""
    arcs = best.arcs
    most = int(abs(arcs.weights).max()) * (arcs.size + 2) * 4 + 4 * int(abs(best.prizes).sum()) + 1000
    return 10 ** len(str(most))


def own_where_it_says_more(best):
    """What the model's own bounds say at the target, None where there are none; refused where the walks say no more in any state that is drawn."""
    shape, play = best.arcs.shape, values.Play(best.arcs.shape.m)
    known = set(best.arcs.modes)
    for state in [play.model.target, *(state for state, _ in potentials.drawn_states(play.model, 1))]:
        if shape.modes.mode_of(state) not in known or len(shape.left_in(state)) > best.arcs.size:
            continue
        own = potentials.own_bound(play, state)
        if own is None or play.better(own, shape.sign * best.bound(state)):
            return potentials.own_bound(play, play.model.target)
    raise Unknown("it would say no more than the model's own bounds")
