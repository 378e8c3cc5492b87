"""Between which numbers an expression lies, whatever the state is; and whether 0 is a dual bound of a model for that reason."""


def between(m, tree):
    """The least and the greatest value of a number, each None where it has no end that is seen in the expression and the tables."""
    if tree.op == "fixed":
        return tree.parts[0], tree.parts[0]
    if tree.op == "param":
        return 0, None
    if tree.op == "var":
        return (None, None) if m.variables[tree.parts[0]].kind == "integer" else (0, None)
    if tree.op == "size":
        return 0, None
    if tree.op in ("cell", "sum"):
        low, high = of_table(m, tree.parts[0])
        return (low, high) if tree.op == "cell" else (0 if low >= 0 else None, 0 if high <= 0 else None)
    if tree.op == "if":
        return either(between(m, tree.parts[1]), between(m, tree.parts[2]))
    found = between(m, tree.parts[0])
    for part in tree.parts[1:]:
        found = OPERATIONS[tree.op](found, between(m, part))
    return found


def of_table(m, table):
    """The least and the greatest cell."""
    size = 1
    for arg in table.args:
        size *= m.objects[arg].count
    cells = list(table.cells.values())
    cells += [table.default] * (len(cells) < size or not cells)
    return min(cells), max(cells)


def either(a, b):
    return least(a[0], b[0]), greatest(a[1], b[1])


def least(a, b):
    return None if a is None or b is None else min(a, b)


def greatest(a, b):
    return None if a is None or b is None else max(a, b)


def plus(a, b):
    return tuple(None if x is None or y is None else x + y for x, y in zip(a, b))


def minus(a, b):
    return plus(a, (None if b[1] is None else -b[1], None if b[0] is None else -b[0]))


def times(a, b):
    if None not in (*a, *b):
        found = [x * y for x in a for y in b]
        return min(found), max(found)
    return by_signs(a, b)


def by_signs(a, b):
    """The sign of a product or a quotient."""
    signs = [1 if low is not None and low >= 0 else -1 if high is not None and high <= 0 else 0 for low, high in (a, b)]
    return (0, None) if signs[0] * signs[1] > 0 else (None, 0) if signs[0] * signs[1] < 0 else (None, None)


def rest(a, _):
    return 0 if a[0] is not None and a[0] >= 0 else None, 0 if a[1] is not None and a[1] <= 0 else None


def the_greater(a, b):
    return max((x for x in (a[0], b[0]) if x is not None), default=None), greatest(a[1], b[1])


def the_lesser(a, b):
    return least(a[0], b[0]), min((x for x in (a[1], b[1]) if x is not None), default=None)


OPERATIONS = {"+": plus, "-": minus, "*": times, "/": by_signs, "%": rest, "max": the_greater, "min": the_lesser}


def is_zero_a_bound(m):
    """Whether no step and no end makes a plan better, so that 0 is an honest dual bound; as far as the expressions show it."""
    costs = [t.weight for t in m.transitions if t.weight] + [b.cost for b in m.bases if b.cost]
    found = [between(m, cost.tree) for cost in costs]
    return all(low is not None and low >= 0 for low, _ in found) if m.minimize else all(high is not None and high <= 0 for _, high in found)
