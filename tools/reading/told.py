"""Expressions with the values of their parts, and changes of a state, in words."""

from .values import Fault, Values, member, ranges_over, shown, shown_of

MOST_PARTS = 8


def changes(m, before, after):
    """What changed of a state, for each variable: None where nothing did."""
    found = []
    for v, old, new in zip(m.variables, before, after):
        if old == new:
            found.append(None)
        elif v.kind == "set" and len(old ^ new) < len(new):
            found.append(" ".join([f"-{member(m.objects[v.of], k)}" for k in sorted(old - new)] + [f"+{member(m.objects[v.of], k)}" for k in sorted(new - old)]))
        else:
            found.append(shown_of(m, v, new))
    return found


def values_in(m, tree, state, args, raw, types):
    """The parts of an expression with their values, the whole first. `types` are the object types over which names in it range."""
    values, found = Values(m), {}

    def look(part):
        if part.op in ("fixed", "all"):
            return
        text = " ".join(raw[part.form.offset : part.form.end].decode("utf-8", "replace").split())
        if text not in found:
            try:
                found[text] = shown_part(m, part, values.of(part, state, args), types)
            except Fault as fault:
                found[text] = f"no value ({fault.kind})"
        for inner in operands(part):
            look(inner)

    for inner in operands(tree):
        look(inner)
    return list(found.items())[:MOST_PARTS]


def shown_part(m, part, value, types):
    """The value of a part of an expression: of a variable or a parameter with the names of members."""
    if part.op == "var":
        return shown_of(m, m.variables[part.parts[0]], value)
    if part.op == "param" and part.parts[1] in types:
        return member(types[part.parts[1]], value)
    return shown(value)


def operands(tree):
    if tree.op in ("fixed", "param", "var"):
        return []
    if tree.op in ("cell", "sum"):
        return tree.parts[1]
    if tree.op == "all":
        return [tree.parts[1]]
    return tree.parts


def why_false(m, part, state, args, params=()):
    """In words why a condition is false: of a forall for which members, and the values of its parts. `params` are the parameters that it names."""
    tree, out = part.tree, []
    types = {name: ranges_over(m, over) for name, over in params}
    inner = tree
    while inner.op == "all":
        types[inner.parts[2]] = ranges_over(m, inner.parts[0])
        inner = inner.parts[1]
    if tree.op == "all":
        members, tree, args = Values(m).counterexample(tree, state, args)
        if members:
            out.append("it is false for " + ", ".join(members))
    out += [f"{text} = {value}" for text, value in values_in(m, tree, state, args, part.node.raw, types)]
    return out
