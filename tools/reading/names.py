"""Names of members: a file beside the problem that gives each object type a list of names, the one at the front for member 0. The solver does not
read it; the tools show `visit Berlin` in place of `visit 17`, and read such a step too.

The file is `PROBLEM.names.yaml` for `PROBLEM.yaml`, or `names.yaml` for all problems of its folder, or what is given by --names."""

import os

from . import shell, values, yaml_text
from .expressions import CONTROL, listed, near
from .places import Refused

MOST_BYTES_OF_NAME, MOST_BYTES = 200, 2000000
BESIDE = "names.yaml"


class Wrong(shell.Stop):
    """A file of names that is refused, with its place."""

    def __init__(self, path, node, why):
        super().__init__(f"{path}:{node.line}:{node.column}: {why}")


def beside(problem):
    """The file of names of a problem; None where there is none."""
    if problem == "-":
        return None
    stem = problem.removesuffix(".yaml").removesuffix(".yml")
    folder = os.path.dirname(problem)
    return next((path for path in (f"{stem}.names.yaml", os.path.join(folder, BESIDE)) if os.path.isfile(path) and not same(path, problem)), None)


def same(path, other):
    return os.path.realpath(path) == os.path.realpath(other)


def read(path, m):
    """The names in a file, as a list for each object type that it has."""
    data = shell.bytes_of(path)
    if len(data) > MOST_BYTES:
        raise shell.Stop(f"{path}: a file of names has at most {MOST_BYTES} bytes")
    try:
        tree = yaml_text.read(data)
    except Refused as refused:
        raise Wrong(path, refused, f"this is no YAML that is read here: {refused.number} {refused.title()}" + (f", {refused.why}" if refused.why else "")) from None
    if tree.kind != "map":
        raise Wrong(path, tree, "a map is wanted here, from object types to lists of names, as `place: [ depot, Berlin ]`")
    return {object_of(path, m, key): names_in(path, m, key, value) for key, value in tree.pairs}


def object_of(path, m, key):
    name = key.text if key.kind == "scalar" else None
    known = [o.name for o in m.objects]
    if name not in known:
        shown = f"`{name}`" if name is not None else "a list"
        raise Wrong(path, key, f"{shown} is no object type{near(name or '', known)} The object types are: {listed(known)}")
    return known.index(name)


def names_in(path, m, key, value):
    o = m.objects[object_of(path, m, key)]
    if value.kind != "list":
        raise Wrong(path, value if value.kind == "map" or value.raw else key, f"a list of names is wanted here, for the members of `{o.name}`")
    names = []
    for item in value.items:
        if len(names) == o.count:
            raise Wrong(path, item, f"`{o.name}` has {o.count} members, so this list has at most as many names")
        if item.kind != "scalar" or not item.raw:
            raise Wrong(path, item, "a name is wanted here; one that begins with `[` or `{` needs quotes")
        text = item.text
        if CONTROL.search(text) or len(item.raw) > MOST_BYTES_OF_NAME or text.strip() != text:
            raise Wrong(path, item, f"a name has at most {MOST_BYTES_OF_NAME} bytes, no control characters, and no blank at its ends")
        if text in names:
            raise Wrong(path, item, f"`{text}` was there before: it is the name of member {names.index(text)}")
        names.append(text)
    return names


def give(m, path):
    """Gives the members of a model their names, and each step its text with names, which is read as that step where it is no other's."""
    for of, names in read(path, m).items():
        m.objects[of].names = names
    others = {}
    for step in m.steps:
        step.shown = values.shown_step(m, step)
        others.setdefault(step.shown, []).append(step)
    for text, steps in others.items():
        if len(steps) == 1:
            m.by_text.setdefault(text, steps[0])


def given(m, problem, path=None):
    """The same by the file that is given, or by the one beside the problem, if there is one."""
    path = path or beside(problem)
    if path:
        give(m, path)
    return m
