"""The model of the cases of values: its object types, the state, the parameters in force and its tables, and its two texts."""

GREATEST = 2**62 - 1

# How many members each object type has.
COUNTS = {"o3": 3, "o0": 0, "o1": 1, "o63": 63, "o64": 64, "o65": 65, "o1024": 1024, "o4096": 4096}

# The parameters in force.
ARGS = {"p": 1, "q": 2}


def multiples(of, count):
    """The multiples of a number below the count; of 0 there are none."""
    return frozenset(range(0, count, of)) if of else frozenset()


INTEGERS = {"i": 7, "most": GREATEST, "least": -GREATEST}
ELEMENTS = {"two": 2, "five": 5, "far": 2**32 - 1}

# Each resource: its type, its preference, and its value.
RESOURCES = {"spent": ("integer", "less", -3), "late": ("element, object: o3", "greater", 1)}

# Each variable that holds a set: its object type and its members.
SETS = {
    "a": ("o3", multiples(2, 3)),
    "none": ("o3", multiples(0, 3)),
    "void": ("o0", multiples(1, 0)),
    "one": ("o1", multiples(1, 1)),
    "all63": ("o63", multiples(1, 63)),
    "all64": ("o64", multiples(1, 64)),
    "ends": ("o65", frozenset([0, 63, 64])),
    "full": ("o1024", multiples(1, 1024)),
    "even": ("o1024", multiples(2, 1024)),
    "no": ("o1024", multiples(1, 0)),
    "edges": ("o4096", frozenset([0, 63, 64, 4095])),
    "steps": ("o4096", multiples(64, 4096)),
    "low": ("o4096", multiples(1, 0)),
}

SMALL_SETS = [frozenset([0, 1]), frozenset(), frozenset([2])]
LADDER = [multiples(64, 4096), frozenset([4095]), frozenset()]
TOPS = [frozenset([63]), frozenset([0, 1]), multiples(3, 64)]
WELLS = [frozenset([64]), frozenset([63, 64]), frozenset()]
ROWS = [0, 1, 2, 100, 101, 102, 200, 201, 202]
COLUMNS = [0, -1, -2, 7, 6, 5, 14, 13, 12]
BELOW = [False, True, True, False, False, True, False, False, False]
KEPT = [True, False, True, False, True, True, True, False, False]

# Each table: its kind, the object type of its sets, if it has sets, the object types of its arguments, and its cells.
TABLES = {
    "tens": ("integer", None, ["o3"], lambda i: [10, 20, 30][i]),
    "grid": ("integer", None, ["o3", "o3"], lambda i, j: 3 * i + j),
    "rows": ("integer", None, ["o3", "o1", "o3"], lambda i, j, k: ROWS[3 * i + k]),
    "columns": ("integer", None, ["o3", "o1", "o1", "o3"], lambda i, j, k, l: COLUMNS[3 * i + l]),
    "answer": ("integer", None, [], lambda: 42),
    "odd": ("bool", None, ["o3"], lambda i: [True, False, True][i]),
    "sets": ("set", "o3", ["o3"], lambda i: SMALL_SETS[i]),
    "wide": ("integer", None, ["o3"], lambda i: [GREATEST, GREATEST, -GREATEST][i]),
    "squares": ("integer", None, ["o65"], lambda i: i * i),
    "numbers": ("integer", None, ["o1024"], lambda i: i),
    "yes": ("bool", None, [], lambda: True),
    "thirds": ("set", "o1024", [], lambda: multiples(3, 1024)),
    "lost": ("integer", None, ["o0"], None),
    "lost_pairs": ("integer", None, ["o3", "o0"], None),
    "below": ("bool", None, ["o3", "o3"], lambda i, j: BELOW[3 * i + j]),
    "next": ("element", None, ["o3"], lambda i: [2, 0, 1][i]),
    "digits": ("integer", None, ["o1024", "o1"], lambda i, j: i % 10),
    "ladder": ("set", "o4096", ["o3"], lambda i: LADDER[i]),
    "tops": ("set", "o64", ["o3"], lambda i: TOPS[i]),
    "wells": ("set", "o65", ["o3"], lambda i: WELLS[i]),
    "heavy": ("integer", None, ["o3", "o1"], lambda i, j: [GREATEST, GREATEST, -GREATEST][i]),
    "kept": ("bool", None, ["o3", "o1", "o3"], lambda i, j, k: KEPT[3 * i + k]),
    "first": ("set", "o3", [], lambda: frozenset([0, 1])),
    "spots": ("set", "o64", ["o3", "o3"], lambda i, j: multiples(7 * i + j, 64)),
    "shores": ("set", "o65", ["o3", "o3"], lambda i, j: multiples(32 * i + j, 65)),
    "coasts": ("set", "o65", ["o3", "o1", "o3"], lambda i, j, k: multiples(9 * i + k, 65)),
}


def ways(types):
    """Each choice of a member of each object type, the first slowest."""
    found = [()]
    for it in types:
        found = [(*way, k) for way in found for k in range(COUNTS[it])]
    return found


def written(value):
    if isinstance(value, bool):
        return "true" if value else "false"
    if isinstance(value, frozenset):
        return f"[{', '.join(map(str, sorted(value)))}]"
    return str(value)


def table_line(name, kind, object_type, args):
    of = f", object: {object_type}" if object_type else ""
    return f"  - {{ name: {name}, type: {kind}{of}, args: [ {', '.join(args)} ] }}\n"


def cells_line(name, types, cells):
    if not types:
        return f"  {name}: {written(cells())}\n"
    keys = [(way, str(way[0]) if len(way) == 1 else f"[{', '.join(map(str, way))}]") for way in ways(types)]
    return f"  {name}: {{ {', '.join(f'{key}: {written(cells(*way))}' for way, key in keys)} }}\n"


def for_all_lines(over, condition):
    names = ", ".join(f"{{ name: {name}, object: {of} }}" for name, of in over)
    return f"      - condition: {condition}\n        forall: [ {names} ]\n"


def parameter_lines():
    return ["    parameters:\n", *(f"      - {{ name: {it}, object: o3 }}\n" for it in ARGS)]


def tree_lines(number, conditions, effects):
    """A transition with these preconditions and effects."""
    preconditions = ["    preconditions:\n", *(f"      - {it}\n" for it in conditions)] if conditions else []
    return [
        f"  - name: tree{number}\n",
        *parameter_lines(),
        *preconditions,
        "    effects:\n",
        *(f"      {name}: {tree}\n" for name, tree in effects.items()),
    ]


def domain_text(for_alls, trees):
    """The domain, whose first transition has these conditions as its preconditions, and the others these trees."""
    names = [f"  - {{ name: {it}, type: integer }}\n" for it in INTEGERS]
    names += [f"  - {{ name: {it}, type: element, object: o3 }}\n" for it in ELEMENTS]
    names += [f"  - {{ name: {it}, type: {of}, preference: {side} }}\n" for it, (of, side, _) in RESOURCES.items()]
    names += [f"  - {{ name: {it}, type: set, object: {of} }}\n" for it, (of, _) in SETS.items()]
    return "".join(
        [
            f"domain: values\nobjects: [ {', '.join(COUNTS)} ]\nstate_variables:\n",
            *names,
            "tables:\n",
            *(table_line(name, *table[:3]) for name, table in TABLES.items()),
            "transitions:\n  - name: step\n",
            *parameter_lines(),
            "    preconditions:\n",
            *(for_all_lines(*it) for it in for_alls),
            *(line for number, tree in enumerate(trees, 1) for line in tree_lines(number, *tree)),
            "base_cases:\n  - [ false ]\n",
        ]
    )


def problem_text():
    resources = {name: value for name, (_, _, value) in RESOURCES.items()}
    values = {**INTEGERS, **ELEMENTS, **resources, **{name: members for name, (_, members) in SETS.items()}}
    return "".join(
        [
            "domain: values\nproblem: sample\nobject_numbers:\n",
            *(f"  {name}: {count}\n" for name, count in COUNTS.items()),
            "target:\n",
            *(f"  {name}: {written(value)}\n" for name, value in values.items()),
            "table_values:\n",
            *(cells_line(name, args, cells) for name, (_, _, args, cells) in TABLES.items() if cells),
        ]
    )
