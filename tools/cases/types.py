#!/usr/bin/env python3
"""Writes what the expressions of crates/cases_types/data/types.txt must give: types.py, from the top of the repository.

It types each expression by the rules of the language, in the scope that stands below; the program that runs the cases makes
the same scope by code of its own, and shares no code with this one."""

import re

from asked import asked
from case_lines import escaped, unescaped

CRATE = "crates/cases_types"
GREATEST = 2**62 - 1

# The variables, each with its kind: a number, or a set of an object type.
VARIABLES = {"i": "number", "j": "number", "e": "number", "f": "number", "s": 0, "u": 0, "v": 1, "q": "number"}

# The tables, each with the kind of its cells and the object types of its arguments. Of equal names the first counts.
TABLES = [
    ("n0", "integer", []), ("n1", "integer", [0]), ("n2", "integer", [0, 1]),
    ("e0", "element", []), ("e1", "element", [0]),
    ("b0", "truth", []), ("b1", "truth", [0]), ("b2", "truth", [0, 1]),
    ("s0", 0, []), ("s1", 0, [1]), ("s2", 0, [0, 1]), ("v1", 1, [0]),
    ("n1", "truth", []), ("i", "integer", [0]),
]

# The parameters in force, the innermost last.
PARAMS = ["p", "q", "p"]

FOLDED = {"+": "Plus", "*": "Times", "max": "Most", "min": "Least"}
PAIRS = {"-": "Minus", "/": "Over", "%": "Rest"}
COMPARED = {"<": "Less", "<=": "AtMost", ">": "More", ">=": "AtLeast"}
SAME = {"=": ("Same", "SameSet"), "!=": ("Other", "OtherSet")}
SET_FOLDED = {"union": "Union", "intersection": "Intersection"}
SET_WORDS = {*SET_FOLDED, "difference", "~", "add", "remove"}
NUMBER_WORDS = {*FOLDED, *PAIRS, "sum"}
TRUTH_WORDS = {*COMPARED, *SAME, "and", "or", "not", "is_in", "is_subset", "is_empty"}
CONTINUOUS = {"ceil", "floor", "round", "trunc", "sqrt", "log", "pow"}
NAMES = {
    "UnknownName": 30, "WrongKind": 31, "WrongCount": 32, "CostPlace": 33, "Continuous": 34, "BadNumber": 42, "CostForm": 47,
}


class Refused(Exception):
    def __init__(self, at, name):
        super().__init__(f"refused {at} {NAMES[name]} {name}")


class Form:
    """A word, or a list or bars with what is in them, at an offset in bytes."""

    def __init__(self, at, word=None, items=None, bars=False):
        self.at, self.word, self.items, self.bars = at, word, items, bars

    def head(self):
        return self.items[0].word if self.items and not self.bars else None


def read(text):
    tokens = [(len(text[: it.start()].encode()), it[0]) for it in re.finditer(r"[()|]|[^()|\s]+", text)]

    def form(k):
        at, token = tokens[k]
        if token not in "(|":
            return Form(at, word=token), k + 1
        items, k = [], k + 1
        while tokens[k][1] != {"(": ")", "|": "|"}[token]:
            item, k = form(k)
            items.append(item)
        return Form(at, items=items, bars=token == "|"), k + 1

    return form(0)[0]


def number_in(word, at):
    """The number that a word is. None where it begins as none; a refusal where it is not whole."""
    if not re.match(r"[+-]?[0-9]", word):
        return None
    if not re.fullmatch(r"[+-]?[0-9]+", word):
        raise Refused(at, "Continuous")
    return int(word)


def table_named(word):
    """The number of the table that a word names, where no parameter and no variable has the name."""
    if word in PARAMS or word in VARIABLES:
        return None
    return next((k for k, table in enumerate(TABLES) if table[0] == word), None)


def set_kind(form):
    """Whether an operand is of set kind."""
    word = form.word
    if word is not None:
        k = table_named(word)
        return isinstance(VARIABLES.get(word), int) and word not in PARAMS or k is not None and isinstance(TABLES[k][1], int)
    head = form.head()
    if head == "if":
        return len(form.items) > 2 and set_kind(form.items[2])
    k = table_named(head) if head else None
    return head in SET_WORDS or k is not None and isinstance(TABLES[k][1], int)


def counted(form, count):
    """The operands of a list, of which there are to be so many."""
    if len(form.items) - 1 != count:
        raise Refused(form.at, "WrongCount")
    return form.items[1:]


def several(form):
    if len(form.items) < 3:
        raise Refused(form.at, "WrongCount")
    return form.items[1:]


def folded(parts, joined):
    parts = iter(parts)
    made = next(parts)
    for part in parts:
        made = joined(made, part)
    return made


def of_other_kind(form):
    """What is refused of a form that is none of the kind that is wanted."""
    if form.bars:
        return Refused(form.at, "WrongKind")
    word = form.word
    if word is None:
        word = form.head()
        if word is None:
            return Refused(form.at, "WrongKind")
        if word == "cost" or word in CONTINUOUS:
            return Refused(form.at, "CostPlace" if word == "cost" else "Continuous")
        known = word in NUMBER_WORDS | SET_WORDS | TRUTH_WORDS | {"if"} or table_named(word) is not None
        return Refused(form.at, "WrongKind" if known else "UnknownName")
    if word == "cost":
        return Refused(form.at, "CostPlace")
    known = number_in(word, form.at) is not None or word in ("true", "false") or word in PARAMS or word in VARIABLES
    return Refused(form.at, "WrongKind" if known or table_named(word) is not None else "UnknownName")


def cell(form, kinds):
    """The cell of a table of one of these kinds that a word or a list names; None where it names none."""
    word = form.word or form.head()
    k = table_named(word) if word else None
    if k is None or TABLES[k][1] not in kinds:
        return None
    operands = form.items[1:] if form.items else []
    if len(operands) != len(TABLES[k][2]):
        raise Refused(form.at, "WrongCount")
    return f"Cell({k}, [{', '.join(map(number, operands))}])"


def choice(form, wanted):
    condition, one, other = counted(form, 3)
    return f"If({truth(condition)}, {wanted(one)}, {wanted(other)})"


def number(form):
    word, head = form.word, form.head()
    if word is not None and (n := number_in(word, form.at)) is not None:
        if abs(n) > GREATEST:
            raise Refused(form.at, "BadNumber")
        return f"Fixed({n})"
    if word in PARAMS:
        return f"Param({len(PARAMS) - 1 - PARAMS[::-1].index(word)})"
    if VARIABLES.get(word) == "number":
        return f"Var({list(VARIABLES).index(word)})"
    if form.bars:
        return f"Size({members(form.items[0])[1]})"
    if head in FOLDED:
        return folded(map(number, several(form)), lambda a, b: f"Op({FOLDED[head]}, {a}, {b})")
    if head in PAIRS:
        one, other = counted(form, 2)
        return f"Op({PAIRS[head]}, {number(one)}, {number(other)})"
    if head == "if":
        return choice(form, number)
    if head == "sum":
        return total(form)
    made = cell(form, ("integer", "element"))
    if made is None:
        raise of_other_kind(form)
    return made


def total(form):
    if len(form.items) < 3:
        raise Refused(form.at, "WrongCount")
    name = form.items[1]
    k = table_named(name.word) if name.word else None
    if k is None or TABLES[k][1] != "integer" or not TABLES[k][2]:
        if name.word is None:
            raise Refused(name.at, "WrongKind")
        raise of_other_kind(name)
    objects, operands = TABLES[k][2], form.items[2:]
    if len(operands) != len(objects):
        raise Refused(form.at, "WrongCount")
    terms = [f"Many({members(it, o)[1]})" if set_kind(it) else f"One({number(it)})" for o, it in zip(objects, operands)]
    return f"Sum({k}, [{', '.join(terms)}])"


def members(form, wanted=None):
    """The object type of a set expression and its tree. Where one is wanted it has to be that."""
    word, head = form.word, form.head()
    kinds = [wanted] if wanted is not None else [0, 1]
    if word not in PARAMS and VARIABLES.get(word, "none") in kinds:
        return VARIABLES[word], f"Var({list(VARIABLES).index(word)})"
    if head in SET_FOLDED:
        operands = several(form)
        wanted, first = members(operands[0], wanted)
        rest = [members(it, wanted)[1] for it in operands[1:]]
        return wanted, folded([first, *rest], lambda a, b: f"Op({SET_FOLDED[head]}, {a}, {b})")
    if head == "difference":
        one, other = counted(form, 2)
        wanted, first = members(one, wanted)
        return wanted, f"Op(Difference, {first}, {members(other, wanted)[1]})"
    if head == "~":
        (one,) = counted(form, 1)
        wanted, first = members(one, wanted)
        return wanted, f"Not({first})"
    if head in ("add", "remove"):
        one, other = counted(form, 2)
        first = number(one)
        wanted, rest = members(other, wanted)
        return wanted, f"{'With' if head == 'add' else 'Without'}({first}, {rest})"
    if head == "if":
        condition, one, other = counted(form, 3)
        holds = truth(condition)
        wanted, first = members(one, wanted)
        return wanted, f"If({holds}, {first}, {members(other, wanted)[1]})"
    made = cell(form, kinds)
    if made is None:
        raise of_other_kind(form)
    return TABLES[table_named(word or head)][1], made


def truth(form):
    word, head = form.word, form.head()
    if word in ("true", "false"):
        return f"Fixed({word})"
    if head in COMPARED:
        one, other = counted(form, 2)
        return f"Numbers({COMPARED[head]}, {number(one)}, {number(other)})"
    if head in SAME:
        one, other = counted(form, 2)
        if not set_kind(one):
            return f"Numbers({SAME[head][0]}, {number(one)}, {number(other)})"
        object_type, first = members(one)
        return f"{SAME[head][1]}({first}, {members(other, object_type)[1]})"
    if head in ("and", "or"):
        return folded(map(truth, several(form)), lambda a, b: f"{head.title()}({a}, {b})")
    if head == "not":
        return f"Not({truth(*counted(form, 1))})"
    if head == "if":
        return choice(form, truth)
    if head == "is_in":
        one, other = counted(form, 2)
        return f"IsIn({number(one)}, {members(other)[1]})"
    if head == "is_subset":
        one, other = counted(form, 2)
        object_type, first = members(one)
        return f"Subset({first}, {members(other, object_type)[1]})"
    if head == "is_empty":
        return f"Empty({members(*counted(form, 1))[1]})"
    made = cell(form, ("truth",))
    if made is None:
        raise of_other_kind(form)
    return made


def cost(form):
    if form.word == "cost":
        return "Bare"
    if form.head() in ("+", "max", "min") and len(form.items) == 3:
        weights = [it for it in form.items[1:] if it.word != "cost"]
        if len(weights) == 1:
            return f"Joined({FOLDED[form.head()]}, {number(weights[0])})"
    raise Refused(0, "CostForm")


WANTED = {
    "number": number,
    "element": number,
    "condition": truth,
    "cost": cost,
    "set-0": lambda form: members(form, 0)[1],
    "set-1": lambda form: members(form, 1)[1],
}


def answer(key, text):
    try:
        return WANTED[key](read(text))
    except Refused as refused:
        return str(refused)


def main():
    with open(f"{CRATE}/data/types.txt", encoding="ascii") as file:
        cases = [line.rstrip("\n").partition(" ") for line in file if line.strip() and not line.startswith("#")]
    with open(f"{CRATE}/stdout", "w", encoding="ascii") as file:
        for number_of, (key, _, text) in enumerate(cases, 1):
            text = unescaped(text)
            file.write(f'{key} {number_of} "{escaped(text)}"\n    {answer(key, text)}\n')


if __name__ == "__main__":
    asked(__doc__, 0, 0)
    main()
