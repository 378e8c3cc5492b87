#!/usr/bin/env python3
"""Writes the cases of crates/cases_values and what they must give: values.py, from the top of the repository.

It works each value out from the rules of the language, over the model that values_model.py describes, and shares no code
with the solver. The expressions stand in values_cases.py."""

import operator

from asked import asked
from case_lines import entry
from values_cases import FAULTS, FOR_ALLS, GIVEN, LEVELS, REFUSED, TOO_DEEP, tree_transitions
from values_model import ARGS, COUNTS, ELEMENTS, GREATEST, INTEGERS, SETS, TABLES, domain_text, problem_text

CRATE = "crates/cases_values"
# How much of an expression is printed.
MOST_SHOWN = 60

FOLDED = {"+": operator.add, "*": operator.mul, "max": max, "min": min, "union": operator.or_, "intersection": operator.and_}
PAIRS = {
    "-": operator.sub,
    "/": lambda a, b: abs(a) // abs(b) * (1 if (a < 0) == (b < 0) else -1),
    "%": lambda a, b: abs(a) % abs(b) * (-1 if a < 0 else 1),
    "difference": operator.sub,
}
TESTS = {
    "=": operator.eq,
    "!=": operator.ne,
    "<": operator.lt,
    "<=": operator.le,
    ">": operator.gt,
    ">=": operator.ge,
    "is_subset": operator.le,
}
CONDITIONS = {*TESTS, "and", "or", "not", "is_in", "is_empty"}
OBJECTS = list(COUNTS)


class Fault(Exception):
    pass


def parse(text):
    """The tree of an expression: a word, or a list of its head and its operands. |S| is a list headed by `size`."""
    waiting = [[]]
    for word in text.replace("(", " ( ").replace(")", " ) ").replace("|", " | ").split():
        if word == "(":
            waiting.append([])
        elif word == ")" or (word == "|" and waiting[-1][:1] == ["size"]):
            whole = waiting.pop()
            waiting[-1].append(whole)
        elif word == "|":
            waiting.append(["size"])
        else:
            waiting[-1].append(word)
    ((tree,),) = waiting
    return tree


def parts(tree):
    """The head of an expression, which is a word alone, and its operands."""
    return (tree, []) if isinstance(tree, str) else (tree[0], tree[1:])


def type_of(tree):
    """The object type of a set expression, or None."""
    head, operands = parts(tree)
    if head in SETS:
        return SETS[head][0]
    if head in TABLES:
        return TABLES[head][1]
    if head in ("union", "intersection", "difference", "~"):
        return type_of(operands[0])
    return type_of(operands[1]) if head in ("add", "remove", "if") else None


def is_condition(tree):
    head, operands = parts(tree)
    if head in TABLES:
        return TABLES[head][0] == "bool"
    return head in CONDITIONS or head in ("true", "false") or (head == "if" and is_condition(operands[1]))


def place_of(tree):
    """The place in which an expression of this kind stands, as the program's file names it."""
    if type_of(tree):
        return f"set-{OBJECTS.index(type_of(tree))}"
    return "condition" if is_condition(tree) else "number"


def ranged(value):
    if type(value) is int and abs(value) > GREATEST:
        raise Fault("Range")
    return value


def member(object_type, number):
    if number < 0:
        raise Fault("Negative")
    if number >= COUNTS[object_type]:
        raise Fault("Index")
    return number


def cell(name, values):
    _, _, types, cells = TABLES[name]
    return cells(*[member(it, value) for it, value in zip(types, values)])


def total(name, values):
    """The sum over a table: each argument is a number or a set of members."""
    _, _, types, cells = TABLES[name]
    choices = [sorted(it) if isinstance(it, frozenset) else [member(of, it)] for of, it in zip(types, values)]
    ways = [()]
    for choice in choices:
        ways = [(*way, k) for way in ways for k in choice]
    return ranged(sum(cells(*way) for way in ways))


def of_word(word, given):
    values = {**INTEGERS, **ELEMENTS, "true": True, "false": False, **given}
    if word in values:
        return values[word]
    if word in SETS:
        return SETS[word][1]
    return cell(word, []) if word in TABLES else int(word)


def decided(head, operands, given):
    """`and` and `or` evaluate their operands up to the first that decides them."""
    for it in operands:
        if evaluate(it, given) == (head == "or"):
            return head == "or"
    return head == "and"


def of_set(head, operands, given):
    """A form with a number and a set, in that order."""
    number, members = (evaluate(it, given) for it in operands)
    k = member(type_of(operands[1]), number)
    if head == "is_in":
        return k in members
    return members | {k} if head == "add" else members - {k}


def of_values(head, values):
    """A form whose operands are all evaluated first."""
    if head in FOLDED:
        folded = values[0]
        for it in values[1:]:
            folded = ranged(FOLDED[head](folded, it))
        return folded
    if head in ("/", "%") and values[1] == 0:
        raise Fault("ZeroDivisor")
    if head in PAIRS:
        return ranged(PAIRS[head](*values))
    if head in TESTS:
        return TESTS[head](*values)
    return len(values[0]) if head == "size" else not values[0]


def evaluate(tree, given):
    """The value of an expression. Operands are evaluated from left to right, and then the operation is tested."""
    head, operands = parts(tree)
    if not operands:
        return of_word(head, given)
    if head in TABLES:
        return cell(head, [evaluate(it, given) for it in operands])
    if head == "sum":
        return total(operands[0], [evaluate(it, given) for it in operands[1:]])
    if head == "if":
        return evaluate(operands[1 if evaluate(operands[0], given) else 2], given)
    if head in ("and", "or"):
        return decided(head, operands, given)
    if head in ("add", "remove", "is_in"):
        return of_set(head, operands, given)
    if head == "~":
        return frozenset(range(COUNTS[type_of(operands[0])])) - evaluate(operands[0], given)
    return of_values(head, folded_in_turn(head, operands, given))


def folded_in_turn(head, operands, given):
    """The operands' values. An operator over many is tested after each of them, so a fault of a sum so far goes before those behind."""
    values = []
    for it in operands:
        values.append(evaluate(it, given))
        if head in FOLDED:
            values = [of_values(head, values)]
    return values


def holds_for_all(over, condition, given):
    """Whether the condition holds for each choice of these variables, tested in order, the first variable slowest."""
    if not over:
        return evaluate(condition, given)
    (name, of), *others = over
    members = range(COUNTS[of]) if of in COUNTS else sorted(SETS[of][1])
    return all(holds_for_all(others, condition, {**given, name: k}) for k in members)


def shown(value):
    if isinstance(value, bool):
        return str(value).lower()
    if isinstance(value, frozenset):
        return "{" + ",".join(map(str, sorted(value))) + "}"
    return str(value)


def answer(work, *of):
    try:
        return shown(work(*of))
    except Fault as fault:
        return str(fault)


def typed_cases():
    """Where each expression stands, its text, and what it gives."""
    for text in [*GIVEN, *FAULTS, *LEVELS]:
        tree = parse(text)
        yield place_of(tree), text, answer(evaluate, tree, ARGS)
    yield from ((place_of(parse(text)), text, "memory") for text in TOO_DEEP)
    yield from REFUSED


def transition_lines(number, conditions, effects):
    """The lines of a transition whose preconditions, and whose effects, give these."""
    yield from (f"transition {number} precondition {n} => {given}\n" for n, given in enumerate(conditions, 1))
    yield from (f"transition {number} effect {n} => {given}\n" for n, given in enumerate(effects, 1))


def given_by(trees):
    return [answer(evaluate, parse(it), ARGS) for it in trees]


def ground_line(transitions):
    """The ground transitions, the first parameter slowest."""
    grounds = [f"{t}({p},{q})" for t in range(transitions) for p in range(COUNTS["o3"]) for q in range(COUNTS["o3"])]
    return f"ground {' '.join(grounds)}\n"


def words_of(members, count):
    """A set in words of 64 members, the first in the lowest bit."""
    return [sum(1 << k % 64 for k in members if k // 64 == word) for word in range(-(-count // 64))]


def signature_line():
    """The words of the target but those of its resources: integers in two's complement, elements, sets."""
    numbers = [it % 2**64 for it in [*INTEGERS.values(), *ELEMENTS.values()]]
    sets = [word for of, members in SETS.values() for word in words_of(members, COUNTS[of])]
    return f"signature {' '.join(map(str, numbers + sets))}\n"


def front(text):
    return text if len(text) <= MOST_SHOWN else f"{text[:MOST_SHOWN]} .."


def write(name, lines):
    with open(f"{CRATE}/{name}", "w", encoding="ascii") as file:
        file.writelines(lines)


def main():
    cases = list(typed_cases())
    held = [answer(holds_for_all, over, parse(condition), ARGS) for over, condition in FOR_ALLS]
    trees = list(tree_transitions())
    write("data/domain.yaml", domain_text(FOR_ALLS, trees))
    write("data/problem.yaml", problem_text())
    write("data/values.txt", (entry(place, text) for place, text, _ in cases))
    out = [f"{place} {n}: {front(text)} => {given}\n" for n, (place, text, given) in enumerate(cases, 1)]
    out += transition_lines(0, held, [])
    for n, (conditions, effects) in enumerate(trees, 1):
        out += transition_lines(n, given_by(conditions), given_by(effects.values()))
    out += [ground_line(len(trees) + 1), signature_line()]
    write("stdout", out)


if __name__ == "__main__":
    asked(__doc__, 0, 0)
    main()
