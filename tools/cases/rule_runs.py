"""Texts of a small model that each hold one rule of the loader which no other case holds: with that rule the other way the answer here
is another, and of all other texts the same. Each was worked out by hand, and has the rule above it."""

from small_runs import GO, GO_FROM, GONE, OFF, X, changed, refused, table, told, values

TWO_ARGUMENTS = table("{ name: t, type: integer, args: [ o, o ] }")
SETS = table("{ name: u, type: set, object: o, args: [ o ] }")
TRUTHS = table("{ name: b, type: bool, args: [ o ] }")

REFUSED = [
    # An index below 0 is no number of its place, and not one that has no cell.
    ("a negative index", [SETS], [values("{ u: { -1: [] } }")], "problem:4:22 42 BadNumber"),
    # The numbers of a key are read in order, each to its end: the first has no cell before the second is no number.
    ("an index before a later one that is no number", [TWO_ARGUMENTS], [values("{ t: { [9, x]: 5 } }")], "problem:4:23 44 BadIndex"),
    # The key of a table with two arguments is a list of two numbers, and nothing else.
    ("a number as key of two arguments", [TWO_ARGUMENTS], [values("{ t: { 0: 5 } }")], "problem:4:22 50 WrongShape"),
    ("a list of one number as key of two arguments", [TWO_ARGUMENTS], [values("{ t: { [0]: 5 } }")], "problem:4:22 50 WrongShape"),
    # An item of a list has its index by its place, which is tested before the item is read.
    ("an item too many before its value", [TWO_ARGUMENTS], [values("{ t: [ [ 1, 2, x ] ] }")], "problem:4:30 44 BadIndex"),
    # A table that begins as a list is one of lists in all its depth.
    ("a map inside the lists of a table", [TWO_ARGUMENTS], [values("{ t: [ { 0: 1 } ] }")], "problem:4:22 50 WrongShape"),
    # A table without arguments has one cell, which is no list.
    ("a list for a table without arguments", [table("{ name: n, type: integer }")], [values("{ n: [ 5 ] }")], "problem:4:20 50 WrongShape"),
    # `args` is read before `object`, also where `object` is missing.
    ("a table's arguments before its missing object type", [table("{ name: s, type: set, args: [ zz ] }")], [], "domain:3:41 30 UnknownName"),
    # A set has no preference.
    ("a preference of a set", [(X, X + "\n  - { name: v, type: set, object: o, preference: less }")], [], "domain:5:50 50 WrongShape"),
    # An element in the target has at most 32 bits.
    ("an element of 33 bits", [], [("e: 0", "e: 4294967296")], "problem:4:20 42 BadNumber"),
    # An object type that `object_numbers` leaves out is told at the problem, and not at that map.
    ("a number of members that is left out", [("[ o ]", "[ o, q ]")], [], "problem:1:1 40 MissingKey"),
    # An unknown object type is told before its number is read.
    ("an unknown object type before its number", [], [("{ o: 2 }", "{ z: x }")], "problem:3:19 30 UnknownName"),
    # A name has no control character, also where quotes would hold it.
    ("a control character in a name", [(X, '{ name: "x\x01", type: integer }')], [], "domain:4:13 51 BadName"),
    # The name of a transition has no space at its end.
    ("a space at a name's end", [("name: go", "name: 'go '")], [], "domain:7:11 51 BadName"),
    # `TRUE` is a truth value, and `yes` is none.
    ("a truth value that is none", [TRUTHS], [values("{ b: [ TRUE, yes ] }")], "problem:4:28 50 WrongShape"),
]


def read(title, domain, problem, output, status):
    """A case of both texts changed, which are read."""
    texts = [("domain", changed(GO, *domain)), ("problem", changed(GO_FROM, *problem))]
    return (title, texts, [(OFF, output, status)])


PAID = told("solution -15 3", "go 0", "go 0", "go 0", "pass 1 share 1 visited 3 dropped 0", "verdict optimal -15")
BY_ONE = told("solution 6 3", "go 1", "go 1", "go 1", "pass 1 share 1 visited 3 dropped 0", "verdict optimal 6")
READ = [
    # A cell of an element table is any whole number, also one below 0.
    read("an element's cell below 0", [table("{ name: k, type: element, args: [ o ] }"), ("(+ cost 2)", "(+ cost (k p))")], [values("{ k: [ -5 ] }")], PAID, 0),
    # A member that is named twice counts once.
    read("a member that is named twice", [SETS, ("(< x 3)", "(< x 3), (is_in 0 (u 0))")], [values("{ u: [ [ 0, 1, 0 ] ] }")], GONE, 0),
    # An object type may have no members: then no step ranges over it.
    read("no members", [], [("{ o: 2 }", "{ o: 0 }")], told("pass 1 share 1 visited 1 dropped 0", "verdict infeasible"), 10),
    # `boolean` is another word for `bool`.
    read("a table of the type boolean", [table("{ name: b, type: boolean, args: [ o ] }"), ("(< x 3)", "(< x 3), (b p)")], [values("{ b: [ false, True ] }")], BY_ONE, 0),
]
RULES = [*(refused(*case) for case in REFUSED), *READ]
