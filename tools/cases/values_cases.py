"""The expressions of the cases of values, as texts of the language over the model of values_model.py."""

from values_model import COUNTS, TABLES

EXPRESSIONS = """\
4611686018427387903
-4611686018427387903
(+ 4611686018427387903 0)
(+ 4611686018427387903 1)
(- -4611686018427387903 1)
(- -4611686018427387903 0)
(- 4611686018427387903 -1)
(+ (- 4611686018427387903 1) 1)
(+ most least)
(+ most most)
(- most least)
(- least most)
(* most 1)
(* most 2)
(* most -1)
(* most most)
(* least least)
(* 2147483648 2147483648)
(* 2147483648 2147483647)
(* -2147483648 2147483648)
(- (+ 4611686018427387903 1) 1)
(+ (+ 4611686018427387903 4611686018427387903) -4611686018427387903)
(/ 7 2)
(/ -7 2)
(/ 7 -2)
(/ -7 -2)
(% 7 2)
(% -7 2)
(% 7 -2)
(% -7 -2)
(/ least -1)
(% least -1)
(/ most least)
(/ 5 0)
(% 5 0)
(/ 0 0)
(/ 0 5)
(/ (+ 4611686018427387903 1) 0)
(+ (/ 1 0) (+ 4611686018427387903 1))
(+ (+ 4611686018427387903 1) (/ 1 0))
(max 3 -4)
(min 3 -4)
(max most least)
(min most least)
i
two
far
(+ far far)
p
(- q p)
(= most most)
(!= most least)
(< -1 0)
(< 0 0)
(<= 0 0)
(> 1 0)
(>= 0 1)
(>= 0 0)
(!= 3 3)
(= -3 3)
(if true 1 (/ 1 0))
(if false 1 (/ 1 0))
(if (= (/ 1 0) 1) 1 2)
(and false (= (/ 1 0) 1))
(and true (= (/ 1 0) 1))
(or true (= (/ 1 0) 1))
(or false (= (+ 4611686018427387903 1) 1))
(and (= (/ 1 0) 1) false)
(not true)
(not false)
(and true true)
(and true false)
(or false false)
(not (= (/ 1 0) 1))
(tens 0)
(tens 2)
(tens 3)
(tens -1)
(tens two)
(tens five)
(tens far)
answer
(grid 1 2)
(grid 2 1)
(rows 2 0 1)
(columns 2 0 0 1)
(columns 2 0 1 1)
(grid -1 (/ 1 0))
(grid 5 -1)
(grid -1 5)
(grid (/ 1 0) -1)
(grid 0 -1)
(grid 0 3)
(lost 0)
(squares 64)
(squares 65)
(numbers 1023)
(numbers 1024)
(odd 0)
(odd 1)
(odd 3)
(odd -1)
yes
(below 0 1)
(below 1 1)
(sets 0)
(sets 1)
(sets 3)
(sets -2)
|thirds|
(tens (next 0))
(sum tens a)
(sum tens none)
(sum tens (~ a))
(sum tens 1)
(sum tens 3)
(sum tens -1)
(sum grid a a)
(sum grid 1 a)
(sum grid a 1)
(sum grid none 3)
(sum grid none -1)
(sum grid 3 -1)
(sum grid -1 none)
(sum grid (/ 1 0) -1)
(sum grid -1 (/ 1 0))
(sum rows a one a)
(sum columns a one one a)
(sum columns 2 one 0 (~ a))
(sum columns a 0 1 a)
(sum wide a)
(sum wide (~ (~ a)))
(sum wide (~ none))
(- (sum wide (~ none)) 4611686018427387903)
(sum wide (union (remove 2 a) (add 1 none)))
(sum squares ends)
(sum numbers full)
(sum numbers even)
(sum numbers no)
(sum numbers (~ no))
(sum digits full one)
(sum lost void)
(sum lost_pairs 0 void)
(sum lost_pairs 5 void)
(sum lost_pairs none void)
a
none
void
one
(~ a)
(~ none)
(~ void)
(~ one)
|all63|
|all64|
|ends|
|full|
|even|
|no|
(~ all63)
|(~ all64)|
|(~ ends)|
|(~ full)|
|(~ no)|
|(~ even)|
(union a (sets 1))
(union a (~ a))
(intersection a (sets 0))
(difference a (sets 0))
(difference a a)
(intersection none a)
|(difference full even)|
|(intersection even thirds)|
|(union even thirds)|
|(difference even thirds)|
(add 1 a)
(add 0 a)
(remove 2 a)
(remove 1 a)
(remove 0 none)
(add 3 a)
(add -1 a)
(remove 3 a)
(remove -1 a)
(add 0 void)
(add (/ 1 0) a)
(add -1 (add (/ 1 0) a))
(union (remove -1 a) none)
(difference none (add 3 a))
(if true a (add 3 a))
(if false (add 3 a) none)
(if (= (/ 1 0) 1) a none)
|(remove 62 all63)|
|(remove 63 all64)|
(remove 64 ends)
(add 64 all64)
(add 65 ends)
(add 1023 no)
(add 1024 no)
(= a a)
(= a none)
(!= a none)
(= full (union even (~ even)))
(!= even (~ even))
(!= a a)
(is_in 0 a)
(is_in 1 a)
(is_in 3 a)
(is_in -1 a)
(is_in 0 void)
(is_in (/ 1 0) a)
(is_in -1 (add 3 a))
(is_in 1023 full)
(is_in 1023 even)
(is_in 63 ends)
(is_in 62 ends)
(is_subset none a)
(is_subset a none)
(is_subset a a)
(is_subset even full)
(is_subset full even)
(is_empty none)
(is_empty a)
(is_empty void)
(is_empty (~ void))
(= (add -1 a) none)
(!= none (add 3 a))
(is_subset a (add -1 a))
(is_empty (add 3 a))
(if true (= i 7) false)
(if false true (= i 8))
(if true (= 1 1) (= (/ 1 0) 1))
(if false (= 1 1) (= (/ 1 0) 1))
(if false (= (+ 4611686018427387903 1) 1) true)
(if (= (/ 1 0) 1) true false)
(if (is_empty none) (is_empty a) (is_in 3 a))
(if (is_empty a) (is_in 3 a) (is_in 2 a))
(if (= two 2) (< (tens five) 0) true)
(not (if true false true))
(and (if false true false) true)
(if (if true true (is_empty a)) 5 6)
(if (if false true true) a none)
(if true (if true false true) false)
(+ 1 2 3 4)
(+ most 1 (/ 1 0))
(* 2 (/ 1 0) (tens 3))
(max 1 5 3)
(min 4 two 3 five)
(and true true (= 1 1))
(or false true (= (/ 1 0) 1))
(union none a (add 1 a))
(intersection (~ none) a (add 0 none))
(intersection a (~ none) (add 3 a) (add -1 a))
|(~ low)|
|(~ steps)|
|edges|
edges
(ladder 1)
(ladder 3)
(ladder -1)
(union edges (ladder 1))
(intersection edges steps)
(difference edges steps)
(add 1 edges)
(add 4095 low)
(add 4096 low)
(add -1 low)
(remove 4095 edges)
(remove 4096 edges)
(intersection (~ steps) edges)
|(union steps (~ steps))|
|(difference (~ low) (ladder 0))|
(if (is_in 4095 edges) (ladder 2) edges)
(is_in 4095 edges)
(is_in 4094 edges)
(is_in 4096 edges)
(is_in 64 (intersection edges steps))
(is_subset (intersection edges steps) steps)
(is_subset steps edges)
(is_subset low edges)
(= edges (union edges low))
(= edges (remove 63 edges))
(!= edges (remove 62 edges))
(is_empty low)
(is_empty (difference steps (ladder 0)))
(is_empty (~ low))
(tops 0)
(tops 2)
(tops 3)
(union (tops 0) (tops 1))
|(~ (tops 2))|
(difference all64 (~ (tops 1)))
(add 63 (tops 1))
(remove 63 (tops 0))
(is_in 63 (tops 0))
(is_in 62 (~ (tops 0)))
(is_in 64 (tops 0))
(is_in 64 (tops 3))
(is_subset (tops 0) all64)
(is_subset all64 (tops 0))
(= (tops 1) (add 1 (add 0 (difference all64 all64))))
(is_empty (intersection (tops 0) (tops 1)))
(wells 1)
(union ends (wells 1))
(intersection (~ ends) (wells 1))
(difference ends (wells 0))
(is_in 64 (wells 0))
(is_in 63 (wells 0))
(is_subset (wells 0) ends)
(is_subset ends (wells 1))
(= (wells 0) (intersection ends (wells 0)))
|(~ (wells 1))|
(sum squares (wells 1))
(sum squares (difference (~ ends) (wells 2)))
(sum squares (wells 3))
(sum squares (add 65 (wells 3)))
(grid 5 (/ 1 0))
(grid 5 -1)
(grid -1 5)
(grid (/ 1 0) 5)
(grid 2 1)
(sum grid 5 (add 3 a))
(sum grid (add 3 a) 5)
(sum grid (sets 1) 3)
(is_in 3 (add -1 a))
(add 3 (sets 3))
(= (add 3 a) (add -1 a))
(is_subset (tops 3) (add -1 (tops 0)))
(union (wells 3) (add -1 ends))
(if (is_empty (tops 3)) 1 2)
"""

# An expression of each kind for each fault, in the order Range, ZeroDivisor, Negative, Index: sets in one word, and larger ones.
FAULTING = {
    "number": ["(* most 2)", "(/ 1 0)", "(next -1)", "(tens 3)"],
    "set": ["(add (+ most 1) a)", "(remove (% 1 0) a)", "(sets -1)", "(add 3 none)"],
    "large set": ["(add (- least 1) even)", "(remove (% 1 0) no)", "(add -1 even)", "(remove 1024 full)"],
    "condition": ["(< (+ most most) 0)", "(= (/ 1 0) 1)", "(odd -1)", "(is_in 3 a)"],
}
NUMBERS = ["+", "-", "*", "/", "%", "max", "min"]
TESTS = ["=", "!=", "<", "<=", ">", ">="]
UNIONS = ["union", "intersection", "difference"]
SET_TESTS = ["=", "!=", "is_subset"]

# Each form with an operand `@` that is evaluated.
PLACES = {
    "number": [
        *(form for head in [*NUMBERS, *TESTS] for form in (f"({head} @ 1)", f"({head} 1 @)")),
        *["(if true @ 1)", "(if false 1 @)", "(tens @)", "(grid @ 1)", "(grid 1 @)", "(rows @ 0 1)", "(rows 1 @ 1)", "(rows 1 0 @)"],
        *["(columns @ 0 0 1)", "(columns 1 @ 0 1)", "(columns 1 0 @ 1)", "(columns 1 0 0 @)"],
        *["(odd @)", "(below @ 1)", "(below 1 @)", "(kept @ 0 1)", "(kept 1 @ 1)", "(kept 1 0 @)", "(sets @)", "(spots @ 1)", "(spots 1 @)"],
        *["(ladder @)", "(shores @ 1)", "(shores 1 @)", "(coasts @ 0 1)", "(coasts 1 @ 1)", "(coasts 1 0 @)"],
        *["(sum tens @)", "(sum numbers @)", "(sum grid @ 1)", "(sum grid 1 @)", "(sum grid @ a)", "(sum grid a @)"],
        *["(sum rows @ one a)", "(sum rows a @ 1)", "(sum rows a one @)", "(sum digits @ one)", "(sum digits full @)"],
        *(f"({head} @ {of})" for head in ["add", "remove", "is_in"] for of in ["a", "(~ a)", "even", "(~ even)"]),
    ],
    "set": [
        *(form for head in [*UNIONS, *SET_TESTS] for form in (f"({head} @ a)", f"({head} a @)")),
        *["|@|", "(~ @)", "(add 1 @)", "(remove 1 @)", "(is_in 1 @)", "(is_empty @)", "(if true @ a)", "(if false a @)"],
        *["(sum tens @)", "(sum grid @ 1)", "(sum grid 1 @)", "(sum grid @ a)", "(sum grid a @)", "(sum rows @ one a)", "(sum rows a one @)"],
    ],
    "large set": [
        *(form for head in [*UNIONS, *SET_TESTS] for form in (f"({head} @ even)", f"({head} even @)")),
        *["|@|", "(~ @)", "(add 1 @)", "(remove 1 @)", "(is_in 1 @)", "(is_empty @)", "(if true @ even)", "(if false even @)"],
        *["(sum numbers @)", "(sum digits @ one)", "(sum digits @ 0)"],
    ],
    "condition": [
        *["(not @)", "(and @ true)", "(and true @)", "(or @ true)", "(or false @)", "(if @ true false)", "(if true @ false)", "(if false true @)"],
        *["(if @ 1 2)", "(if @ a none)", "(if @ even no)"],
    ],
}

# Each form of two operands that are both evaluated, and their kinds.
BOTH = [
    *((head, "number", "number") for head in [*NUMBERS, *TESTS, "grid", "sum grid", "below", "spots", "shores"]),
    *((head, of, of) for head in [*UNIONS, *SET_TESTS] for of in ["set", "large set"]),
    *((head, "number", of) for head in ["add", "remove", "is_in"] for of in ["set", "large set"]),
    *[("sum grid", "number", "set"), ("sum grid", "set", "number"), ("sum grid", "set", "set"), ("sum digits", "large set", "number")],
]

# A set of an object type, in one word and in more.
ONE_OF = {"o3": "a", "o64": "(tops 0)", "o65": "(wells 0)", "o4096": "edges"}

# Each form that asks for a member of an object type, with the place `@` of the number, and the object type.
MEMBERS = [
    *((f"({head} @ {of})", kind) for head in ["add", "remove", "is_in"] for kind, of in ONE_OF.items()),
    *(
        (f"({head}{name} {' '.join('@' if k == i else '0' for k in range(len(types)))})", types[i])
        for name, (kind, _, types, cells) in TABLES.items()
        for head in (["", "sum "] if kind == "integer" else [""])
        for i in range(len(types))
        if cells
    ),
]

# What a form gives where its operation itself would fault behind an operand that does, and totals out of range.
LAST = """\
(/ (next -1) 0)
(% (* most 2) 0)
(add 3 (sets -1))
(remove -1 (add 3 a))
(is_in 3 (sets -1))
(is_in -1 (add 1024 even))
(add -1 (remove 1024 even))
(grid 3 (next -1))
(grid -1 (/ 1 0))
(rows 3 -1 (/ 1 0))
(sum grid 3 (sets -1))
(sum digits -1 (/ 1 0))
(sum heavy (sets 0) one)
(sum heavy (sets 0) 0)
(sum heavy (~ none) one)
(sum heavy a 1)
(sum numbers 5)
(sum grid 1 2)
(sum digits 17 0)
(sum digits 17 one)
(sum digits even 0)
(sum rows 1 0 2)
(sum rows 2 one a)
(sum rows a 0 1)
(sum rows a one 1)
(sum columns 2 0 0 1)
first
(union first a)
(= first (sets 0))
(spots 1 2)
(shores 2 1)
(coasts 1 0 2)
(kept 1 0 1)
(kept 2 0 1)
(is_in 63 (spots 0 0))
|(spots 0 1)|
|(shores 0 1)|
(is_subset (coasts 2 0 0) (coasts 1 0 0))
(+ p q)
(grid p q)
(sum grid p a)
(add p none)
(is_in q a)
(if (is_in p a) p q)
"""


def faulting():
    """Each fault in each place of each form, two faults in one form, and numbers that are no members."""
    for kind, forms in PLACES.items():
        yield from (form.replace("@", fault) for form in forms for fault in FAULTING[kind])
    for head, one, other in BOTH:
        yield from (f"({head} {FAULTING[one][first]} {FAULTING[other][then]})" for first, then in [(2, 1), (1, 2)])
    for form, of in MEMBERS:
        yield from (form.replace("@", str(number)) for number in (-1, COUNTS[of]))


GIVEN = EXPRESSIONS.splitlines()
FAULTS = [it for it in dict.fromkeys([*faulting(), *LAST.splitlines()]) if it not in GIVEN]

# Variables with what they range over, and a condition that must hold for each choice of them.
FOR_ALLS = [
    ([("j", "o3")], "(>= j 0)"),
    ([("j", "o3")], "(< j 2)"),
    ([("j", "a")], "(< j 2)"),
    ([("j", "a")], "(!= j 1)"),
    ([("j", "o3")], "(!= j 1)"),
    ([("j", "o3")], "(<= (tens j) 30)"),
    ([("j", "o0")], "false"),
    ([("j", "none")], "false"),
    ([("j", "void")], "false"),
    ([("j", "a")], "true"),
    ([("j", "o1")], "false"),
    ([("j", "even")], "(is_in j even)"),
    ([("j", "o1024")], "(is_in j even)"),
    ([("j", "o64")], "(< j 64)"),
    ([("j", "o3")], "(< (/ 10 (- j 1)) 0)"),
    ([("j", "o3")], "(> (/ 10 j) 0)"),
    ([("j", "o3")], "(< (/ 10 (- j 2)) 0)"),
    ([("j", "o3")], "(or (= j 1) (< (/ 10 (- j 1)) 0))"),
    ([("j", "o3"), ("k", "o3")], "(<= (+ j k) 4)"),
    ([("j", "a"), ("k", "o3")], "(<= (+ j k) 3)"),
    ([("j", "o3"), ("k", "o3")], "(or (below j k) (<= k j))"),
    ([("j", "o3")], "(<= (+ j p) 3)"),
    ([("j", "a")], "(<= (+ j q) 3)"),
    ([("j", "o63")], "(> (tens j) 0)"),
    ([("j", "o3")], "(not (is_in (+ j -1) a))"),
    ([("j", "o3")], "(if (< j 1) (<= (/ 10 (- j 1)) 0) (>= (/ 10 j) 0))"),
    ([("j", "o3")], "(if (= j 0) (= (/ 10 j) 0) true)"),
    ([("j", "o1024")], "(if (is_in j even) (= (% j 2) 0) (= (% j 2) 1))"),
    ([("j", "edges")], "(is_in j (union edges steps))"),
    ([("j", "edges")], "(< j 4095)"),
    ([("j", "o4096")], "(or (is_in j steps) (> (% j 64) 0))"),
    ([("j", "ends")], "(!= (squares j) 4095)"),
    ([("j", "ends")], "(is_in (+ j 1) ends)"),
    ([("j", "all64")], "(is_in j (~ (tops 2)))"),
    ([("j", "a"), ("k", "ends")], "(<= (+ (tens j) (squares k)) 4126)"),
    ([("j", "a"), ("k", "ends")], "(<= (+ (tens j) (squares k)) 4125)"),
    *((over, fault) for over in ([("j", "o3")], [("j", "edges")], [("j", "a"), ("k", "ends")]) for fault in FAULTING["condition"]),
    *(([("j", "o3")], fault) for fault in ["(< (* j most) most)", "(> (/ 1 (- j 2)) -2)", "(> (tens (- 1 j)) 0)", "(odd (+ j 1))"]),
    *(([("j", "ends")], fault) for fault in ["(< (* j most) most)", "(<= (/ 64 (- j 63)) 0)", "(is_in (- 63 j) ends)", "(is_in (+ j 1) (~ all64))"]),
    ([("j", "no")], "(= (/ 1 0) 1)"),
    ([("j", "a"), ("k", "low")], "(= (/ 1 0) 1)"),
]

# Where an expression stands, its text, and why it is not typed, by hand: the refusal at the byte where its form begins.
REFUSED = [
    ("number", "missing", "refused UnknownName(0)"),
    ("number", "(+ 1 (tens true))", "refused WrongKind(11)"),
    ("set-0", "(add 1 even)", "refused WrongKind(7)"),
    ("condition", "(not true false)", "refused WrongCount(0)"),
    ("condition", "(< cost 1)", "refused CostPlace(3)"),
    ("number", "(- 7 2.5)", "refused Continuous(5)"),
    ("number", "(max 1 4611686018427387904)", "refused BadNumber(7)"),
]

# An operator over so many of an operand is a tree of as many levels. One of 1,200 levels is typed and evaluated, and at a
# deeper one typing answers that it wants memory.
MOST_LEVELS = 1200


def repeated(head, operand, count):
    return f"({head} {' '.join([operand] * count)})"


DEEP = [("+", "1"), ("and", "yes"), ("union", "a")]
LEVELS = [repeated(head, operand, MOST_LEVELS) for head, operand in DEEP]
TOO_DEEP = [repeated(head, operand, MOST_LEVELS + 1) for head, operand in DEEP]

# Sixty trees of transitions: twelve forms over a set S of each of five object types, with N for the last member. Numbers and conditions
# stand in the transition of their set, and sets in the one of their form.
TREES_OVER = {"one": 1, "all63": 63, "all64": 64, "ends": 65, "even": 1024}
NUMBER_TREES = {"i": "(- (* 1000 |S|) |(union (remove N S) (~ S))|)", "least": "(/ |(~ S)| (- |S| |(remove N S)|))"}
CONDITION_TREES = [
    "(is_in N S)",
    "(is_subset S (add 0 (remove N S)))",
    "(= (union S (~ S)) (~ (intersection S (remove 0 S))))",
    "(is_empty (difference (add p S) S))",
]
SET_TREES = [
    "(~ S)",
    "(add N (remove 0 S))",
    "(union (remove 0 S) (~ S))",
    "(difference (~ S) (add N S))",
    "(if (is_in N S) (intersection S (~ (remove N S))) (add q S))",
    "(remove (+ p 62) (union S (~ (remove N S))))",
]


def over(form, name):
    """A form over the set of this name."""
    return form.replace("S", name).replace("N", str(TREES_OVER[name] - 1))


def tree_transitions():
    """The preconditions and the effects of each of six transitions."""
    for form, name in zip(SET_TREES, [*TREES_OVER, None]):
        conditions = [over(it, name) for it in CONDITION_TREES] if name else []
        numbers = {it: over(number, name) for it, number in NUMBER_TREES.items()} if name else {}
        yield conditions, {**numbers, **{it: over(form, it) for it in TREES_OVER}}
