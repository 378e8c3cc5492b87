"""Natural mistakes in a model, and what must be told of each: `tools/mistakes` makes docs/MISTAKES.md of them."""

D, P = "domain", "problem"
SWAPPED = ("The problem's text stands in the domain's file, and the domain's in the problem's.", lambda texts: {D: texts[P], P: texts[D]})
RETURNS = ("In the problem a carriage return stands in place of each line feed.", lambda texts: {**texts, P: texts[P].replace("\n", "\r")})

# A title; the changes: the file, the piece of its text that stands there once, and what stands in its place; and a piece of what must be told.
# In place of changes may stand a sentence and a function that makes the texts.
MISTAKES = [
    ("Keys and their shapes", [
        ("A key by another name", [(D, "state_variables:", "variables:")], "`variables` is no key of a domain"),
        ("A key that is not of this map", [(D, "reduce: min", "minimize: true")], "`minimize` is no key of a domain"),
        ("A key twice", [(D, "    effects:\n      at: 0\n", "    preconditions:\n      - (< stock hold)\n    effects:\n      at: 0\n")], "15 TwiceKey"),
        ("A variable without a type", [(D, "  - name: at\n    type: element\n", "  - name: at\n")], "The key `type` is missing"),
        ("An element or set variable without its object type", [(D, "    type: set\n    object: place\n", "    type: set\n")], "The key `object` is missing"),
        ("A type by another name", [(D, "  - name: stock\n    type: integer\n", "  - name: stock\n    type: int\n")], "`int` is not known here"),
        ("What `reduce` may be", [(D, "reduce: min", "reduce: minimize")], "Allowed are: min, max"),
        ("What a preference may be", [(D, "  - name: stock\n    type: integer\n", "  - name: stock\n    type: integer\n    preference: max\n")], "Allowed are: less, greater"),
        ("A preference of a set", [(D, "    type: set\n", "    type: set\n    preference: less\n")], "A set variable has no preference"),
        ("Numbers that are not whole", [(D, "reduce: min", "cost_type: continuous")], "34 Continuous"),
        ("A truth value by another name", [(D, "  - name: load\n", "  - name: load\n    forced: yes\n")], "`yes` is not known here"),
        ("Effects as a list", [(D, "      at: 0\n", "      - at: 0\n"), (D, "      stock: hold\n", "      - stock: hold\n")], "A map is wanted here, of variables with expressions"),
        ("A condition where a base case must stand", [(D, "  - - (is_empty left)\n    - (= at 0)\n", "  - (is_empty left)\n")], "A base case is a list of conditions"),
        ("A key of the problem in the domain", [(D, "base_cases:\n", "table_values:\n  hold: 5\nbase_cases:\n")], "it is one of the problem"),
        ("The two files in each other's place", SWAPPED, "do the two files stand in each other's place"),
        ("No base case", [(D, "base_cases:\n  - - (is_empty left)\n    - (= at 0)\n", "")], "48 NoBase"),
        ("The `forall` of a condition under another name", [(D, "      - (!= at 0)\n", "      - condition: (<= (demand j) hold)\n        for_all: [ { name: j, object: left } ]\n")], "did you mean `forall`"),
        ("What the language has and the solver leaves out", [(D, "reduce: min", "state_functions: []")], "52 LeftOut"),
    ]),
    ("Names", [
        ("A name that is nothing here", [(D, "(<= (demand c) stock)", "(<= (demand c) load)")], "`load` is no name in force"),
        ("A name with other letters", [(D, "      stock: (- stock (demand c))", "      Stock: (- stock (demand c))")], "`Stock` is no variable"),
        ("A table by another name in the problem", [(P, "  way:\n", "  ways:\n")], "`ways` is no table"),
        ("An object type by another name", [(D, "  - name: at\n    type: element\n    object: place", "  - name: at\n    type: element\n    object: places")], "`places` is no object type"),
        ("A parameter over a variable that is no set", [(D, "      - name: c\n        object: left", "      - name: c\n        object: stock")], "`stock` is no object type and no set variable"),
        ("A name that was there before", [(D, "      - name: c\n", "      - name: at\n")], "`at` was there before"),
        ("A name that is a word of expressions", [(D, "  - name: at\n    type: element", "  - name: max\n    type: element")], "`max` is a word of expressions"),
        ("A name with a blank", [(D, "  - name: demand\n", "  - name: the demand\n")], "one word without brackets, bars, blanks"),
        ("A cell as other languages write it", [(D, "cost: (+ cost (way at c))", "cost: (+ cost way[at,c])")], "a cell is written (way at c)"),
        ("An object type used as a value", [(D, "(!= at 0)", "(!= at place)")], "`place` is an object type, and no value"),
    ]),
    ("Expressions", [
        ("Whether a set has a member, by another name", [(D, "(!= at 0)", "(in at left)")], "did you mean `is_in`"),
        ("`!=` by another name", [(D, "(!= at 0)", "(<> at 0)")], "did you mean `!=`"),
        ("`and` by another name", [(D, "(!= at 0)", "(&& (!= at 0) (< stock hold))")], "did you mean `and`"),
        ("The negative of a number", [(D, "stock: hold", "stock: (- hold)")], "the negative of n is (- 0 n)"),
        ("A dash in place of the minus sign", [(D, "(- stock (demand c))", "(\u2013 stock (demand c))")], "it is a dash"),
        ("A no-break space", [(D, "(!= at 0)", "(!= at\u00a00)")], "looks like a blank and is none"),
        ("The operator between its operands", [(D, "(<= (demand c) stock)", "(demand c) <= stock")], "an operator stands in front of its operands"),
        ("The bracket behind the table's name", [(D, "(<= (demand c) stock)", "(<= demand(c) stock)")], "the cell of a table is (demand ..)"),
        ("A bracket that is not closed", [(D, "(<= (demand c) stock)", "(<= (demand c) stock")], "opens here is not closed"),
        ("A bracket too many", [(D, "(remove c left)", "(remove c left))")], "This bracket closes nothing"),
        ("A set compared with a number", [(D, "(is_empty left)", "(= left 0)")], "A set is wanted here, and `0` is a number"),
        ("A set's braces", [(D, "(is_empty left)", "(= left {})")], "`{}` is no name in force"),
        ("Operands in the wrong order", [(D, "(remove c left)", "(remove left c)")], "A number is wanted here, and `left` is a set variable"),
        ("A condition where a number is wanted", [(D, "(- stock (demand c))", "(< stock (demand c))")], "A number is wanted here, and `(< ..)` is a condition"),
        ("Too few operands", [(D, "(+ cost (way at c))", "(+ cost (way c))")], "The table `way` takes 2 arguments, and 1 stands here"),
        ("One operand for `and`", [(D, "(!= at 0)", "(and (!= at 0))")], "`and` takes 2 or more operands"),
        ("Two conditions in one", [(D, "(!= at 0)", "(!= at 0) (< stock hold)")], "The expression has ended before this"),
        ("A number that is not whole", [(D, "(<= (demand c) stock)", "(<= (demand c) 4.5)")], "`4.5` is no whole number"),
        ("The cost without `cost`", [(D, "cost: (+ cost (way at c))", "cost: (way at c)")], "47 CostForm"),
        ("A cost that is taken away", [(D, "cost: (+ cost (way at c))", "cost: (- cost (way at c))")], "47 CostForm"),
        ("`cost` in a condition", [(D, "(<= (demand c) stock)", "(<= cost 30)")], "only a transition's `cost:` may name it"),
        ("Two operators of costs", [(D, "cost: (+ cost (way at 0))", "cost: (max cost (way at 0))")], "all transitions of a model join by one operator"),
        ("A table of two arguments summed over one set", [(D, "base_cases:\n", "dual_bounds:\n  - (sum way left)\nbase_cases:\n")], "The table `way` takes 2 arguments, and 1 stands here"),
    ]),
    ("The text", [
        ("A tab as indent", [(D, "    type: set\n", "\ttype: set\n")], "11 TabIndent"),
        ("Lines that end with a carriage return alone", RETURNS, "its lines end with a carriage return alone"),
        ("No blank behind a colon", [(D, "  - name: serve\n", "  - name:serve\n")], "14 Unread"),
        ("An indent that is not that of its neighbours", [(D, "    preconditions:\n      - (!= at 0)\n", "   preconditions:\n      - (!= at 0)\n")], "14 Unread"),
        ("A quote that is not closed", [(P, "problem: four customers", "problem: 'four customers")], "13 BadQuote"),
        ("A scalar that begins with `!`", [(D, "- (!= at 0)", "- !(= at 0)")], "Tags are left out"),
        ("A bracket of a table that is not closed", [(P, "[4, 3]: 5,\n    }\n", "[4, 3]: 5,\n")], "A bracket or brace is not closed"),
    ]),
    ("The problem", [
        ("A variable without a value", [(P, "  stock: 5\n", "")], "gives the variable `stock` no value"),
        ("A value for what is no variable", [(P, "  stock: 5\n", "  stock: 5\n  load: 0\n")], "`load` is no variable"),
        ("Members counted from 1", [(P, "  place: 5\n", "  place: 4\n")], "`place` has 4 members, which are 0 to 3"),
        ("An object type without a number", [(P, "object_numbers:\n  place: 5\n", "")], "does not say how many members `place` has"),
        ("A set in braces", [(P, "left: [ 1, 2, 3, 4 ]", "left: { 1, 2, 3, 4 }")], "A list of members of `place` is wanted here"),
        ("A set without brackets", [(P, "left: [ 1, 2, 3, 4 ]", "left: 1, 2, 3, 4")], "A list of members of `place` is wanted here"),
        ("A cell's key without brackets", [(P, "[0, 1]: 5, ", "0 1: 5, ")], "a cell's key has as many numbers"),
        ("A cell twice", [(P, "[0, 2]: 4,", "[0, 1]: 4,")], "15 TwiceKey"),
        ("A number with a point", [(P, "hold: 5\n", "hold: 5.0\n")], "`5.0` is no whole number"),
    ]),
]
# A title, the changes, the command, a list of steps if one is replayed, and a piece of what must be told.
RUNS = [
    ("A step by another name", [], "replay", "visit 2\n", "`visit 2` names no transition"),
    ("A step in brackets", [], "replay", "serve(2)\n", "`serve(2)` names no transition; did you mean `serve`"),
    ("A step with a member that is not there", [], "replay", "serve 5\n", "71 BadArguments"),
    ("A divisor that is 0", [(P, "  hold: 5\n", ""), (D, "base_cases:\n", "dual_bounds:\n  - (/ (sum demand left) hold)\nbase_cases:\n")], "solve", None,
     "the right operand of a division is 0"),
    ("A member that is not there", [(D, "(<= (demand c) stock)", "(<= (demand (+ c 1)) stock)")], "solve", None, "Here 5 is to be a member of `place`"),
]

# What no text shows. A title, the folder of the model, the changes, and the tools that find it, each with a piece of what must be told.
BOUND = (
    "dual_bounds:\n"
    "  # Each customer is entered once, and the depot at last and for each load of what is demanded beyond the stock.\n"
    "  - (+ (sum entry left)\n"
    "       (* (entry 0)\n"
    "          (+ 1 (/ (+ (max 0 (- (sum demand left) stock)) (- hold 1)) hold))))\n"
)
UNBOUND = ("In the domain `dual_bounds:` is left out, with all below it.", lambda texts: {**texts, D: texts[D].replace(BOUND, "")})
IDLE = "  - name: wait\n    effects: { at: at }\n    cost: "
SILENT = [
    ("A preference of less where less is not as good", "lot_sizing", [(D, "stock, type: integer }", "stock, type: integer, preference: less }")],
     [("honest", "a preference is not honest")]),
    ("A preference of more where more costs more", "lot_sizing", [(D, "stock, type: integer }", "stock, type: integer, preference: greater }")],
     [("honest", "a preference is not honest")]),
    ("A preference the wrong way round", "deliveries", [(D, "preference: greater", "preference: less")], [("honest", "a preference is not honest")]),
    ("A preference of a place", "deliveries", [(D, "at, type: element, object: place }", "at, type: element, object: place, preference: less }")],
     [("honest", "a preference is not honest")]),
    ("A bound that is twice too great", "deliveries", [(D, "dual_bounds:\n", "dual_bounds:\n  - (* 2 (sum entry left))\n")], [("honest", "bound 1 is not honest")]),
    ("A way of negative cost under a bound", "deliveries", [(P, "[0, 1]: 5", "[0, 1]: -5")], [("honest", "bound 1 is not honest")]),
    ("A cost that falls under a bound", "deliveries", [(D, "(+ cost (way at 0))", "(+ cost (- (way at 0) 20))")], [("honest", "bound 1 is not honest")]),
    ("A transition without its cost", "deliveries", [(D, "    cost: (+ cost (way at 0))\n", "")],
     [("honest", "bound 1 is not honest"), ("lint_model", "`load` has no cost")]),
    ("A cell that is forgotten", "deliveries", [(P, " [0, 2]: 4,", "")],
     [("honest", "bound 1 is not honest"), ("lint_model", "1 of 20 cells of `way` beside the diagonal is left at the default")]),
    ("The greatest cost for the least", "deliveries", [(D, "reduce: min", "reduce: max")],
     [("honest", "bound 1 is not honest"), ("lint_model", "a bound is from above under `reduce: max`")]),
    ("A round of negative cost", "deliveries", [(D, "base_cases:\n", f"{IDLE}(+ cost -1)\nbase_cases:\n")],
     [("honest", "a round leads to the same state at a better cost")]),
    ("A transition without effects", "deliveries", [(D, "    effects:\n      at: 0\n      stock: hold\n", "")], [("lint_model", "`load` has no effects")]),
    ("A step that changes nothing", "deliveries", [(D, "base_cases:\n", f"{IDLE}cost\nbase_cases:\n")], [("lint_model", "a state comes again by wait")]),
    ("A member twice in a set", "deliveries", [(P, "[ 1, 2, 3, 4 ]", "[ 1, 2, 2, 4 ]")], [("lint_model", "the set `left` has 2 twice")]),
    ("The problem of another domain", "deliveries", [(P, "domain: deliveries", "domain: tours")], [("lint_model", "this is a problem of `tours`")]),
    ("A place that is taken for a number", "deliveries", [(D, "stock: hold", "stock: at")], [("lint_model", "the integer variable `stock` becomes `at`")]),
    ("No dual bound, where 0 is one", "deliveries", UNBOUND, [("lint_model", "no step makes a plan better, so `dual_bounds: [ 0 ]` is one")]),
    ("A place too many", "deliveries", [(P, "place: 5", "place: 6")], [("lint_model", "cells of `way` beside the diagonal are left at the default")]),
]
