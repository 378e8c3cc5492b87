"""Cases of texts and words that mean no good, with answers by hand: each limit of the language, at it and one above it; texts that are
refused byte for byte; and each way to misuse the command line. The answers of the cuts are model_reading.py's.

A case is its title and its entries: a text, `many` (copies of a piece that fill it when the case runs), or a run."""

import made_texts
import model_reading
from case_lines import block, entry
from small_runs import CLIMB, FORCED, JUMP_OUT, JUMP_STOPPED, TOUR, TOUR_OF_FOUR, USAGE, problem, told, with_line

MOST_BYTES = 16_777_216
SOLVE = "solve d p --prune off"


MOST_WRITTEN = 4_096


class Case:
    """A case: its entries, what it must print, and the texts as they stand. A short text is written as it is when it is full."""

    def __init__(self, title):
        self.title = title
        self.entries, self.wanted = [["case", title]], [f"== {title}\n"]
        self.texts, self.standing = {"domain": b"", "problem": b"", "list": b""}, {}

    def is_made(self):
        """Whether it has texts that are made when it runs."""
        return any(key in ("many", "cuts") for key, _ in self.entries)

    def written(self):
        """Its lines: a text that ends with a line feed has a line for each of its own."""
        for key, text in self.entries:
            if key in self.texts and text.endswith(b"\n"):
                yield block(key, text.decode("utf-8", "surrogateescape"))
            else:
                yield entry(key, text)

    def text(self, key, text):
        self.texts[key] = text.encode("utf-8", "surrogateescape")
        self.standing[key] = [key, self.texts[key]]
        self.entries.append(self.standing[key])
        return self

    def many(self, key, count, piece):
        self.texts[key] = made_texts.filled(self.texts[key], count, piece.encode())
        if len(self.texts[key]) <= MOST_WRITTEN:
            self.standing[key][1] = self.texts[key]
        else:
            self.entries.append(["many", f"{key} {count} {piece}"])
        return self

    def run(self, words, output, status):
        self.entries.append(["run", words])
        self.wanted.append(f"-- {words}\n{output}status {status}\n")
        return self

    def last(self, words, line, status):
        self.entries.append(["last", words])
        self.wanted.append(f"-- {words}\n..\n{line}\nstatus {status}\n")
        return self

    def refused(self, refusal):
        return self.run(SOLVE, f"refused {refusal}\n", 3)

    def cuts(self, words):
        """Runs over both texts, each cut at each of its bytes, with counts of how they end."""
        tally = made_texts.Tally()
        for domain, problem_text in made_texts.cuts(self.texts["domain"], self.texts["problem"]):
            tally.add(*model_reading.run(words, domain, problem_text))
        self.entries.append(["cuts", words])
        self.wanted.append(f"-- {words}, each text cut at each byte\n{tally.text()}")
        return self


# ---- texts that are refused, byte for byte: what is wrong, the domain, and the refusal

JUMPED_ONCE = told("solution 5 1", "jump", "pass 1 share 1 visited 1 dropped 0", "verdict optimal 5")
FROM_0 = problem("a", "x", 0)


def climbs():
    texts = [
        ("a quote without an end", 'domain: "a', "domain:1:9 13 BadQuote"),
        ("an anchor", "domain: &n a", "domain:1:9 17 OutOfProfile"),
        ("a pair in a list", "domain: [ a, b: c ]", "domain:1:14 17 OutOfProfile"),
        ("65 lists and no more", 65 * "[", "domain:1:65 16 TooDeep"),
        ("four bytes", "dom\udcff", "domain:1:4 10 NotUtf8"),
        ("one key", "domain: a", "domain:1:1 40 MissingKey"),
        ("an unknown key", with_line(20, "solver: x"), "domain:20:1 41 UnknownKey"),
        ("another operator", with_line(17, "    cost: (max cost 5)"), "domain:17:11 46 MixedCost"),
        ("an operator that no cost has", with_line(11, "    cost: (* cost 2)"), "domain:11:11+0 47 CostForm"),
        ("a number out of range", with_line(10, "      x: (+ x 4611686018427387904)"), "domain:10:10+5 42 BadNumber"),
        ("a bracket without an end", with_line(10, "      x: (+ x 1"), "domain:10:10+0 21 Unbalanced"),
        ("a number with a point", with_line(8, "      - (< x 2.5)"), "domain:8:9+5 34 Continuous"),
    ]
    for title, domain, refusal in texts:
        yield Case(f"byte for byte: {title}").text("domain", domain).text("problem", FROM_0).refused(refusal)
    deep = with_line(8, "      - @true@")
    for levels in (199, 200):
        case = Case(f"byte for byte: {levels} times not").text("domain", deep).text("problem", FROM_0)
        case.many("domain", levels, "(not ").many("domain", levels, ")")
        # True 199 times denied is false: there is no step but the jump.
        yield case.run(SOLVE, JUMPED_ONCE, 0) if levels == 199 else case.refused("domain:8:9+1000 24 TooNested")
    variables = CLIMB.replace("  - name: x\n    type: integer\n", "@")
    case = Case("byte for byte: 1,025 variables").text("domain", variables).text("problem", FROM_0)
    yield case.many("domain", 1025, "  - name: x#\n    type: integer\n").refused("domain:3:3 49 TooMany")
    two = "domain: a\nproblem: one\ntarget: { x: 0, y: 1 }"
    yield Case("byte for byte: a target of two").text("domain", CLIMB).text("problem", two).refused("problem:3:17 45 BadTarget")


# ---- limits: a small model, and what is put into it

# Three steps of cost 2.
UP = """\
domain: a
state_variables: [ { name: x, type: integer }, ]
transitions: [ { name: up, effects: { x: (+ x 1) }, cost: (+ cost 2) }, ]
base_cases: [ [ (= x 3) ], ]
"""
UP_FROM_0 = """\
domain: a
problem: one
target: { x: 0 }
"""
BEST = "verdict optimal 6"


def at(text, line, piece, more=0):
    """The place of a piece in a line of a text, or of the byte so far behind its first."""
    return f"{line}:{text.splitlines()[line - 1].index(piece) + 1 + more}"


class Limit:
    """A limit: the texts, with `@` where copies go, and where it is refused with one copy more."""

    def __init__(self, title, most, refusal, domain=UP, problem=UP_FROM_0, fills=(), base=0, last=BEST):
        self.title, self.most, self.refusal = title, most, refusal
        self.domain, self.problem, self.fills, self.base, self.last = domain, problem, fills, base, last

    def case(self, count, name):
        case = Case(f"{self.title}: {name}").text("domain", self.domain).text("problem", self.problem)
        for key, piece in self.fills:
            case.many(key, count - self.base, piece)
        return case

    def cases(self):
        yield self.case(self.most, f"{self.most:,}").last(SOLVE, self.last, 0)
        yield self.case(self.most + 1, f"{self.most + 1:,}").refused(self.refusal)


def up(*parts, of=UP):
    """The small model with changes: an old text and a new one each."""
    for old, new in parts:
        assert of.count(old) == 1, old
        of = of.replace(old, new)
    return of


def listed(key, items):
    """A list of the domain as its last line."""
    return UP + f"{key}: [ {items} ]\n"


def limits():
    variables = up(("type: integer }, ]", "type: integer }, @ ]"))
    yield Limit("variables", 1024, "domain:2:18 49 TooMany", variables, up(("x: 0 }", "x: 0, @ }"), of=UP_FROM_0),
                [("domain", "{ name: v#, type: integer }, "), ("problem", "v#: 0, ")], 1)
    yield Limit("object types", 1024, "domain:5:10 49 TooMany", listed("objects", "@"), UP_FROM_0 + "object_numbers: { @ }\n",
                [("domain", "o#, "), ("problem", "o#: 1, ")])
    yield Limit("tables", 1024, "domain:5:9 49 TooMany", listed("tables", "@"), UP_FROM_0, [("domain", "{ name: t#, type: bool }, ")])
    yield Limit("dual bounds", 1024, "domain:5:14 49 TooMany", listed("dual_bounds", "@"), UP_FROM_0, [("domain", "0, ")])
    yield Limit("constraints", 65536, "domain:5:14 49 TooMany", listed("constraints", "@"), UP_FROM_0, [("domain", "true, ")])
    steps = up(("cost: (+ cost 2) }, ]", "cost: (+ cost 2) }, @ ]"))
    yield Limit("transitions", 65536, "domain:3:14 49 TooMany", steps, UP_FROM_0, [("domain", "{ name: t#, preconditions: [ false ] }, ")], 1)
    yield Limit("base cases", 65536, "domain:4:13 49 TooMany", up(("[ (= x 3) ], ]", "[ (= x 3) ], @ ]")), UP_FROM_0, [("domain", "[ false ], ")], 1)
    guarded = up(("name: up, ", "name: up, preconditions: [ @ ], "))
    yield Limit("preconditions", 256, f"domain:{at(guarded, 3, '[ @')} 49 TooMany", guarded, UP_FROM_0, [("domain", "true, ")])
    ended = up(("[ (= x 3) ]", "[ (= x 3), @ ]"))
    yield Limit("conditions of a base case", 256, "domain:4:15 49 TooMany", ended, UP_FROM_0, [("domain", "true, ")], 1)
    # what goes by object types
    two = UP + "objects: [ o ]\n"
    two_from_0 = UP_FROM_0 + "object_numbers: { o: 2 }\n"
    wide = two + "tables: [ { name: t, type: bool, args: [ @ ] } ]\n"
    yield Limit("arguments of a table", 4, f"domain:{at(wide, 6, '[ @')} 49 TooMany", wide, two_from_0, [("domain", "o, ")])
    choices = up(("name: up, ", "name: up, parameters: [ @ ], "), of=two)
    yield Limit("parameters", 4, f"domain:{at(choices, 3, '[ @')} 49 TooMany", choices, two_from_0, [("domain", "{ name: p#, object: o }, ")])
    every = two + "constraints: [ { condition: true, forall: [ @ ] } ]\n"
    yield Limit("variables of a forall", 4, f"domain:{at(every, 6, '[ @')} 49 TooMany", every, two_from_0, [("domain", "{ name: p#, object: o }, ")])


def both_files():
    """Lists that only both files together make too long, by the key, the number in the domain, the items, and the limit."""
    for key, count, piece, item in (
        ("transitions", 65535, "{ name: t#, preconditions: [ false ] }, ", "{ name: u }"),
        ("constraints", 65536, "true, ", "true"),
        ("base_cases", 65535, "[ false ], ", "[ false ]"),
        ("dual_bounds", 1024, "0, ", "0"),
    ):
        domain = UP
        for mark, line in (("transitions", "cost: (+ cost 2) }, "), ("base_cases", "[ (= x 3) ], ")):
            domain = up((line, f"{line}@ "), of=domain) if key == mark else domain
        domain = domain if "@" in domain else listed(key, "@")
        title = f"{key.replace('_', ' ')} of both files"
        case = Case(f"{title}: as many as may be in the domain").text("domain", domain).text("problem", UP_FROM_0)
        yield case.many("domain", count, piece).last(SOLVE, BEST, 0)
        case = Case(f"{title}: one more in the problem").text("domain", domain).text("problem", f"{UP_FROM_0}{key}: [ {item} ]\n")
        yield case.many("domain", count, piece).refused(f"problem:4:{len(key) + 3} 49 TooMany")


def numbers():
    """Limits on numbers that a text writes: members, ground transitions, words of tables."""
    domain = up(("type: integer }, ]", "type: integer }, { name: s, type: set, object: o } ]")) + "objects: [ o ]\n"
    for count in (4096, 4097):
        target = up(("x: 0 }", "x: 0, s: [ 4095 ] }"), of=UP_FROM_0)
        case = Case(f"members: {count:,}").text("domain", domain).text("problem", f"{target}object_numbers: {{ o: {count} }}\n")
        yield case.last(SOLVE, BEST, 0) if count == 4096 else case.refused("problem:4:22 49 TooMany")
    pairs = up(("name: up, ", "name: up, parameters: [ { name: p, object: o }, { name: q, object: o } ], preconditions: [ (= p q), (= p 0) ], "))
    for count in (256, 257):
        case = Case(f"ground transitions: {count} times {count}").text("domain", pairs + "objects: [ o ]\n")
        case.text("problem", f"{UP_FROM_0}object_numbers: {{ o: {count} }}\n")
        yield case.last(SOLVE, BEST, 0) if count == 256 else case.refused("domain:3:16 35 TooMany")
    cells = "{ name: t, type: integer, args: [ o, o, o, o ] }, "
    sets = "{ name: t, type: set, object: r, args: [ o, o, o, h ] }, "
    for title, table in (("cells of four arguments", cells), ("sets of two words", sets)):
        for more, name in (("", "16,777,216"), ("{ name: u, type: bool }, ", "one more")):
            text = UP + "objects: [ o, h, r ]\n" + f"tables: [ {table}{more}]\n"
            case = Case(f"words of tables: {title}: {name}").text("domain", text)
            case.text("problem", UP_FROM_0 + "object_numbers: { o: 64, h: 32, r: 3 }\n")
            yield case.refused("domain:6:9 49 TooMany") if more else case.last("show d p", "bounds 0", 0)


def depths():
    # the key of the innermost of 62 maps is too deep
    for count in (61, 62):
        case = Case(f"depth of a tree: a condition in {count} maps").text("domain", listed("constraints", "@true@")).text("problem", UP_FROM_0)
        case.many("domain", count, "{condition: ").many("domain", count, "}")
        yield case.last(SOLVE, BEST, 0) if count == 61 else case.refused(f"domain:5:{5 + 12 * count} 16 TooDeep")
    for count in (62, 63):
        case = Case(f"depth of a tree: a scalar in a map and {count} lists").text("domain", "domain:\n@a\n").many("domain", count, "- ")
        case.text("problem", UP_FROM_0)
        # at the limit the text is a tree, and a name has to be a scalar
        yield case.refused("domain:1:1 40 MissingKey" if count == 62 else f"domain:2:{1 + 2 * count} 16 TooDeep")
    # the expression round the forms, a form's front and its end, and how many forms stand outside
    forms = [
        ("@true@", "(not ", ")", 0), ("(= 0 @0@)", "(+ 0 ", ")", 1), ("(is_subset s @s@)", "(~ ", ")", 1), ("(= 0 @0@)", "(t ", ")", 1),
        ("(= 0 @0@)", "(if true ", " 0)", 1), ("@true@", "(or false ", ")", 0), ("(= 1 @|s|@)", "(max 1 ", ")", 1),
    ]
    for text, front, behind, outside in forms:
        most = 199 - outside - text.count("|") // 2
        for levels in (most, most + 1):
            domain = up(("type: integer }, ]", "type: integer }, { name: s, type: set, object: o } ]"))
            domain += f"objects: [ o ]\ntables: [ {{ name: t, type: element, object: o, args: [ o ] }} ]\nconstraints: [ '{text}' ]\n"
            case = Case(f"depth of an expression: {levels} times {front.rstrip()}").text("domain", domain)
            case.many("domain", levels, front).many("domain", levels, behind)
            case.text("problem", up(("x: 0 }", "x: 0, s: [] }"), of=UP_FROM_0) + "object_numbers: { o: 1 }\n")
            if levels > most:
                # the first operand of the innermost form, or what its bars stand round
                first = front.index(" ") + 1
                inmost = levels * len(front) + 1 if "|" in text else (levels - 1) * len(front) + first
                yield case.refused(f"domain:7:16+{text.index('@') + inmost} 24 TooNested")
            elif front == "(not ":
                # true that often denied is false, an odd number of times
                yield case.run(SOLVE, "verdict infeasible\n", 10)
            else:
                yield case.last(SOLVE, BEST, 0)


def levels():
    """An operator over so many operands, in an expression of one level more, is a tree of at most 1,200 levels: deeper ones want memory."""
    forms = [("(= 1199 (+@))", " 1", 1199), ("(and@)", " true", 1200), ("(is_subset (union@) s)", " s", 1199)]
    for text, piece, most in forms:
        for count in (most, most + 1):
            domain = up(("type: integer }, ]", "type: integer }, { name: s, type: set, object: o } ]"))
            domain += f"objects: [ o ]\nconstraints: [ '{text}' ]\n"
            case = Case(f"levels of a tree: {count:,} times{piece}").text("domain", domain).many("domain", count, piece)
            case.text("problem", up(("x: 0 }", "x: 0, s: [ 0 ] }"), of=UP_FROM_0) + "object_numbers: { o: 1 }\n")
            yield case.last(SOLVE, BEST, 0) if count == most else case.run(SOLVE, "memory\n", 6)


def names():
    """Names of 1, 200 and 201 bytes, and of none."""
    two = UP + "objects: [ o ]\n"
    two_from_0 = UP_FROM_0 + "object_numbers: { o: 1 }\n"
    texts = [
        ("an object type", UP + "objects: [ '@' ]\n", UP_FROM_0 + "object_numbers: { '@': 1 }\n", 5, "'@"),
        ("a variable", up(("type: integer }, ]", "type: integer }, { name: '@', type: integer } ]")), up(("x: 0 }", "x: 0, '@': 1 }"), of=UP_FROM_0), 2, "'@"),
        ("a table", UP + "tables: [ { name: '@', type: bool } ]\n", UP_FROM_0, 5, "'@"),
        ("a parameter", up(("name: up, ", "name: up, parameters: [ { name: '@', object: o } ], "), of=two), two_from_0, 3, "'@"),
        ("a variable of a forall", two + "constraints: [ { condition: true, forall: [ { name: '@', object: o } ] } ]\n", two_from_0, 6, "'@"),
        ("a transition", up(("name: up", "name: '@'")), UP_FROM_0, 3, "'@"),
    ]
    for title, domain, problem_text, line, piece in texts:
        for count in (0, 1, 200, 201):
            case = Case(f"the name of {title}: {count} bytes").text("domain", domain).text("problem", problem_text).many("domain", count, "n")
            if "@" in problem_text:
                case.many("problem", count, "n")
            yield case.last(SOLVE, BEST, 0) if count in (1, 200) else case.refused(f"domain:{at(domain, line, piece)} 51 BadName")
    # 67 characters of three bytes each
    domain = up(("name: up", "name: '@'"))
    case = Case("the name of a transition: 201 bytes in 67 characters").text("domain", domain).text("problem", UP_FROM_0)
    yield case.many("domain", 67, "\u20ac").refused("domain:3:24 51 BadName")


def sizes():
    """Files of as many bytes as may be, blank lines round a model, and of one more."""
    for key, text, over in (("domain", CLIMB, "domain"), ("problem", FROM_0, "problem")):
        for more in (0, 1):
            domain, problem_text = ("@" + CLIMB + "@", FROM_0) if key == "domain" else (CLIMB, "@" + FROM_0 + "@")
            case = Case(f"bytes of a {key}: {MOST_BYTES + more:,}").text("domain", domain).text("problem", problem_text)
            rest = MOST_BYTES - len(text) + more
            case.many(key, rest // 2, "\n").many(key, rest - rest // 2, "\n")
            assert len(case.texts[key]) == MOST_BYTES + more
            yield case.run(SOLVE, f"too long {over}\n", 7) if more else case.run(SOLVE, JUMP_OUT, 0)
    steps = "inc\ninc\ninc\n"
    for more in (0, 1):
        case = Case(f"bytes of a list: {MOST_BYTES + more:,}").text("domain", CLIMB).text("problem", FROM_0).text("list", "@" + steps)
        case.many("list", MOST_BYTES - len(steps) + more, "\n")
        yield case.run("replay d p l", "too long list\n", 7) if more else case.run("replay d p l", "verdict legal 6\n", 0)


# ---- words

ACCEPTED = [
    ("solve d p --workers 00000000000000000001", JUMP_OUT), ("solve d p --budget 00000000000000000003", JUMP_OUT),
    ("solve d p --", JUMP_OUT), ("solve -- d p", JUMP_OUT), ("solve d -- p", JUMP_OUT), ("solve --prune off -- d p", JUMP_OUT),
    ("solve --budget=3 --prune=off --workers=1 -- d p", JUMP_OUT), ("solve --workers=64 d --budget 1099511627776 p --prune=on", JUMP_OUT),
    ("solve d p --keep all", JUMP_OUT), ("solve --keep=layer -- d p", JUMP_OUT),
]
STOPPED = ["solve d p --budget 2", "solve --budget=2 -- d p", "solve d --budget 00000000000000000002 p"]
NO_FILE = [
    ("solve - p", "domain"), ("solve d -", "problem"), ("solve -- -d p", "domain"), ("solve d -- -p", "problem"), ("solve d -- --prune", "problem"),
    ("solve -- -- p", "domain"), ("solve d=1 p", "domain"), ("show -- d --workers", "problem"), ("replay d p -- -l", "list"), ("replay d p -- ", "list"),
    ("solve  ", "domain"), ("solve d /", "problem"), ("solve d p/../p", "problem"),
]
MEANINGLESS = [
    # an option twice, without a value, with an empty one, with another option behind it
    "solve d p --prune off --prune on", "solve d p --workers 1 --workers 1", "solve d p --budget=3 --budget=3", "gen path 2 0 --workers=8 --workers 8",
    "solve d p --prune", "solve d p --workers", "solve d p --budget", "solve --prune d p", "solve d p --prune=", "solve d p --workers=", "solve d p --budget=",
    "solve d p --keep", "solve d p --keep=", "solve d p --keep all --keep all", "solve d p --keep layers", "solve d p --keep All", "solve d p --prune ", "solve d p --workers ", "solve d p --workers --budget 3", "solve d p --budget --workers 3", "solve d p --prune -- off",
    # other names, other cases, other ways to write an option
    "solve d p --work 1", "solve d p --workerss 1", "solve d p --Workers 1", "solve d p --WORKERS=1", "solve d p -workers 1", "solve d p -w1", "solve d p -p off",
    "solve d p ---prune off", "solve d p --=off", "solve d p --prune:off", "solve d p --no-prune", "solve d p --prune\u00e9 off", "solve d p --workers1",
    "show d p --gap on", "solve d p --gap", "solve d p --gap maybe", "solve d p --gap on --gap on", "show d p --keep all", "gen path 2 0 --keep all", "show d p --prune off", "replay d p l --workers 1", "gen path 2 0 --budget 3",
    # other values
    "solve d p --prune OFF", "solve d p --prune On", "solve d p --prune 1", "solve d p --prune true", "solve d p --prune=off=on", "solve d p --prune \u043eff",
    "solve d p --prune off,on", "solve d p --prune='off'",
    # parts of a check
    "check d p l --part 0/3", "check d p l --part 4/3", "check d p l --part 1/5000", "check d p l --part 1/4097", "check d p l --part 1/", "check d p l --part /3",
    "check d p l --part 1", "check d p l --part", "check d p l --part=", "check d p l --part /", "check d p l --part 1/2/3", "check d p l --part 1//3",
    "check d p l --part 0/0", "check d p l --part -1/3", "check d p l --part 1/3 ", "check d p l --part 1 /3", "check d p l --part 1/18446744073709551617",
    "check d p l --part 1/3 --part 2/3", "solve d p --part 1/3", "check d p --part 1/3",
    # numbers
    "solve d p --workers -1", "solve d p --workers=-1", "solve d p --workers=+1", "solve d p --workers 1.0", "solve d p --workers 1e0", "solve d p --workers 0x1",
    "solve d p --workers 1_0", "solve d p --workers \uff11", "solve d p --workers \u0661", "solve d p --workers 1,", "solve d p --workers 65",
    "solve d p --workers 00000000000000000065", "solve d p --workers 000000000000000000001", "solve d p --workers 99999999999999999999",
    "solve d p --workers 18446744073709551617", "solve d p --budget 18446744073709551616", "solve d p --budget 99999999999999999999",
    "solve d p --budget 0", "solve d p --budget 00000000000000000000", "solve d p --budget 1099511627777", "solve d p --budget 000000000000000000001",
    "gen path 2 18446744073709551616", "gen path 2 000000000000000000000", "gen path 99999999999999999999 0", "gen path 2 -0", "gen path -2 0", "gen path +2 0",
    "gen path 2 0.0", "gen path  0", "gen path 2 ", "gen Path 2 0", "gen  2 0",
    # too many words, too few
    "solve d p l", "solve d p -- l", "solve d p -- --prune off", "solve d p ", "solve d p -- ", "solve --", "solve -- d", "show -- d", "show d p l", "show",
    "replay d p l l", "replay -- d p", "gen -- path 2", "gen path 2 0 -- 0", "gen path 2 0 1",
    # other commands
    " ", "--", "-- solve d p", "SOLVE d p", "sol d p", "solve-d p", "help", "help solve", "-h", "--help", "-V", "--version", "solve d p --help", "solve d p -h",
    "solve d p --version", "show -h", "gen --help", "replay --help d p l", "solve help", "--prune off solve d p", "--workers=1 solve d p", "check d p", "\u00a0solve d p",
    "solved d p", "\u0455olve d p",
]


def words():
    case = Case("words with a meaning").text("domain", CLIMB).text("problem", FROM_0).text("list", "inc\ninc\ninc\n")
    for text, output in ACCEPTED:
        case.run(text, output, 0)
    for text in STOPPED:
        case.run(text, JUMP_STOPPED, 11)
    for text in ("replay d p -- l", "replay -- d p l", "replay d -- p l", "replay d p l --"):
        case.run(text, "verdict legal 6\n", 0)
    for text in ("show -- d p", "show d -- p", "show d p --"):
        case.last(text, "bounds 0", 0)
    for text in ("gen path 2 0 --", "gen -- path 2 0", "gen path -- 00000000000000000002 00000000000000000000", "gen --workers=64 path 02 0"):
        case.run(text, told("gen path 2 0", "ground 2", "verdict optimal 95"), 0)
    yield case
    case = Case("words that name no file").text("domain", CLIMB).text("problem", FROM_0)
    for text, file in NO_FILE:
        case.run(text, f"read fault {file}\n", 4)
    yield case
    case = Case("words without a meaning, each way").text("domain", CLIMB).text("problem", FROM_0)
    for text in MEANINGLESS:
        case.run(text, USAGE, 2)
    yield case


def cut():
    """A tour's two files, each cut at each of its bytes."""
    case = Case("a tour cut at each byte").text("domain", TOUR).text("problem", TOUR_OF_FOUR).text("list", "")
    yield case.cuts("solve d p").cuts("show d p")


def plain():
    """The cases whose texts stand in a file as they are."""
    parts = [climbs(), (case for limit in limits() for case in limit.cases()), both_files(), numbers(), names(), sizes(), words()]
    return (case for part in parts for case in part if not case.is_made())


def made():
    """The cases whose texts are made when they run, without the deep ones."""
    parts = [climbs(), (case for limit in limits() for case in limit.cases()), both_files(), numbers(), names(), sizes(), cut()]
    return (case for part in parts for case in part if case.is_made())


def deep():
    """The deepest trees and expressions."""
    yield from depths()
    yield from levels()


def write(path, cases):
    """Writes a file of cases, and returns what they must print."""
    found = list(cases)
    with open(path, "w", encoding="ascii") as file:
        for case in found:
            file.writelines([*case.written(), "\n"])
    return "".join(line for case in found for line in case.wanted)
