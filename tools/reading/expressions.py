"""Reads prefix expressions: `read_expr` gives the forms of a text with their offsets in bytes, or its first refusal.

`Scope` types a form where a number, a set or a condition is wanted. A typed form is a `Tree`, which `values` evaluates."""

import re

from .places import Refused

LEVELS = 200
LARGEST = 2**62 - 1
WHOLE = re.compile(r"[+-]?[0-9]+\Z")
BEGINS_NUMBER = re.compile(r"[+-]?[0-9]")
CONTROL = re.compile("[\x00-\x1f\x7f-\x9f]")
TOKEN = re.compile(rb"[()|]|[^()| \t\r\n]+")
CELL = re.compile(r"(\w+)\[([^\[\]]*)\]?\Z")
DASHES = "\u2010\u2011\u2012\u2013\u2014\u2212"
BLANK = re.compile("[\u00a0\u2000-\u200b\u202f\u3000\ufeff]")

NUM_OPS = {"+": None, "*": None, "max": None, "min": None, "-": 2, "/": 2, "%": 2, "if": 3, "sum": None}
SET_OPS = {"union": None, "intersection": None, "difference": 2, "~": 1, "add": 2, "remove": 2, "if": 3}
COND_OPS = {
    "=": 2, "!=": 2, "<": 2, "<=": 2, ">": 2, ">=": 2, "and": None, "or": None, "not": 1, "is_in": 2, "is_subset": 2,
    "is_empty": 1, "if": 3,
}
OPERATORS = {**NUM_OPS, **SET_OPS, **COND_OPS}
CONTINUOUS = ("ceil", "floor", "round", "trunc", "sqrt", "log", "pow")
RESERVED = {*OPERATORS, *CONTINUOUS, "cost", "true", "false"}
KINDS = {"num": "a number", "set": "a set", "cond": "a condition"}
# How other languages call some operators.
ELSEWHERE = {
    "in": "is_in", "member": "is_in", "contains": "is_in", "subset": "is_subset", "empty": "is_empty", "<>": "!=", "/=": "!=", "==": "=", "&&": "and",
    "&": "and", "!": "not", "=<": "<=", "=>": ">=", "mod": "%", "rem": "%", "div": "/", "\u00d7": "*", "\u2264": "<=",
    "\u2265": ">=", "\u2260": "!=", "len": "|S|", "size": "|S|", "card": "|S|", "setminus": "difference", "minus": "difference", "intersect": "intersection",
}


class Expr:
    """A word, a list or a form between bars, with the offsets of its beginning and its end."""

    __slots__ = ("end", "kind", "offset", "parts", "word")

    def __init__(self, kind, offset, end=None, word=None):
        self.kind, self.offset, self.end, self.word, self.parts = kind, offset, end, word, []


class Parser:
    def __init__(self, raw):
        self.tokens = [(m.start(), m.group()) for m in TOKEN.finditer(raw)]
        self.at, self.opened = 0, []

    def refuse(self, number, offset, why=None):
        raise Refused(number, 0, 0, offset, why)

    def peek(self):
        """The next token; at the text's end a form that is open is refused."""
        if self.at == len(self.tokens):
            self.refuse(21, self.opened[0], "the bracket or bar that opens here is not closed")
        return self.tokens[self.at]

    def word(self, offset, token):
        text = token.decode("utf-8")
        if CONTROL.search(text):
            self.refuse(20, offset, "the word has a control character")
        self.at += 1
        return Expr("word", offset, offset + len(token), text)

    def expr(self, depth):
        offset, token = self.peek()
        if token == b")":
            self.refuse(21, offset, "this bracket closes nothing")
        if token not in (b"(", b"|"):
            if depth > LEVELS:
                self.test_word(offset, token)
                self.refuse(24, offset)
            return self.word(offset, token)
        if depth > LEVELS:
            self.refuse(24, offset)
        self.at += 1
        self.opened.append(offset)
        form = self.bars(offset, depth) if token == b"|" else self.list(offset, depth)
        self.opened.pop()
        return form

    def test_word(self, offset, token):
        if token not in (b"(", b")", b"|") and CONTROL.search(token.decode("utf-8")):
            self.refuse(20, offset, "the word has a control character")

    def list(self, offset, depth):
        form = Expr("list", offset)
        while True:
            at, token = self.peek()
            if token == b")":
                if not form.parts:
                    self.refuse(22, offset, "nothing stands between the brackets")
                self.at += 1
                form.end = at + 1
                return form
            head = not form.parts and token not in (b"(", b"|")
            form.parts.append(self.word(at, token) if head else self.expr(depth + 1))

    def bars(self, offset, depth):
        form = Expr("bars", offset)
        at, token = self.peek()
        if token == b"|":
            self.refuse(22, offset, "nothing stands between the bars")
        form.parts.append(self.expr(depth + 1))
        at, token = self.peek()
        if token == b")":
            self.refuse(21, at, "this bracket closes nothing: a bar is open")
        self.test_word(at, token)
        if token != b"|":
            self.refuse(23, at, "a closing bar is wanted here: one expression stands between bars")
        self.at += 1
        form.end = at + 1
        return form

    def whole(self):
        if not self.tokens:
            self.refuse(22, 0, "an expression is wanted, and there is none")
        form = self.expr(1)
        if self.at < len(self.tokens):
            offset, token = self.tokens[self.at]
            if token == b")":
                self.refuse(21, offset, "this bracket closes nothing")
            self.test_word(offset, token)
            word = token.decode("utf-8")
            front = f": an operator stands in front of its operands, as ({word} A B)" if word in OPERATORS else ""
            self.refuse(23, offset, f"the expression has ended before this{front}")
        return form


def read_expr(raw):
    return Parser(raw).whole()


class Tree:
    """A typed form: what it does, its operands, and the form of the text that it stands for."""

    __slots__ = ("form", "of", "op", "parts")

    def __init__(self, op, parts, form, of=None):
        self.op, self.parts, self.form, self.of = op, parts, form, of


def near(word, known):
    """A hint at the nearest known word."""
    from difflib import get_close_matches

    close = get_close_matches(word, known, 1, 0.6)
    return f"; did you mean `{close[0]}`?" if close else "."


def blank_in(word):
    """A hint at a character that is no blank."""
    return " There is a character in it that looks like a blank and is none: write a plain blank." if BLANK.search(word) else ""


def listed(words):
    words = list(words)
    return ", ".join(words[:12]) + (", .." if len(words) > 12 else "") if words else "none"


class Scope:
    """The names in force: variables, tables, and parameters, of which the innermost counts."""

    def __init__(self, variables, tables, objects):
        self.variables = {v.name: v for v in variables}
        self.tables = {t.name: t for t in tables}
        self.objects = objects
        self.params = []

    def refuse(self, number, form, why=None):
        raise Refused(number, 0, 0, form.offset, why)

    def param(self, name):
        return next((k for k in range(len(self.params) - 1, -1, -1) if self.params[k] == name), None)

    def known(self):
        return [*self.params, *self.variables, *self.tables]

    def unknown(self, form, word, head=False):
        if word in OPERATORS:
            why = f"`{word}` is an operator, which stands at the head of a list"
        elif head and word in self.variables:
            why = f"`{word}` is a variable, and only operators and tables stand at the head of a list"
        elif head:
            close = f"; did you mean `{ELSEWHERE[word]}`?" if word in ELSEWHERE else near(word, [*OPERATORS, *self.tables])
            close = "; it is a dash, and the minus sign is the short `-` of the keyboard." if word in DASHES else close
            why = f"`{word}` is no operator and no table{close} The tables here: {listed(self.tables)}"
        elif any(word == o.name for o in self.objects):
            why = f"`{word}` is an object type, and no value. Known here: {listed(self.known())}"
        else:
            cell = CELL.match(word)
            close = f"; a cell is written ({' '.join([cell.group(1), *cell.group(2).split(',')])})." if cell and cell.group(1) in self.tables else near(word, self.known())
            why = f"`{word}` is no name in force{close}{blank_in(word)} Known here: {listed(self.known())}"
        return self.refuse(30, form, why)

    def wrong(self, form, wanted, found):
        self.refuse(31, form, f"{KINDS[wanted]} is wanted here, and {found}")

    # ---- words

    def said_of(self, word):
        """What a known word is, in words; None where it is unknown."""
        if self.param(word) is not None:
            return f"`{word}` is a parameter, which is a number"
        if word in self.variables:
            v = self.variables[word]
            return f"`{word}` is a set variable" if v.kind == "set" else f"`{word}` is a variable that holds a number"
        if word in self.tables:
            t = self.tables[word]
            kind = {"num": "numbers", "set": "sets", "cond": "truth values"}[t.kind]
            return f"`{word}` is a table of {kind}"
        if word in ("true", "false"):
            return f"`{word}` is a condition"
        return None

    def word(self, form, wanted, of):
        """The tree of a word in a place of some kind; of a set also its object type."""
        word = form.word
        if word == "cost":
            self.refuse(33, form, "`cost` stands for the cost so far, and only a transition's `cost:` may name it")
        if BEGINS_NUMBER.match(word):
            if not WHOLE.match(word):
                self.refuse(34, form, f"`{word}` is no whole number")
            if wanted != "num":
                self.wrong(form, wanted, f"`{word}` is a number")
            if abs(int(word)) > LARGEST:
                self.refuse(42, form, f"numbers go up to {LARGEST}")
            return Tree("fixed", [int(word)], form)
        place = self.param(word)
        if place is not None:
            if wanted != "num":
                self.wrong(form, wanted, self.said_of(word))
            return Tree("param", [place, word], form)
        if word in self.variables:
            v = self.variables[word]
            if wanted == "cond" or (wanted == "set") != (v.kind == "set"):
                self.wrong(form, wanted, self.said_of(word))
            self.test_object(form, wanted, of, v.of)
            return Tree("var", [v.place, word], form, v.of)
        if word in self.tables:
            t = self.tables[word]
            if t.kind != wanted:
                self.wrong(form, wanted, self.said_of(word))
            self.test_object(form, wanted, of, t.of)
            if t.args:
                self.refuse(32, form, f"the table `{word}` takes {len(t.args)} argument{'s' * (len(t.args) > 1)}, as in ({word} ..), and none stands here")
            return Tree("cell", [t, []], form, t.of)
        if word in ("true", "false"):
            if wanted != "cond":
                self.wrong(form, wanted, self.said_of(word))
            return Tree("fixed", [word == "true"], form)
        return self.unknown(form, word)

    def test_object(self, form, wanted, of, found):
        if wanted == "set" and of is not None and of != found:
            self.wrong(form, "set", f"this one is of the object type `{self.objects[found].name}` and not `{self.objects[of].name}`")

    # ---- lists

    def operands(self, form, count, least=2):
        given = len(form.parts) - 1
        if (count is None and given < least) or (count is not None and given != count):
            wanted = f"{least} or more operands" if count is None else f"{count} operand{'s' * (count > 1)}"
            called = next((a.word for a, b in zip(form.parts[1:], form.parts[2:]) if a.kind == "word" and b.kind == "list" and a.end == b.offset), None)
            hint = f"; `{called}(..)` are two operands, and the cell of a table is ({called} ..)" if called else ""
            if form.parts[0].word == "-" and given == 1:
                hint = "; the negative of n is (- 0 n)"
            hint += next((f".{blank_in(part.word)}" for part in form.parts if part.kind == "word" and blank_in(part.word)), "")
            self.refuse(32, form, f"`{form.parts[0].word}` takes {wanted}, and {given} stand{'s' * (given == 1)} here{hint}")
        return form.parts[1:]

    def head(self, form, wanted, ops):
        """The word at the head of a list, which is one of these operators or a table of the kind that is wanted."""
        if form.kind == "bars":
            self.wrong(form, wanted, "the size of a set is a number")
        if form.parts[0].kind != "word":
            self.refuse(31, form, "a list begins with an operator or a table's name")
        word = form.parts[0].word
        if word == "cost":
            self.refuse(33, form, "`cost` is no operator")
        if word in CONTINUOUS:
            self.refuse(34, form, f"`{word}` is an operator of numbers that are not whole")
        if word in ops or (word in self.tables and self.tables[word].kind == wanted):
            return word
        if word in OPERATORS:
            found = "number" if word in NUM_OPS else "set" if word in SET_OPS else "condition"
            self.wrong(form, wanted, f"`({word} ..)` is a {found}")
        if word in self.tables:
            self.wrong(form, wanted, self.said_of(word))
        return self.unknown(form, word, head=True)

    def cell(self, form, of):
        t = self.tables[form.parts[0].word]
        self.test_object(form, t.kind, of, t.of)
        given = len(form.parts) - 1
        if given != len(t.args):
            self.refuse(32, form, f"the table `{t.name}` takes {len(t.args)} argument{'s' * (len(t.args) != 1)}, and {given} stand{'s' * (given == 1)} here")
        return Tree("cell", [t, [self.num(part) for part in form.parts[1:]]], form, t.of)

    def num(self, form):
        if form.kind == "word":
            return self.word(form, "num", None)
        if form.kind == "bars":
            return Tree("size", [self.set(form.parts[0], None)], form)
        word = self.head(form, "num", NUM_OPS)
        if word not in NUM_OPS:
            return self.cell(form, None)
        if word == "sum":
            return self.sum(form)
        parts = self.operands(form, NUM_OPS[word])
        if word == "if":
            return Tree("if", [self.cond(parts[0]), self.num(parts[1]), self.num(parts[2])], form)
        return Tree(word, [self.num(part) for part in parts], form)

    def sum(self, form):
        parts = self.operands(form, None)
        first = parts[0]
        if first.kind != "word":
            self.refuse(31, first, "the name of a table of integers is wanted here")
        word = first.word
        if word == "cost":
            self.refuse(33, first)
        if BEGINS_NUMBER.match(word) and not WHOLE.match(word):
            self.refuse(34, first)
        table = self.tables.get(word) if self.param(word) is None and word not in self.variables else None
        if table is None:
            if self.said_of(word) or WHOLE.match(word):
                self.refuse(31, first, "the name of a table of integers with arguments is wanted here")
            self.unknown(first, word)
        if table.type != "integer" or not table.args:
            self.refuse(31, first, "only tables of integers with arguments are summed")
        if len(parts) - 1 != len(table.args):
            self.refuse(32, form, f"the table `{word}` takes {len(table.args)} argument{'s' * (len(table.args) > 1)}, and {len(parts) - 1} stand{'s' * (len(parts) == 2)} here")
        args = [self.set(part, of) if self.is_set(part) else self.num(part) for part, of in zip(parts[1:], table.args)]
        kinds = [self.is_set(part) for part in parts[1:]]
        return Tree("sum", [table, args, kinds], form)

    def is_set(self, form):
        """Whether an operand that may be a number or a set is a set."""
        if form.kind == "bars":
            return False
        if form.kind == "word":
            word = form.word
            if self.param(word) is not None:
                return False
            if word in self.variables:
                return self.variables[word].kind == "set"
            return word in self.tables and self.tables[word].kind == "set"
        head = form.parts[0]
        if head.kind != "word":
            return False
        if head.word == "if":
            return len(form.parts) > 2 and self.is_set(form.parts[2])
        if head.word in SET_OPS:
            return True
        return head.word in self.tables and self.tables[head.word].kind == "set"

    def set(self, form, of):
        if form.kind == "word":
            return self.word(form, "set", of)
        word = self.head(form, "set", SET_OPS)
        if word not in SET_OPS:
            return self.cell(form, of)
        parts = self.operands(form, SET_OPS[word])
        if word == "if":
            test = self.cond(parts[0])
            first = self.set(parts[1], of)
            return Tree("if", [test, first, self.set(parts[2], first.of)], form, first.of)
        if word in ("add", "remove"):
            number = self.member(word, parts)
            inner = self.set(parts[1], of)
            return Tree(word, [number, inner], form, inner.of)
        trees = []
        for part in parts:
            trees.append(self.set(part, of))
            of = trees[-1].of
        return Tree(word, trees, form, of)

    def member(self, word, parts):
        """The first operand of a form that takes a member and a set."""
        try:
            return self.num(parts[0])
        except Refused as refused:
            if refused.number == 31 and self.is_set(parts[0]) and not self.is_set(parts[1]):
                member, members = (part.word if part.kind == "word" else "(..)" for part in parts[::-1])
                refused.why = f"{refused.why}; `{word}` takes the member first: ({word} {member} {members})"
            raise

    def cond(self, form):
        if form.kind == "word":
            return self.word(form, "cond", None)
        word = self.head(form, "cond", COND_OPS)
        if word not in COND_OPS:
            return self.cell(form, None)
        parts = self.operands(form, COND_OPS[word])
        if word in ("and", "or", "not", "if"):
            return Tree(word, [self.cond(part) for part in parts], form)
        if word in ("=", "!=") and self.is_set(parts[0]) or word == "is_subset":
            first = self.set(parts[0], None)
            return Tree(word, [first, self.set(parts[1], first.of)], form)
        if word == "is_in":
            return Tree(word, [self.member(word, parts), self.set(parts[1], None)], form)
        if word == "is_empty":
            return Tree(word, [self.set(parts[0], None)], form)
        return Tree(word, [self.num(part) for part in parts], form)

    def cost(self, form):
        """None for a bare `cost`, else the operator and the weight."""
        if form.kind == "word" and form.word == "cost":
            return None
        parts = form.parts
        if form.kind == "list" and len(parts) == 3 and parts[0].kind == "word" and parts[0].word in ("+", "max", "min"):
            costs = [part.kind == "word" and part.word == "cost" for part in parts[1:]]
            if sum(costs) == 1:
                return parts[0].word, self.num(parts[1] if costs[1] else parts[2])
        raise Refused(47, 0, 0, 0, "a cost is `cost`, or `(+ cost E)`, `(max cost E)` or `(min cost E)` with a number E without `cost` in it")
