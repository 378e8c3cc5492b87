"""Instances as they are published: their words with their places, in order; and what the problems written from them share."""

import math
import os
import re
from fractions import Fraction

from . import shell

NUMBER = re.compile(r"[+-]?(\d+(\.\d*)?|\.\d+)([eE][+-]?\d{1,3})?\Z", re.ASCII)
MOST_DIGITS, MOST_WHOLE, MOST_MEMBERS = 60, 10**9, 4096


class Wrong(shell.Stop):
    """An instance that is not right, with its place."""


class Word(str):
    """A word of a text, with the line and column where it stands, both from 1."""

    __slots__ = ("column", "line")

    def __new__(cls, text, line, column):
        found = super().__new__(cls, text)
        found.line, found.column = line, column
        return found


class Row(list):
    """The words of a line, with its number."""

    def __init__(self, words, line):
        super().__init__(words)
        self.line = line

    def after(self):
        """The place behind its last word."""
        return Word("", self.line, self[-1].column + len(self[-1].encode()) if self else 1)


def listed(numbers):
    return "{ " + ", ".join(f"{k}: {n}" for k, n in enumerate(numbers)) + " }"


def squared(rows):
    return "{\n" + "".join("    " + ", ".join(f"[{i}, {j}]: {n}" for j, n in enumerate(row)) + ",\n" for i, row in enumerate(rows)) + "  }"


def members(numbers):
    return f"[ {', '.join(map(str, numbers))} ]".replace("[  ]", "[ ]")


def words_of(row, line):
    """The words of a line that blanks part."""
    found, column, end = [], 1, 0
    for match in re.finditer(r"\S+", row):
        column += len(row[end : match.start()].encode())
        found.append(Word(match[0], line, column))
        column, end = column + len(match[0].encode()), match.end()
    return Row(found, line)


class Instance:
    """The words of a text, in order. `path` names it in errors."""

    is_table = False

    def __init__(self, data, scale, path="-"):
        self.path, self.scale, self.at = path, scale, 0
        try:
            self.text = data.decode("utf-8-sig")
        except UnicodeDecodeError as error:
            line = data.count(b"\n", 0, error.start) + 1
            self.wrong("it is no text: here is a byte that UTF-8 has not", Word("", line, error.start - data.rfind(b"\n", 0, error.start)))
        lines = [words_of(row, number) for number, row in enumerate(self.text.replace("\r\n", "\n").replace("\r", "\n").split("\n"), 1) if not row.lstrip().startswith("#")]
        self.rows = [row for row in lines if row]
        self.words = [word for row in self.rows for word in row]

    def wrong(self, what, at=None):
        """Ends with what is wrong, at the place of a word; at the first one where none is given."""
        if at is None:
            at = self.words[0] if getattr(self, "words", None) else Word("", 1, 1)
        raise Wrong(f"{self.path}:{at.line}:{at.column}: {what}")

    def last(self):
        """The place where the text ends."""
        return self.rows[-1].after() if self.rows else Word("", 1, 1)

    def number(self, word):
        """A number, as an exact fraction."""
        if not NUMBER.match(word) or len(word) > MOST_DIGITS:
            self.wrong(f"`{shortened(word)}` is no number", word)
        value = Fraction(word)
        if abs(value) * self.scale >= 2**53:
            self.wrong(f"{shortened(word)} is too great", word)
        return value

    def is_number(self, word):
        return bool(NUMBER.match(word)) and len(word) <= MOST_DIGITS

    def whole(self, word):
        """A number that is scaled, and rounded down."""
        return math.floor(self.number(word) * self.scale)

    def real(self, word):
        """A coordinate."""
        return float(self.number(word))

    def whole_number(self, word, least=0, most=MOST_WHOLE):
        """A number that is not scaled."""
        if not self.is_number(word) or Fraction(word).denominator != 1 or not least <= Fraction(word) <= most:
            self.wrong(f"`{shortened(word)}` is no whole number from {least} to {most}", word)
        return int(Fraction(word))

    def next(self, scaled=False, least=0, most=MOST_WHOLE):
        if self.at == len(self.words):
            self.wrong("it ends too early: a number is wanted here", self.last())
        word = self.words[self.at]
        self.at += 1
        return self.whole(word) if scaled else self.whole_number(word, least, most)

    def row(self, count, scaled=False, least=0, most=MOST_WHOLE):
        return [self.next(scaled, least, most) for _ in range(count)]

    def before(self):
        """The word that was read last."""
        return self.words[self.at - 1]

    def pass_name(self):
        """Passes over a first line that is a name, as some files have it."""
        if not NUMBER.match(self.words[0]):
            self.at = len(self.rows[0])

    def end(self):
        if self.at != len(self.words):
            self.wrong(f"something stands behind its end: `{shortened(self.words[self.at])}`", self.words[self.at])

    def rows_of(self, count):
        """The rows of so many numbers."""
        return [row for row in self.rows if len(row) == count and all(map(self.is_number, row))]

    def customers(self):
        """The rows of seven numbers: number, x, y, demand, ready, due, service; a row with 999 ends them."""
        ends = next((k for k, row in enumerate(self.rows) if row[0] == "999" and k), len(self.rows))
        rows = [row for row in self.rows[:ends] if len(row) == 7 and all(map(self.is_number, row))]
        if len(rows) < 2:
            self.wrong("there is no table of customers with seven columns: number, x, y, demand, ready, due, service")
        return self.at_most(MOST_MEMBERS, rows)

    def at_most(self, most, rows):
        """The rows, where they are not too many."""
        if len(rows) > most:
            self.wrong(f"more than {most} rows are too many here", rows[most][0])
        return rows

    def ways(self, rows, with_service):
        """The distances between customers, rounded down, each with the service at its beginning where that is wanted."""
        points = [(self.real(row[1]), self.real(row[2]), self.number(row[6])) for row in rows]

        def way(a, b):
            return math.floor(self.scale * math.hypot(a[0] - b[0], a[1] - b[1])) + (math.floor(self.scale * a[2]) if with_service else 0)

        return [[0 if i == j else way(a, b) for j, b in enumerate(points)] for i, a in enumerate(points)]


def shortened(word):
    return word if len(word) <= 40 else word[:40] + ".."


def stem_of(path):
    return os.path.splitext(os.path.basename(path))[0]
