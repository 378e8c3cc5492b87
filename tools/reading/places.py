"""A text that is refused, and where."""

NAMES = {
    10: "NotUtf8", 11: "TabIndent", 13: "BadQuote", 14: "Unread", 15: "TwiceKey", 16: "TooDeep", 17: "OutOfProfile",
    20: "BadToken", 21: "Unbalanced", 22: "Empty", 23: "Rest", 24: "TooNested", 30: "UnknownName", 31: "WrongKind",
    32: "WrongCount", 33: "CostPlace", 34: "Continuous", 35: "TooMany", 40: "MissingKey", 41: "UnknownKey", 42: "BadNumber",
    43: "TwiceName", 44: "BadIndex", 45: "BadTarget", 46: "MixedCost", 47: "CostForm", 48: "NoBase", 49: "TooMany",
    50: "WrongShape", 51: "BadName", 52: "LeftOut", 70: "UnknownStep", 71: "BadArguments", 72: "BadCertificate",
}


class Refused(Exception):
    """The first refusal of a text. `why` says in a sentence what the number leaves open."""

    def __init__(self, number, line, column, offset=None, why=None):
        super().__init__(number, line, column, offset)
        self.number, self.line, self.column, self.offset, self.why = number, line, column, offset, why
        self.file = None  # "domain", "problem" or "list", once it is known

    def of(self, file):
        if self.file is None:
            self.file = file
        return self

    def title(self):
        return NAMES[self.number]

    def line_printed(self):
        """The line that the solver prints for it."""
        place = f"{self.file}:{self.line}:{self.column}"
        if self.offset is not None:
            place += f"+{self.offset}"
        return f"refused {place} {self.number} {NAMES[self.number]}"
