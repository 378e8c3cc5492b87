"""Names as the language allows them: words for what is in expressions, any text without control characters for steps."""

from __future__ import annotations

import re
from typing import Any, Dict, Iterable, Optional, Set

RESERVED = set(
    "+ - * / % max min sum if union intersection difference ~ add remove = != < <= > >= and or not is_in is_subset is_empty cost true false "
    "ceil floor round trunc sqrt log pow".split())
WORD = re.compile(r"[^\W\d][\w.+\-*/<>=!?;^$@&~%']*\Z")  # what is plain in YAML too
CONTROL = re.compile("[\x00-\x1f\x7f-\x9f\u2028\u2029]+")
MOST_BYTES = 200


def cut(text: str, most: int) -> str:
    """The front of a text that has at most so many bytes."""
    return text.encode("utf-8", "replace")[:most].decode("utf-8", "ignore")


class Words:
    """One space of names. Each thing gets its own name where that is a word and is free, and else one that is made from it."""

    def __init__(self) -> None:
        self.taken: Set[str] = set(RESERVED)
        self.names: Dict[Any, str] = {}

    def name(self, thing: Any, wished: Optional[str], stem: str) -> str:
        if thing not in self.names:
            self.names[thing] = self.free(word(wished or "", stem))
            self.taken.add(self.names[thing])
        return self.names[thing]

    def free(self, wished: str) -> str:
        """The word itself where it is free; else with the first number behind it with which it is."""
        found, number = wished, 1
        while found in self.taken:
            number += 1
            found = f"{wished}_{number}"
        return found


def word(wished: str, stem: str) -> str:
    """A word of the language that is near to a text."""
    made = wished.encode("utf-8", "replace").decode("utf-8")
    if WORD.match(made) and len(made.encode("utf-8")) <= MOST_BYTES:
        return made
    made = re.sub(r"\W+", "_", made).strip("_")
    made = cut(f"{stem}_{made}" if made and not WORD.match(made) else made, MOST_BYTES - 12)
    return made if WORD.match(made) else stem


class Steps:
    """Names of transitions: each as it was given, without control characters, cut, and with a number where it is taken."""

    def __init__(self) -> None:
        self.taken: Set[str] = set()

    def name(self, wished: str) -> str:
        plain = CONTROL.sub(" ", wished.encode("utf-8", "replace").decode("utf-8")).strip(" ")
        plain = cut(plain, MOST_BYTES - 12).strip(" ") or "step"
        found, number = plain, 1
        while found in self.taken:
            number += 1
            found = f"{plain} #{number}"
        self.taken.add(found)
        return found

    def take(self, names: Iterable[str]) -> None:
        self.taken.update(names)


def quoted(text: str) -> str:
    """A text as a scalar in single quotes."""
    return "'" + text.replace("'", "''") + "'"
