"""Numbers as they are meant: a float is the decimal that it is written as, and stays exact."""

from __future__ import annotations

import math
import operator
from decimal import Decimal
from fractions import Fraction
from typing import Any, Union

LARGEST = 2**62 - 1  # the greatest number that the program holds; the least is its negative
LARGEST_ELEMENT = 2**32 - 1
Exact = Union[int, Fraction]


def exact(value: Any, what: str = "a number") -> Exact:
    """The number that a Python value stands for; 0.1 is one tenth.

    Raises TypeError where it is no number (a truth value is none), and ValueError for NaN and the infinite ones.
    """
    if isinstance(value, bool):
        raise TypeError(f"{what} is wanted, and {value} is a truth value")
    if isinstance(value, int):
        return value
    if isinstance(value, (Fraction, Decimal)):
        if isinstance(value, Decimal) and not value.is_finite():
            raise ValueError(f"{what} is wanted, and {value} is none")
        return whole_if(Fraction(value))
    if hasattr(value, "__index__"):
        return operator.index(value)
    if hasattr(value, "__float__") and not isinstance(value, (str, bytes)):
        number = float(value)
        if not math.isfinite(number):
            raise ValueError(f"{what} is wanted, and {number} is none")
        return whole_if(Fraction(repr(number)))
    raise TypeError(f"{what} is wanted, and {shown(value)} is none")


def whole(value: Any, what: str = "a whole number") -> int:
    """The same of a number that must be whole. Raises ValueError where it is not, or lies beyond 2^62 - 1."""
    number = exact(value, what)
    if not isinstance(number, int):
        raise ValueError(f"{what} is wanted, and {value} is not whole")
    if abs(number) > LARGEST:
        raise ValueError(f"{what} lies in -(2^62 - 1) to 2^62 - 1, and {shown(number)} does not")
    return number


def whole_if(number: Fraction) -> Exact:
    return number.numerator if number.denominator == 1 else number


def shown(value: Any) -> str:
    """A value in a message, cut where it is long."""
    text = repr(value) if not isinstance(value, int) or abs(value) < 10**30 else f"{'-' * (value < 0)}a number of {value.bit_length()} bits"
    return text if len(text) <= 80 else text[:77] + "..."
