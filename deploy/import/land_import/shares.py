"""Shares: fractions as the register reads them (docs/FRACTIONS.md), in exact arithmetic."""
import re
from fractions import Fraction
from math import lcm

FINEST = 1_000_000_000
TEXT = re.compile(r"[0-9]{1,18}/[0-9]{1,18}")
DECIMAL = re.compile(r"([0-9]{1,18})(?:[.,]([0-9]{1,9}))?\s*(%?)")


def convert(text):
    """Returns the share to send. Converts 1, 0.25, 25 % and 1 / 4; returns any other text unchanged."""
    text = text.strip()
    joined = re.sub(r"\s*/\s*", "/", text)
    if TEXT.fullmatch(joined):
        return joined
    found = DECIMAL.fullmatch(text)
    if not found:
        return text
    value = Fraction(int(found[1] + (found[2] or "")), 10 ** len(found[2] or "")) / (100 if found[3] else 1)
    return f"{value.numerator}/{value.denominator}"


def fault_of(text):
    """Returns the fault of a share, or None: 132 for its text, 101 to 103 for its value."""
    if not TEXT.fullmatch(text):
        return 132
    over, under = (int(part) for part in text.split("/"))
    if over == 0 or under == 0:
        return 101
    value = Fraction(over, under)
    if value > 1:
        return 102
    return 103 if value.denominator > FINEST else None


def refusals_of(texts):
    """Returns the refusals of a list of valid shares that must sum to one: 207 (too fine) or 213 (the sum is not one), or neither."""
    values = [Fraction(text) for text in texts]
    if lcm(1, *(value.denominator for value in values)) > FINEST:
        return {207}
    return set() if sum(values) == 1 else {213}


def lowest_terms(text):
    """Returns a valid share as the register prints it."""
    value = Fraction(text)
    return f"{value.numerator}/{value.denominator}"
