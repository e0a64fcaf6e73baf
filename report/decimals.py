"""Fractions as decimals, by whole numbers alone: each printed figure is the nearest one, or is rounded so that a bound stays true."""
from fractions import Fraction
from math import isqrt

NEAREST, DOWN, UP = "nearest", "down", "up"


def whole(value, way):
    """A fraction as a whole number; the nearest has halves to even."""
    if way == DOWN:
        return value.numerator // value.denominator
    if way == UP:
        return -(-value.numerator // value.denominator)
    return round(value)


def whole_root(value, way):
    """The root of a fraction that is not below 0, as a whole number."""
    below = isqrt(value.numerator // value.denominator)
    if way == DOWN:
        return below
    if way == UP:
        return below if below * below == value else below + 1
    return below if value <= Fraction(2 * below + 1, 2) ** 2 else below + 1


def placed(units, places, sign=False):
    """A whole number of the last decimal place, with a point; `sign` puts + before one above 0."""
    text = "%0*d" % (places + 1, abs(units))
    if places:
        text = text[:-places] + "." + text[-places:]
    return ("-" if units < 0 else "+" if sign and units else "") + text


def decimal(value, places=2, way=NEAREST, sign=False):
    """A fraction with so many decimal places."""
    return placed(whole(Fraction(value) * 10 ** places, way), places, sign)


def root(value, places=2, way=NEAREST):
    """The root of a fraction with so many decimal places."""
    return placed(whole_root(Fraction(value) * 100 ** places, way), places)


def root_difference(larger, smaller, places=2):
    """The root of one fraction less that of another, rounded up; it may be a unit of the last place above that, never below."""
    if larger == smaller:
        return placed(0, places)
    fine = 10 ** 20
    above = whole_root(Fraction(larger) * fine * fine, UP) - whole_root(Fraction(smaller) * fine * fine, DOWN)
    return decimal(Fraction(above, fine), places, UP)
