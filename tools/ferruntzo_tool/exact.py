"""Chebyshev series with exact whole coefficients over a common denominator."""

from collections import namedtuple
from math import gcd

from .arithmetic import near, products, up

# The series Σ row[k]·T_k / scale.
Series = namedtuple('Series', 'row scale')


def times_linear(row, a, b):
    """(a·s + b) times a series, twice over: 2·(a·s + b)·Σ row[k]·T_k."""
    made = [2 * b * c for c in row] + [0]
    for k, c in enumerate(row):
        if k == 0:
            made[1] += 2 * a * c
        else:
            made[k + 1] += a * c
            made[k - 1] += a * c
    return made


def restricted(series, a, b, d):
    """The series at (a·s + b)/d as a series in s, exactly (Clenshaw's rule over a common power of d)."""
    row, degree = series.row, len(series.row) - 1
    if (a, b) == (d, 0):
        return series
    one, two, power = [0], [0], 1
    for k in range(degree, 0, -1):
        made = times_linear(one, a, b)
        for i, c in enumerate(two):
            made[i] -= d * d * c
        made[0] += row[k] * power
        one, two, power = made, one, power * d
    # The last step has no factor 2: everything is doubled, and so is the scale.
    made = times_linear(one, a, b)
    for i, c in enumerate(two):
        made[i] -= 2 * d * d * c
    made[0] += 2 * row[0] * power
    return Series(made[:degree + 1], 2 * series.scale * power)


def derivative(series, numerator=1, denominator=1):
    """The derivative times numerator/denominator; whole coefficients stay whole."""
    row, degree = series.row, len(series.row) - 1
    made = [0] * (degree + 2)
    for k in range(degree - 1, -1, -1):
        made[k] = made[k + 2] + 2 * (k + 1) * row[k + 1]
    made = made[:max(degree, 1)]
    made[0] //= 2
    return Series([c * numerator for c in made], series.scale * denominator)


def reduced(row, scale):
    """The series in lowest terms, zeros at the top left off: equal series have equal rows and scales."""
    row = list(row)
    while len(row) > 1 and row[-1] == 0:
        row.pop()
    common = gcd(scale, *row)
    return Series([c // common for c in row], scale // common)


def plus(one, two, sign=1):
    """The sum of two series, the second times sign."""
    size = max(len(one.row), len(two.row))
    first = one.row + [0] * (size - len(one.row))
    second = two.row + [0] * (size - len(two.row))
    return reduced([u * two.scale + sign * v * one.scale for u, v in zip(first, second)], one.scale * two.scale)


def times(one, two):
    """The product of two series."""
    return reduced(products(one.row, two.row), 2 * one.scale * two.scale)


def distance(one, two):
    """A whole number not below the sum of the absolute differences of the coefficients."""
    size = max(len(one.row), len(two.row))
    first = one.row + [0] * (size - len(one.row))
    second = two.row + [0] * (size - len(two.row))
    return up(sum(abs(u * two.scale - v * one.scale) for u, v in zip(first, second)),
              one.scale * two.scale)


def value(series, p, q):
    """The value at p/q as a numerator and a denominator."""
    row, degree = series.row, len(series.row) - 1
    one = two = 0
    power = 1
    for k in range(degree, 0, -1):
        one, two, power = 2 * p * one - q * q * two + row[k] * power, one, power * q
    return p * one - q * q * two + row[0] * power, series.scale * power


def nearest(series, degree):
    """The coefficients rounded to whole units, up to a degree, zeros at the top left off."""
    row = [near(c, series.scale) for c in series.row[:degree + 1]]
    while len(row) > 1 and row[-1] == 0:
        row.pop()
    return row
