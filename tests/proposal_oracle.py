"""The program for proposals made on the mill (document 02, S-19): Python's floats, which are binary64, in the order that the
request states, each operation a step of its own; `fractions` for values in units.

A value at the boundary is the 64 bits of its double, a whole number, so that nothing is lost in comparing: -0.0 is not +0.0.
"""

from fractions import Fraction
from functools import lru_cache
from math import isfinite
from struct import pack, unpack
from typing import NamedTuple

import oracle as o
from header import (ACCEPTED, COEFFICIENTS, GIVEN_UP, LARGE_PROPOSAL, MAX_DEGREE, MAX_WEIGHT, NOT_FINITE,
                    QUOTIENT_RECORD_SIZE, RECIPROCAL_RECORD_SIZE, S, SETTLED)
from oracle import weight

ROUNDS = 12
SMALL = 2.0 ** -24          # a change of at most this has settled
# Every pair by rising i of the first factor, then rising j; places above 32 are formed and left out.
PAIRS = [(i, j, i + j, abs(i - j)) for i in range(COEFFICIENTS) for j in range(COEFFICIENTS)]


def bits(value):
    """The 64 bits of a double."""
    return int.from_bytes(pack('<d', value), 'little')


def value_of(pattern):
    """The double with these 64 bits."""
    return unpack('<d', pattern.to_bytes(8, 'little'))[0]


# ---- Rounds -----------------------------------------------------------------------------

def product(a, b):
    row = [0.0] * (2 * COEFFICIENTS - 1)
    for i, j, place, distance in PAIRS:
        v = a[i] * b[j]
        row[place] += v
        row[distance] += v
    return [c / 2.0 for c in row[:COEFFICIENTS]]


def improved(g, w):
    """w after a round, and the change."""
    p = product(g, w)
    v = product(w, [2.0 - p[0]] + [0.0 - c for c in p[1:]])
    change = 0.0
    for after, before in zip(v, w):
        x = after - before
        x = -x if x < 0.0 else x
        change = x if change < x else change
    return v, change


class Made(NamedTuple):
    """How the rounds ended: how many there were, w, the last change, and the outcome; None if a value was not finite."""
    rounds: int
    w: list
    change: float
    outcome: int


def values(row):
    """Coefficients in units, as values: each division is exact."""
    return [n / 1048576.0 for n in row]


@lru_cache(maxsize=64)                              # a quotient, its test and the counts ask again
def made_reciprocal(row):
    """The rounds for a list of coefficients in units, the first not zero."""
    g = values(row)
    w = [1.0 / g[0]] + [0.0] * MAX_DEGREE
    for count in range(1, ROUNDS + 1):
        w, change = improved(g, w)
        if not all(map(isfinite, [*w, change])):
            return Made(count, w, change, None)
        if change <= SMALL:
            return Made(count, w, change, SETTLED)
    return Made(ROUNDS, w, change, GIVEN_UP)


# ---- Units ------------------------------------------------------------------------------

@lru_cache(maxsize=4096)                            # most values of a list are zero
def unit(value):
    """The nearest whole number to value times S, a tie to the even one, as round of a Fraction has it."""
    return round(Fraction(value) * S)


def in_units(row):
    return [unit(value) for value in row]


def candidate(row):
    return [MAX_DEGREE, *row]


NO_CANDIDATE = [0] * (1 + COEFFICIENTS)


def to_units(patterns):
    """Number, and the candidate."""
    row = [value_of(pattern) for pattern in patterns]
    if not all(map(isfinite, row)):
        return NOT_FINITE, NO_CANDIDATE
    units = in_units(row)
    return (LARGE_PROPOSAL, NO_CANDIDATE) if weight(units) > MAX_WEIGHT else (ACCEPTED, candidate(units))


# ---- Makers -----------------------------------------------------------------------------

def refused_reciprocal(number):
    return number, [0] * RECIPROCAL_RECORD_SIZE, NO_CANDIDATE, [GIVEN_UP]


def make_reciprocal(g):
    """Number, record, w in units, outcome, which is a list of one number."""
    if number := o.first_fault((g,)):
        return refused_reciprocal(number)
    made = made_reciprocal(g.coefficients) if g.coefficients[0] else None
    if made is None or made.outcome is None:
        return refused_reciprocal(NOT_FINITE)
    units = in_units(made.w)
    if weight(units) > MAX_WEIGHT:
        return refused_reciprocal(LARGE_PROPOSAL)
    return ACCEPTED, [bits(x) for x in (*made.w, made.change)], candidate(units), [made.outcome]


def refused_quotient(number):
    return number, [0] * QUOTIENT_RECORD_SIZE, NO_CANDIDATE, NO_CANDIDATE, [GIVEN_UP]


def make_quotient(f, g):
    """Number, record, h and w in units, outcome."""
    if number := o.first_fault((f, g)):
        return refused_quotient(number)
    made = made_reciprocal(g.coefficients) if g.coefficients[0] else None
    if made is None or made.outcome is None:
        return refused_quotient(NOT_FINITE)
    row = product(values(f.coefficients), made.w)
    if not all(map(isfinite, row)):
        return refused_quotient(NOT_FINITE)
    lists = in_units(row), in_units(made.w)
    if any(weight(units) > MAX_WEIGHT for units in lists):
        return refused_quotient(LARGE_PROPOSAL)
    return ACCEPTED, [bits(x) for x in (*row, *made.w, made.change)], *map(candidate, lists), [made.outcome]
