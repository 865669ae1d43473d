"""Lower bounds of a polynomial on parts of -1..1: Bernstein coefficients, rounded down, and cut in halves.

A polynomial is nowhere below the least of its Bernstein coefficients. Cutting in halves forms averages only, so that
coefficients that were rounded down stay below the exact ones."""

from math import comb

from .arithmetic import weight

BITS = 120                      # a unit of the rounding is 2^-BITS of the weight

_SHIFTED = [[1], [-1, 2]]       # T_k(2t - 1) as powers of t


def shifted(k):
    while len(_SHIFTED) <= k:
        one, two = _SHIFTED[-1], _SHIFTED[-2]
        row = [-2 * c for c in one] + [0]
        for i, c in enumerate(one):
            row[i + 1] += 4 * c
        for i, c in enumerate(two):
            row[i] -= c
        _SHIFTED.append(row)
    return _SHIFTED[k]


def lower(row):
    """Bernstein coefficients on -1..1, times a positive constant and rounded down, of the series with whole coefficients."""
    degree = len(row) - 1
    powers = [0] * (degree + 1)
    for k, c in enumerate(row):
        if c:
            for i, factor in enumerate(shifted(k)):
                powers[i] += c * factor
    # As a sum of t^i·(1-t)^(n-i): times t + (1-t) for each further power.
    made = powers[:1]
    for c in powers[1:]:
        made = [made[0], *map(int.__add__, made, made[1:]), made[-1] + c]
    shift = BITS - weight(row).bit_length()
    if shift >= 0:
        return [(c << shift) // comb(degree, i) for i, c in enumerate(made)]
    return [c // (comb(degree, i) << -shift) for i, c in enumerate(made)]


def halves(row):
    """The coefficients on both halves, by de Casteljau's rule, rounded down."""
    left, right = [row[0]], [row[-1]]
    while len(row) > 1:
        row = [u + v >> 1 for u, v in zip(row, row[1:])]
        left.append(row[0])
        right.append(row[-1])
    right.reverse()
    return left, right
