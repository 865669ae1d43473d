"""Candidates by floating-point numerics, as a solver would propose them.

Curves are sampled at Chebyshev nodes and projected back; nothing here is
exact and nothing here is trusted: the oracle judges what comes out.
"""

from math import cos, pi, sqrt
from operator import mul

from header import COEFFICIENTS, S
from oracle import LIMIT, model
from power_basis import trimmed

NODES = 64
NODE_POINTS = [cos(pi * (i + 0.5) / NODES) for i in range(NODES)]
# _COSINES[k][i] is T_k at node i; _BY_NODE is its transpose.
_COSINES = [[cos(k * pi * (i + 0.5) / NODES) for i in range(NODES)]
            for k in range(COEFFICIENTS)]
_BY_NODE = [list(column) for column in zip(*_COSINES)]


def samples(coefficients):
    """The values (not units) of a coefficient list at the nodes."""
    row = trimmed(coefficients)
    return [sum(map(mul, row, cosines)) / S for cosines in _BY_NODE]


def projected(values, degree):
    """Rounded coefficients in units of the curve through the samples."""
    row = [round(2 * S / NODES * sum(map(mul, values, _COSINES[k])))
           for k in range(degree + 1)]
    row[0] = round(S / NODES * sum(values))
    return row


def clipped(row):
    """Keeps numbers inside signed 32 bits, so that they fit a block."""
    return [max(-(1 << 31), min((1 << 31) - 1, c)) for c in row]


def from_samples(values, degree):
    return model(clipped(projected(values, degree)))


def quotient_candidates(f, g, degree):
    """h near f/g and w near 1/g, or None where g's samples come too near 0."""
    divisor = samples(g.coefficients)
    if min(map(abs, divisor)) < 1e-3:
        return None
    h = [a / b for a, b in zip(samples(f.coefficients), divisor)]
    w = [1 / b for b in divisor]
    return from_samples(h, degree), from_samples(w, degree)


def root_candidates(f, degree):
    """h near the root of f and w near 1/(2h), or None near or below 0."""
    under = samples(f.coefficients)
    if min(under) < 1e-4:
        return None
    h = [sqrt(v) for v in under]
    w = [0.5 / v for v in h]
    return from_samples(h, degree), from_samples(w, degree)


def largest_accepted(accepts, highest=LIMIT):
    """The largest number from 0 to highest for which a monotone test accepts;
    None when it does not accept 0."""
    if not accepts(0):
        return None
    low, high = 0, highest + 1
    if accepts(highest):
        return highest
    while high - low > 1:
        middle = (low + high) // 2
        if accepts(middle):
            low = middle
        else:
            high = middle
    return low
