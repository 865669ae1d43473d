"""Candidates h and w found in floating point. Nothing here is trusted: the tests judge them."""

from math import cos, pi, sqrt

from . import arithmetic as ar
from .arithmetic import Refused, model
from .tables import MAX_DEGREE, S

NODES = 96
POINTS = [cos(pi * (i + 0.5) / NODES) for i in range(NODES)]
COSINES = [[cos(k * pi * (i + 0.5) / NODES) for i in range(NODES)] for k in range(MAX_DEGREE + 1)]
HELPER_DEGREES = (2, 4, 6, 8, 10, 12, 16, 20, 24, 32)
# The commands for a root, and what ends their tests.
ROOT_ENDS = {'root': ar.by_discriminant, 'tight_root': ar.by_least_radius}


def projected(values, degree=MAX_DEGREE):
    """Chebyshev coefficients, in floats, of a curve sampled at POINTS."""
    return [(2 - (k == 0)) / NODES * sum(map(float.__mul__, values, COSINES[k]))
            for k in range(degree + 1)]


def sampled(m):
    """A model's values at POINTS, in mm."""
    row = m.coefficients[:m.degree + 1]
    return [sum(c * COSINES[k][i] for k, c in enumerate(row)) / S for i in range(NODES)]


def in_units(row):
    """A candidate of whole units, zeros at the top left off."""
    row = [round(c * S) for c in row]
    while len(row) > 1 and row[-1] == 0:
        row.pop()
    return model(row)


def rank(numbers):
    """What is to be least: the radius; where it is equal the root test comes before the tighter one; then the radius by
    the root test, so that a helper that is the best by both tests is that of the job by 0x21, and of the root only
    the command byte differs."""
    tight = numbers.get('command') == 'tight_root'
    return numbers['radius'], tight, ar.by_discriminant(numbers)['radius'] if tight else 0


def best(test, answer, helper):
    """h, w and the numbers of the test, with the degree of w that gives the least radius."""
    h, row = in_units(projected(answer)), projected(helper)
    found, error = None, Refused(5, 'no helper passes')
    for degree in HELPER_DEGREES:
        w = in_units(row[:degree + 1])
        try:
            numbers = test(h, w)
        except Refused as refused:
            error = refused
            continue
        if found is None or rank(numbers) < rank(found[2]):
            found = h, w, numbers
    if found is None:
        raise error
    return found


def quotient(f, g):
    tops, bottoms = sampled(f), sampled(g)
    if any(v == 0 for v in bottoms):
        raise Refused(5, 'the divisor is zero on the stretch')
    return best(lambda h, w: ar.quotient(f, g, h, w),
                [u / v for u, v in zip(tops, bottoms)], [1 / v for v in bottoms])


def tightest(numbers, commands):
    """The numbers of the command with the least radius for given candidates, its name among them."""
    passed, error = [], None
    for command in commands:
        try:
            passed.append({**ROOT_ENDS[command](numbers), 'command': command})
        except Refused as refused:
            error = error or refused
    if not passed:
        raise error
    return min(passed, key=rank)


def root(f, commands=tuple(ROOT_ENDS)):
    """h, w and the numbers, with the name of the command, for a root by one of the commands."""
    values = sampled(f)
    if any(v <= 0 for v in values):
        raise Refused(8, 'the number under the root is not positive on the stretch')
    roots = [sqrt(v) for v in values]
    return best(lambda h, w: tightest(ar.root_numbers(f, h, w), commands), roots, [0.5 / v for v in roots])
