"""Exact whole-number arithmetic of the operations and the tests, as docs/FORMAT.md states it."""

from collections import namedtuple
from math import isqrt

from .tables import COEFFICIENTS, DEFAULT_KEPT, LIMIT, MAX_DEGREE, PLACES, S, STANDARD, interval_text

# coefficients has COEFFICIENTS numbers; a candidate is a model with radius 0, whose interval plays no part.
Model = namedtuple('Model', 'degree coefficients radius interval', defaults=(STANDARD,))


class Refused(Exception):
    """A numbered refusal, with the numbers of the test as far as they were formed."""

    def __init__(self, number, cause, **numbers):
        super().__init__(cause)
        self.number, self.cause, self.numbers = number, cause, numbers


def model(coefficients, radius=0, degree=None, interval=STANDARD):
    coefficients = list(coefficients)
    degree = len(coefficients) - 1 if degree is None else degree
    return Model(degree, coefficients + [0] * (COEFFICIENTS - len(coefficients)), radius, interval)


def up(n, d):
    return -(-n // d)


def near(n, d):
    """The nearest whole number to n/d, a tie going to the even one."""
    q, r = divmod(n, d)
    return q + (2 * r + q % 2 > d)


def weight(row):
    return sum(map(abs, row))


def products(a, b):
    """C(a, b): 2·S² times the product, as 65 numbers; more for lists that are longer than those of models."""
    row = [0] * max(PLACES, len(a) + len(b) - 1)
    for i, u in enumerate(a):
        if u:
            for j, v in enumerate(b):
                if v:
                    row[i + j] += u * v
                    row[abs(i - j)] += u * v
    return row


def fault(m):
    """Why a model is bad (refusal 2), or nothing."""
    if m.degree > MAX_DEGREE:
        return f'its degree byte is {m.degree}, above {MAX_DEGREE}'
    beyond = [k for k in range(m.degree + 1, COEFFICIENTS) if m.coefficients[k]]
    if weight(m.coefficients) > LIMIT:
        return (f'its weight {weight(m.coefficients):,} is above 2^28 = {LIMIT:,}'
                + (f', and the coefficient of T_{beyond[0]} is not zero though the degree is '
                   f'{m.degree}' if beyond else ''))
    if m.radius > LIMIT:
        return f'its radius {m.radius:,} is above 2^28 = {LIMIT:,}'
    if beyond:
        return (f'its degree byte is {m.degree}, but the coefficient of T_{beyond[0]} is '
                f'{m.coefficients[beyond[0]]:,} (the last that is not zero is that of T_{beyond[-1]})')
    return ''


def ends_fault(interval):
    """Why the ends of an interval are bad (refusal 18), or nothing."""
    for what, end in zip(('lower', 'upper'), interval):
        if abs(end) > LIMIT:
            return f'its {what} end {end:,} is outside -2^28..2^28 = {-LIMIT:,} to {LIMIT:,}'
    if interval.lower >= interval.upper:
        return f'its lower end {interval.lower:,} is not below its upper end {interval.upper:,}'
    return ''


def common(a, b):
    """The interval of both operands, or refusal 19."""
    if a.interval != b.interval:
        raise Refused(19, f'the first operand is on {interval_text(a.interval)}, the second on {interval_text(b.interval)}')
    return a.interval


def formed(m):
    """A result within its limits, or refusal 3."""
    for what, size in (('weight', weight(m.coefficients)), ('radius', m.radius)):
        if size > LIMIT:
            raise Refused(3, f'the {what} of the result would be {size:,}, above 2^28 = {LIMIT:,}')
    return m


def add(a, b, sign=1):
    return formed(Model(max(a.degree, b.degree),
                        [u + sign * v for u, v in zip(a.coefficients, b.coefficients)],
                        a.radius + b.radius, common(a, b)))


def kept_degree(edition, kept, a, b):
    """The kept degree that the byte of a multiply stands for, a and b being the degrees of its factors."""
    if kept != DEFAULT_KEPT:
        return kept
    return MAX_DEGREE if edition == 1 else max(a, b)


def multiply(a, b, kept):
    """The product; `kept` is a degree, not left open."""
    interval = common(a, b)
    row = products(a.coefficients, b.coefficients)
    degree = min(kept, a.degree + b.degree)
    rounded = [near(row[k], 2 * S) for k in range(degree + 1)]
    lost = (sum(abs(row[k] - 2 * S * c) for k, c in enumerate(rounded)) + weight(row[degree + 1:])
            + 2 * (weight(a.coefficients) * b.radius + weight(b.coefficients) * a.radius
                   + a.radius * b.radius))
    return formed(model(rounded, up(lost, 2 * S), interval=interval))


def _displaced(numbers):
    """What the tests share behind m, N and M: both are judged, then b is formed."""
    if numbers['m'] >= S:
        raise Refused(5, f'm is {numbers["m"]:,}, and must be below S = {S:,}', **numbers)
    if numbers['N'] > LIMIT:
        raise Refused(6, f'N is {numbers["N"]:,}, and must be at most 2^28 = {LIMIT:,}', **numbers)
    numbers['b'] = up(numbers['M'] * numbers['N'], S)
    return numbers


def quotient(f, g, h, w):
    """The numbers of the quotient test for f/g; a refusal carries those that were formed."""
    common(f, g)
    big_m, big_h = weight(w.coefficients), weight(h.coefficients)
    row = products(w.coefficients, g.coefficients)
    row[0] -= 2 * S * S
    m = up(weight(row) + 2 * big_m * g.radius, 2 * S)
    row = products(g.coefficients, h.coefficients)
    for k, c in enumerate(f.coefficients):
        row[k] -= 2 * S * c
    n = up(weight(row) + 2 * S * f.radius + 2 * big_h * g.radius, 2 * S)
    numbers = _displaced({'m': m, 'N': n, 'M': big_m})
    numbers['radius'] = up(numbers['b'] * S, S - m)
    if numbers['radius'] > LIMIT:
        raise Refused(3, f'the radius would be {numbers["radius"]:,}, above 2^28 = {LIMIT:,}',
                      **numbers)
    return numbers


def tested(f, h, numbers):
    """The result of a test that passed: h with its radius, on the interval of f."""
    return h._replace(radius=numbers['radius'], interval=f.interval)


def root_numbers(f, h, w):
    """M, m, N and b for the square root of f, which both root tests share."""
    total, big_m = sum(w.coefficients), weight(w.coefficients)
    row = products(w.coefficients, h.coefficients)
    row[0] -= S * S
    m = up(weight(row), S)
    row = products(h.coefficients, h.coefficients)
    for k, c in enumerate(f.coefficients):
        row[k] -= 2 * S * c
    n = up(weight(row) + 2 * S * f.radius, 2 * S)
    numbers = {'m': m, 'N': n, 'M': big_m}
    if total <= 0:
        raise Refused(7, f'the sum of the coefficients of w is {total:,}, and must be above 0',
                      **numbers)
    return _displaced(numbers)


def discriminant(numbers):
    """(S-m)² and 8·b·M; the root test passes if the second is not the larger."""
    return (S - numbers['m']) ** 2, 8 * numbers['b'] * numbers['M']


def by_discriminant(numbers):
    """The end of the root test (0x21), with its radius."""
    left, right = discriminant(numbers)
    if left < right:
        raise Refused(8, f'8·b·M is {right:,}, and must be at most (S-m)² = {left:,}', **numbers)
    return {**numbers, 'radius': up(2 * numbers['b'] * S, S - numbers['m'])}


def sides(numbers, r):
    """2·M·r² + b·S² and (S-m)·S·r; r satisfies if the first is not the larger."""
    return 2 * numbers['M'] * r * r + numbers['b'] * S * S, (S - numbers['m']) * S * r


def satisfies(numbers, r):
    left, right = sides(numbers, r)
    return left <= right


def least_radius(numbers):
    """The least whole r from 0 to S that satisfies, or None."""
    # Over the reals those from (c - √d)/(4·M) to (c + √d)/(4·M) satisfy. c - 4·M·r is whole, so it is at most
    # √d exactly if it is at most isqrt(d).
    c = (S - numbers['m']) * S
    d = c * c - 8 * numbers['M'] * numbers['b'] * S * S
    if d < 0:
        return None
    r = up(c - isqrt(d), 4 * numbers['M'])
    return r if r <= S and satisfies(numbers, r) else None


def by_least_radius(numbers):
    """The end of the tighter root test (0x22), with its radius."""
    r = least_radius(numbers)
    if r is None:
        raise Refused(17, f'no whole r from 0 to S = {S:,} has 2·M·r² + b·S² <= (S-m)·S·r', **numbers)
    return {**numbers, 'radius': r}


def root(f, h, w):
    """The numbers of the root test for the square root of f."""
    return by_discriminant(root_numbers(f, h, w))


def tight_root(f, h, w):
    """The numbers of the tighter root test for the square root of f."""
    return by_least_radius(root_numbers(f, h, w))


def value(coefficients, x):
    """Σ a_k·T_k(x) at a fraction or float x, by Clenshaw's rule."""
    one = two = 0
    for c in reversed(coefficients[1:]):
        one, two = 2 * x * one - two + c, one
    return x * one - two + coefficients[0]
