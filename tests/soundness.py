"""Does what was accepted hold?  Exact checks at random fractions x of the model's own interval.

Each soundness_*() takes what was handed in and what came out, draws a fraction
and allowed values there, and raises AssertionError when a value that the
result should cover is not covered.  compare.py calls check() on a sample and on
every made proposal that passes its test, and check_answered() on every model that
the library makes of a series, on every proposal that it chooses and on every root
that its tighter test accepts.
"""

from fractions import Fraction
from math import isqrt

import oracle as o
from header import S
from jobs import read_commands

FINE = 1 << 96              # boxes that may be wider are rounded out to 1/FINE
ROOTS = (o.ROOT, o.TIGHT_ROOT)      # one rule of boxes for both


def random_point(rng, m):
    """A fraction of the model's interval; the ends and the middle too, at times a whole number of units."""
    if rng.random() < 0.1:
        return Fraction(rng.randint(m.lower, m.upper), S)
    q = rng.choice((1, 2, 3, rng.randint(1, 50), 1 << rng.randint(1, 10)))
    return (m.lower + m.upper + Fraction(rng.randint(-q, q), q) * (m.upper - m.lower)) / (2 * S)


def value(m, x):
    """The model's middle value at the fraction x."""
    y = o.position(m, x)
    return Fraction(o.value_numerator(m.coefficients, y.numerator, y.denominator), y.denominator ** o.MAX_DEGREE * S)


def radius(m):
    return Fraction(m.radius, S)


def allows(m, x, v):
    return abs(v - value(m, x)) <= radius(m)


def allowed_value(rng, m, x):
    """Some value the model allows there: often an end."""
    share = rng.choice((Fraction(1), Fraction(-1), Fraction(rng.randint(-99, 99), 99)))
    return value(m, x) + share * radius(m)


def soundness_add(rng, a, b, result, sign=1):
    x = random_point(rng, a)
    u, v = allowed_value(rng, a, x), allowed_value(rng, b, x)
    assert allows(result, x, u + sign * v), 'sum not covered'


def soundness_multiply(rng, a, b, result):
    x = random_point(rng, a)
    u, v = allowed_value(rng, a, x), allowed_value(rng, b, x)
    assert allows(result, x, u * v), 'product not covered'


def soundness_integrate(rng, a, result):
    """A list of fractions that differs by at most e units in total: its exact
    primitive from l/S differs from the result by at most the radius in total."""
    changes = [Fraction(0)] * (a.degree + 1)
    left = Fraction(a.radius)
    for k in rng.sample(range(a.degree + 1), min(3, a.degree + 1)):
        part = left * Fraction(rng.randint(0, 9), 9)
        changes[k] = rng.choice((part, -part))
        left -= part
    changes[rng.randint(0, a.degree)] += 0 if any(changes) else left
    # The primitive of the change alone, scaled to whole numbers.
    scale = 9 ** 3
    row = [int(c * scale) for c in changes]
    assert sum(map(abs, row)) <= a.radius * scale
    whole = [c * scale for c in a.coefficients[:a.degree + 1]]
    moved = [c + d for c, d in zip(whole, row)]
    exact = [c * (a.upper - a.lower) for c in o.primitive_numerators(moved)]
    unit = o.PRIMITIVE_DENOMINATOR * scale * 2 * S
    exact += [0] * (a.degree + 2 - len(exact))
    exact[0] = -sum(c if k % 2 == 0 else -c for k, c in enumerate(exact) if k)
    far = sum(abs(c - r * unit) for c, r in zip(exact, result.coefficients))
    assert far <= result.radius * unit, 'primitive not covered'


# ---- Integrals by strips (request S-8) --------------------------------------------------

def start(a):
    """Where the strips start: l/S."""
    return Fraction(a.lower, S)


def strip_sum(choice, a, x, k):
    """From the start of a's interval to x, k equal strips: left-end value times width."""
    width = (x - start(a)) / k
    return sum((choice(start(a) + i * width) * width for i in range(k)), Fraction(0))


def lipschitz(a):
    """L: the sum of |a_k| k^2."""
    return sum(abs(c) * k * k for k, c in enumerate(a.coefficients))


def strip_term(a, k):
    """By how much the sum over k strips may lie off beside the radius, in units."""
    return Fraction(lipschitz(a) * (a.upper - a.lower), S * k)


def check_strips(choice, a, result, x, k):
    far = abs(strip_sum(choice, a, x, k) - value(result, x)) * S
    assert far <= result.radius + strip_term(a, k), 'sum over strips not covered'


def random_strips(rng, a):
    """An end x, often u/S, and a number of strips."""
    x = rng.choice((Fraction(a.upper, S), random_point(rng, a)))
    return x, rng.choice((1, 2, 3, rng.randint(4, 12)))


def choices(rng, m):
    """Functions that choose an allowed value at every fraction: the largest, the
    smallest, and some value."""
    drawn = {}

    def some(x):
        if x not in drawn:
            drawn[x] = allowed_value(rng, m, x)
        return drawn[x]
    return (lambda x: value(m, x) + radius(m)), (lambda x: value(m, x) - radius(m)), some


def soundness_strips(rng, a, result):
    for choice in choices(rng, a):
        check_strips(choice, a, result, *random_strips(rng, a))


def soundness_quotient_integral(rng, f, g, quotient):
    """The quotient of values that f and g allow is what is summed."""
    number, result = o.integrate(quotient)
    if number:
        return
    u, v = rng.choice(choices(rng, f)), rng.choice(choices(rng, g))
    check_strips(lambda x: u(x) / v(x), quotient, result, *random_strips(rng, f))


# ---- Power series -----------------------------------------------------------------------

def series_value(s, x):
    """The exact value of a power series at the fraction x."""
    p, q = x.numerator, x.denominator
    n = o.MAX_DEGREE
    numerator = sum(c * p ** k * q ** (n - k) for k, c in enumerate(s.coefficients) if c)
    return Fraction(numerator, q ** n * S)


def soundness_from_series(rng, s, result):
    assert o.interval(result) == o.STANDARD, 'not on the standard interval'
    for x in (Fraction(rng.choice((1, -1))), random_point(rng, result), random_point(rng, result)):
        assert allows(result, x, series_value(s, x)), 'series not covered'


# ---- Quotients and roots ------------------------------------------------------------------

def soundness_quotient(rng, f, g, result):
    x = random_point(rng, f)
    assert abs(value(g, x)) > radius(g), 'the divisor allows zero'
    u, v = allowed_value(rng, f, x), allowed_value(rng, g, x)
    assert allows(result, x, u / v), 'quotient not covered'


def soundness_root(rng, f, result):
    """Of both root tests: squares are compared, no root is formed."""
    x = random_point(rng, f)
    assert value(f, x) > radius(f), 'a value that is not positive is allowed under the root'
    v = allowed_value(rng, f, x)
    low = value(result, x) - radius(result)
    high = value(result, x) + radius(result)
    assert high >= 0 and high * high >= v, 'root above the model'
    assert low <= 0 or low * low <= v, 'root below the model'


# ---- Whole jobs: boxes -----------------------------------------------------------------

def rounded_out(low, high):
    """A box on the grid of 1/FINE that contains the given one."""
    return (Fraction(low.numerator * FINE // low.denominator, FINE),
            Fraction(o.up(high.numerator * FINE, high.denominator), FINE))


def root_box(rng, box):
    """low = 0 or low^2 <= the old low; high^2 >= the old high."""
    low, high = box
    if low <= 0 or rng.random() < 0.1:
        new_low = Fraction(0)
    else:
        new_low = Fraction(isqrt(low.numerator * FINE ** 2 // low.denominator), FINE)
    new_high = Fraction(0)
    if high > 0:
        new_high = Fraction(isqrt(o.up(high.numerator * FINE ** 2, high.denominator) - 1) + 1, FINE)
    return new_low, max(new_high, new_low)


def commands_of(job):
    """Command byte and operands of each command of an accepted job that makes
    a result."""
    return list(read_commands(job))[1:-1]           # between edition and end


def next_box(rng, byte, operands, boxes, x):
    """A permitted box for one more result, or None where none is permitted."""
    if byte in o.LOADS:
        v = allowed_value(rng, o.read_load(byte, operands), x)
        return v, v
    named = [boxes[name] for name in operands[:o.RESULT_BYTES[byte]]]
    if None in named:
        return None
    if byte in ROOTS:
        return root_box(rng, named[0])
    (low, high), (low2, high2) = named
    if byte == o.ADD:
        return low + low2, high + high2
    if byte == o.SUBTRACT:
        return low - high2, high - low2
    if byte == o.QUOTIENT:
        if low2 <= 0 <= high2:
            return None
        ends = [a / b for a in (low, high) for b in (low2, high2)]
    else:
        ends = [a * b for a in (low, high) for b in (low2, high2)]
    return rounded_out(min(ends), max(ends))


def soundness_job(rng, job, results):
    """Requirement 3 at one fraction of each interval that results have, for one choice of permitted boxes.
    Returns how many results had a box."""
    assert all(map(o.good, results)), 'a result that is not good'
    points = {o.interval(m): random_point(rng, m) for m in results}
    boxes = []
    for (byte, operands), result in zip(commands_of(job), results, strict=True):
        x = points[o.interval(result)]
        if byte == o.QUOTIENT:
            g = results[operands[1]]
            assert abs(value(g, x)) > radius(g), 'the divisor allows zero'
        if byte in ROOTS:
            f = results[operands[0]]
            assert value(f, x) > radius(f), 'a value that is not positive is allowed under the root'
        box = next_box(rng, byte, operands, boxes, x)
        boxes.append(box)
        if box is not None:
            middle = value(result, x)
            assert max(box[0], middle - radius(result)) <= min(box[1], middle + radius(result)), \
                'box and model do not overlap'
    return sum(box is not None for box in boxes)


# ---- By entry ----------------------------------------------------------------------------

def check(rng, case):
    """Checks one accepted case of compare.py."""
    entry, inputs = case.entry, case.inputs
    if entry == 'add':
        soundness_add(rng, *inputs, o.add(*inputs)[1])
    elif entry == 'subtract':
        soundness_add(rng, *inputs, o.subtract(*inputs)[1], -1)
    elif entry == 'multiply':
        soundness_multiply(rng, *inputs, o.multiply(*inputs, case.scalar)[1])
    elif entry == 'integrate':
        result = o.integrate(*inputs)[1]
        soundness_integrate(rng, *inputs, result)
        soundness_strips(rng, *inputs, result)
    elif entry == 'quotient':
        f, g, h, w = inputs
        result = o.quotient(f, g, h, w)[1]
        soundness_quotient(rng, f, g, result)
        soundness_quotient_integral(rng, f, g, result)
    elif entry == 'root':
        f, h, w = inputs
        soundness_root(rng, f, o.root(f, h, w)[1])
    elif entry == 'check':
        soundness_job(rng, inputs[0], o.check_job(inputs[0])[2])
    # evaluate asserts its bounds on every call.


def check_answered(rng, case, result):
    """Checks one accepted case by the model that the library answered."""
    if case.entry == 'from_series':
        soundness_from_series(rng, *case.inputs, result)
    elif case.entry == 'tight_root':
        for _ in range(3):
            soundness_root(rng, case.inputs[0], result)
    else:
        soundness_quotient(rng, *case.inputs[:2], result)
