"""The rational-arithmetic program for document 01 (Chebyshev certificates).

Every answer is formed with Python's unbounded whole numbers.  Products and
primitives are formed in the power basis (1, x, x^2, ...) and converted back;
neither the pair walk nor the primitive rule of the product is used to get
them.  Power series (document 02, S-3) are expanded by binomials, not by the
rule of the product's table.  The least radius of the tighter root test (S-22) comes
from a whole square root, not from a search.  Integrals on an interval (S-24) are the
power basis' primitives times half the extent, and every evaluation is put beside the exact
value at its point.  Editions of jobs (S-27) are read here; edition_oracle.py converts them,
and report_oracle.py has the report records of their results (S-30).
Only the rounding is taken over from document 01 as it stands
there, with the ties of document 02 (S-11) and the mapped point of S-24.
Areas, and refusal 1 for a short one, are compare.py's; a short proposal (S-14) is tested here.

Run as a program it checks the examples P1 to P11.
"""

from fractions import Fraction
from functools import lru_cache
from math import isqrt
from operator import mul
from typing import NamedTuple

from header import (
    ACCEPTED, BAD_ENDS, BAD_MODEL, BAD_SERIES, BAD_VALUE, BLOCK_BYTES, BYTES_AFTER_END, CANDIDATE_SIZE, CHOSEN_FIRST,
    CHOSEN_NONE, CHOSEN_SECOND, COEFFICIENTS, DEFAULT_KEPT, DIFFERENT_INTERVALS,
    HELPER_NOT_POSITIVE, JOB_ENDS, LARGE_RESIDUAL, LARGE_RESULT, MAX_DEGREE, MAX_END, MAX_RESULTS,
    MAX_WEIGHT, NEGATIVE_DISCRIMINANT, NO_RADIUS, NOT_A_RESULT, NOT_CONTRACTING, POINT_OUTSIDE,
    PROGRAM_JOB_BYTES, PROPOSAL_SIZE, S, SHORT_AREA, TOO_MANY_RESULTS)
from power_basis import (PRIMITIVE_DENOMINATOR, SCALE, chebyshev_form, primitive_numerators,
                         product_list, value_numerator)

LIMIT = MAX_WEIGHT          # MAX_RADIUS and MAX_RESIDUAL too


class Model(NamedTuple):
    """Degree, 33 coefficients in units, radius, the ends of the interval, -S and S unless told.
    A candidate has radius 0, and its ends are not looked at."""
    degree: int
    coefficients: tuple
    radius: int
    lower: int = -S
    upper: int = S


class Series(NamedTuple):
    """Degree, and the coefficients of x^0 .. x^32 in units."""
    degree: int
    coefficients: tuple


STANDARD = -S, S            # the standard interval
ZERO_MODEL = Model(0, (0,) * COEFFICIENTS, 0, 0, 0)     # beside a refusal


def model(coefficients, radius=0, degree=None):
    """A model from its leading coefficients; the rest are zero."""
    row = tuple(coefficients)
    degree = max(len(row) - 1, 0) if degree is None else degree
    return Model(degree, row + (0,) * (COEFFICIENTS - len(row)), radius)


def constant(value, radius=0):
    return model([value], radius)


def term(place, value, radius=0):
    """value times T_place."""
    return model([0] * place + [value], radius)


def series(powers, degree=None):
    """A series from its leading coefficients; the rest are zero."""
    return Series(*model(powers, 0, degree)[:2])


def power(k, value):
    """value times x^k."""
    return series([0] * k + [value])


# ---- Rounding and weights ---------------------------------------------------

def up(numerator, denominator):
    """The least whole number not below the quotient."""
    return -((-numerator) // denominator)


TIES = {True: 0, False: 0}  # how many ties near has rounded, above zero and below; compare.py counts its cases by them


def near(numerator, denominator):
    """The nearest whole number, a tie going to the even one."""
    below, rest = divmod(numerator, denominator)
    if 2 * rest == denominator:
        TIES[numerator > 0] += 1
        return below + below % 2
    return below + (2 * rest > denominator)


def weight(row):
    return sum(map(abs, row))


# ---- Which models are good --------------------------------------------------------

def within_limits(m):
    """Of a model, a candidate or a series: what 2 and 14 are not for."""
    return (0 <= m.degree <= MAX_DEGREE
            and not any(m.coefficients[m.degree + 1:])
            and weight(m.coefficients) <= LIMIT
            and 0 <= m.radius <= LIMIT)


def good_ends(m):
    return -MAX_END <= m.lower < m.upper <= MAX_END


def fault(m):
    """The refusal of one model: 2, 18 straight after it, or 0."""
    return BAD_MODEL if not within_limits(m) else ACCEPTED if good_ends(m) else BAD_ENDS


def good(m):
    return fault(m) == ACCEPTED


def interval(m):
    return m.lower, m.upper


def same_interval(a, b):
    return interval(a) == interval(b)


def first_fault(models, candidates=()):
    """The first refusal of one or two operands: 2 and 18 of each model in turn, 2 of the
    candidates, 19; or 0."""
    faults = [*map(fault, models), *(ACCEPTED if within_limits(c) else BAD_MODEL for c in candidates)]
    apart = ACCEPTED if same_interval(models[0], models[-1]) else DIFFERENT_INTERVALS
    return next(filter(None, (*faults, apart)), ACCEPTED)


# ---- Plain operations ---------------------------------------------------------

def refused(number):
    return number, ZERO_MODEL


def result_ends(operand):
    """The ends of a result: its operand's."""
    return operand.lower, operand.upper


def finished(degree, row, radius, ends):
    """The place 'result': 3, or the model itself."""
    if degree > MAX_DEGREE or weight(row) > LIMIT or radius > LIMIT:
        return refused(LARGE_RESULT)
    return 0, Model(*model(row, radius, degree)[:3], *ends)


def _termwise(a, b, sign):
    if number := first_fault((a, b)):
        return refused(number)
    row = [x + sign * y for x, y in zip(a.coefficients, b.coefficients)]
    return finished(max(a.degree, b.degree), row, a.radius + b.radius, result_ends(a))


def add(a, b):
    return _termwise(a, b, 1)


def subtract(a, b):
    return _termwise(a, b, -1)


def multiply(a, b, kept):
    if number := first_fault((a, b)):
        return refused(number)
    if kept == DEFAULT_KEPT:
        kept = max(a.degree, b.degree)
    if not 0 <= kept <= MAX_DEGREE:
        return refused(BAD_VALUE)
    full = product_list(a.coefficients, b.coefficients)
    degree = min(kept, a.degree + b.degree)
    row = [near(c, 2 * S) for c in full[:degree + 1]]
    error = sum(abs(c - 2 * S * r) for c, r in zip(full, row))
    error += weight(full[degree + 1:])
    error += 2 * (weight(a.coefficients) * b.radius
                  + weight(b.coefficients) * a.radius + a.radius * b.radius)
    return finished(degree, row, up(error, 2 * S), result_ends(a))


def half_extent(a):
    """Half of u - l, no longer in units: numerator, denominator.  It is dx where dy is 1."""
    return a.upper - a.lower, 2 * S


def integral_terms(a):
    """c_1 .. c_(n+1) of the integral: the primitive's, times half the extent."""
    degree = a.degree + 1
    exact = primitive_numerators(a.coefficients)
    exact += [0] * (degree + 1 - len(exact))
    padded = a.coefficients + (0, 0)
    numerator, denominator = half_extent(a)
    row = []
    for k in range(1, degree + 1):
        # The primitive's coefficient is the quotient that document 01 scales and rounds.
        quotient = (2 if k == 1 else 1) * padded[k - 1] - padded[k + 1]
        assert exact[k] * 2 * k == quotient * PRIMITIVE_DENOMINATOR
        row.append(near(exact[k] * numerator, PRIMITIVE_DENOMINATOR * denominator))
    return row


def integral_constant(a, terms):
    """c_0 for these c_1 .. c_(n+1): the value at l/S, where T_k is taken at -1, is exactly 0."""
    return -sum(c if k % 2 == 0 else -c for k, c in enumerate(terms, 1))


def integral_radius(a):
    return up(a.radius * (a.upper - a.lower), S) + a.degree + 1


def integrate(a):
    if number := first_fault((a,)):
        return refused(number)
    if a.degree == MAX_DEGREE:
        return refused(LARGE_RESULT)
    terms = integral_terms(a)
    row = [integral_constant(a, terms), *terms]
    assert value_numerator(row, -1, 1) == 0
    return finished(a.degree + 1, row, integral_radius(a), result_ends(a))


def position(a, x):
    """Where T_k is taken at the fraction x."""
    return (2 * S * x - a.lower - a.upper) / (a.upper - a.lower)


MAP_SCALE = S               # the mapped point is a whole number of 1/MAP_SCALE


def mapped_point(a, p):
    """The position of p/S, rounded near, and whether that was exact."""
    exact = MAP_SCALE * position(a, Fraction(p, S))
    return near(exact.numerator, exact.denominator), exact.denominator == 1


def outside(a, p):
    """What 4 is for."""
    return not a.lower <= p <= a.upper


def growth(a, exact):
    """By which W grows where the mapped point is not exact."""
    return 0 if exact else sum(abs(c) * k * k for k, c in enumerate(a.coefficients)) << 11


def evaluate(a, p):
    """Number, low, high."""
    if number := first_fault((a,)):
        return number, 0, 0
    if outside(a, p):
        return POINT_OUTSIDE, 0, 0
    mapped, exact = mapped_point(a, p)
    t = [1 << 30, mapped * ((1 << 30) // MAP_SCALE)]
    while len(t) <= a.degree:
        t.append(near(2 * mapped * t[-1], MAP_SCALE) - t[-2])
    v = sum(map(mul, a.coefficients, t))
    w = sum(abs(c) * k * (k - 1) for k, c in enumerate(a.coefficients)) + growth(a, exact)
    low = ((4 * v - w) >> 32) - a.radius
    high = up(4 * v + w, 1 << 32) + a.radius
    # Every allowed value lies between the bounds, by exact arithmetic.
    at = position(a, Fraction(p, S))
    whole = at.denominator ** MAX_DEGREE
    value = value_numerator(a.coefficients, at.numerator, at.denominator)
    assert low * whole <= value - a.radius * whole, "value below the bounds"
    assert value + a.radius * whole <= high * whole, "value above the bounds"
    return 0, low, high


def from_series(s):
    if not within_limits(Model(*s, 0)):
        return refused(BAD_SERIES)
    exact = chebyshev_form(s.coefficients[:s.degree + 1])   # times 2^SCALE
    row = [near(c, 1 << SCALE) for c in exact]
    error = sum(abs(c - (r << SCALE)) for c, r in zip(exact, row))
    return finished(s.degree, row, up(error, 1 << SCALE), STANDARD)


# ---- The tests ------------------------------------------------------------

def _refused_test(number):
    return number, ZERO_MODEL, 0, 0, 0


def _difference(row, other, factor):
    """row - factor * other, place by place over all 65 places."""
    other = tuple(other) + (0,) * (len(row) - len(other))
    return [c - factor * o for c, o in zip(row, other)]


def quotient(f, g, h, w):
    """Number, model, m, N, b."""
    if number := first_fault((f, g), (h, w)):
        return _refused_test(number)
    big_m, big_h = weight(w.coefficients), weight(h.coefficients)
    off = _difference(product_list(w.coefficients, g.coefficients), (2 * S * S,), 1)
    m = up(weight(off) + 2 * big_m * g.radius, 2 * S)
    if m >= S:
        return _refused_test(NOT_CONTRACTING)
    residual = _difference(product_list(g.coefficients, h.coefficients),
                           f.coefficients, 2 * S)
    n = up(weight(residual) + 2 * S * f.radius + 2 * big_h * g.radius, 2 * S)
    if n > LIMIT:
        return _refused_test(LARGE_RESIDUAL)
    b = up(big_m * n, S)
    radius = up(b * S, S - m)
    if radius > LIMIT:
        return _refused_test(LARGE_RESULT)
    return 0, Model(h.degree, h.coefficients, radius, *result_ends(f)), m, n, b


def root_numbers(f, h, w):
    """What both root tests share: number, and M, m, N, b if it is 0."""
    if number := first_fault((f,), (h, w)):
        return number, None
    if sum(w.coefficients) <= 0:
        return HELPER_NOT_POSITIVE, None
    big_m = weight(w.coefficients)
    off = _difference(product_list(w.coefficients, h.coefficients), (S * S,), 1)
    m = up(weight(off), S)
    if m >= S:
        return NOT_CONTRACTING, None
    residual = _difference(product_list(h.coefficients, h.coefficients),
                           f.coefficients, 2 * S)
    n = up(weight(residual) + 2 * S * f.radius, 2 * S)
    if n > LIMIT:
        return LARGE_RESIDUAL, None
    return 0, (big_m, m, n, up(big_m * n, S))


def root_radius(big_m, m, b):
    """The radius of 0x21, or None."""
    return None if (S - m) ** 2 < 8 * b * big_m else up(2 * b * S, S - m)


def satisfies(big_m, m, b, r, unit=S):
    """The inequality of the tighter root test, with S = unit."""
    return 2 * big_m * r * r + b * unit * unit <= (unit - m) * unit * r


def first_at_most(square, constant_part, c, top):
    """The least whole r from 0 to top with square r^2 + constant_part <= c r, or None;
    square and c above 0, constant_part not below.  r satisfies exactly if |2 square r - c|
    is at most the root of c^2 - 4 square constant_part; being whole, at most that root
    rounded down."""
    under = c * c - 4 * square * constant_part
    if under < 0:
        return None
    reach = isqrt(under)
    r = up(c - reach, 2 * square)
    return r if r <= top and 2 * square * r - c <= reach else None


def least_radius(big_m, m, b, unit=S):
    """The least whole r from 0 to S that satisfies, with S = unit, or None."""
    return first_at_most(2 * big_m, b * unit * unit, (unit - m) * unit, unit)


def _root_test(f, h, w, refusal, radius_of):
    number, numbers = root_numbers(f, h, w)
    if number:
        return _refused_test(number)
    big_m, m, n, b = numbers
    radius = radius_of(big_m, m, b)
    if radius is None:
        return _refused_test(refusal)
    return 0, Model(h.degree, h.coefficients, radius, *result_ends(f)), m, n, b


def root(f, h, w):
    """Number, model, m, N, b."""
    tested = _root_test(f, h, w, NEGATIVE_DISCRIMINANT, root_radius)
    assert tested[1].radius <= 1 << 27, "document 01: at or below 2^27"
    return tested


def tight_root(f, h, w):
    """Number, model, m, N, b."""
    tested = _root_test(f, h, w, NO_RADIUS, least_radius)
    assert tested[1].radius <= S, "document 02, S-22: at or below S"
    return tested


# ---- Two proposals for one quotient (document 02, S-14) -----------------------------

@lru_cache(maxsize=2)                               # the counts of selection_cases.py ask again
def proposal_test(f, g, proposal):
    """Number and radius of one proposal: degree and 33 coefficients for h and then for w."""
    if len(proposal) < PROPOSAL_SIZE:
        return SHORT_AREA, 0
    h, w = (Model(proposal[start], tuple(proposal[start + 1:start + CANDIDATE_SIZE]), 0)
            for start in (0, CANDIDATE_SIZE))
    number, result, *_ = quotient(f, g, h, w)
    return number, result.radius


def quotient_of_two(f, g, first, second):
    """Number, which proposal is chosen, its radius."""
    tests = {CHOSEN_FIRST: proposal_test(f, g, first), CHOSEN_SECOND: proposal_test(f, g, second)}
    passed = [(radius, chosen) for chosen, (number, radius) in tests.items() if number == 0]
    if not passed:
        return tests[CHOSEN_FIRST][0], CHOSEN_NONE, 0
    radius, chosen = min(passed)                    # equal radii favour the first
    return 0, chosen, radius


# ---- Jobs -----------------------------------------------------------------------

END, EDITION, LOAD, ADD, SUBTRACT, MULTIPLY, LOAD_ON, QUOTIENT, ROOT, TIGHT_ROOT = (
    0x00, 0x01, 0x10, 0x11, 0x12, 0x13, 0x14, 0x20, 0x21, 0x22)
OPERAND_WIDTH = {END: 0, EDITION: 1, LOAD: BLOCK_BYTES + 4, ADD: 2, SUBTRACT: 2,
                 MULTIPLY: 3, LOAD_ON: BLOCK_BYTES + 12, QUOTIENT: 2 + 2 * BLOCK_BYTES,
                 ROOT: 1 + 2 * BLOCK_BYTES, TIGHT_ROOT: 1 + 2 * BLOCK_BYTES}
RESULT_BYTES = {LOAD: 0, ADD: 2, SUBTRACT: 2, MULTIPLY: 2, LOAD_ON: 0, QUOTIENT: 2, ROOT: 1, TIGHT_ROOT: 1}
LOADS = LOAD, LOAD_ON
EDITIONS = 1, 2
TESTS = {QUOTIENT: quotient, ROOT: root, TIGHT_ROOT: tight_root}


def read_number(data, start, signed=True):
    return int.from_bytes(data[start:start + 4], 'little', signed=signed)


def read_block(data, start):
    row = tuple(read_number(data, start + 1 + 4 * k) for k in range(COEFFICIENTS))
    return Model(data[start], row, 0)


def read_ends(byte, operands):
    """The ends that a load means: behind its radius, or -S and S."""
    return STANDARD if byte == LOAD else tuple(read_number(operands, BLOCK_BYTES + at) for at in (4, 8))


def read_load(byte, operands):
    """The model of a load."""
    degree, row, *_ = read_block(operands, 0)
    return Model(degree, row, read_number(operands, BLOCK_BYTES, signed=False), *read_ends(byte, operands))


def kept_by(edition, kept):
    """What the library is told where a multiply command of a job of this edition has the byte kept."""
    return MAX_DEGREE if edition == 1 and kept == DEFAULT_KEPT else kept


def _operation(edition, byte, operands, named):
    """Number and model of one command that makes a result, and the m, N and b of its test if it has one."""
    if byte in LOADS:
        loaded = read_load(byte, operands)
        number = first_fault((loaded,))
        return refused(number) if number else (0, loaded)
    if byte == ADD:
        return add(*named)
    if byte == SUBTRACT:
        return subtract(*named)
    if byte == MULTIPLY:
        return multiply(*named, kept_by(edition, operands[2]))
    blocks = RESULT_BYTES[byte]
    h = read_block(operands, blocks)
    w = read_block(operands, blocks + BLOCK_BYTES)
    return TESTS[byte](*named, h, w)


class Unread(Exception):
    """The refusal of a command's reading, and its number."""


def reading(job):
    """Byte and operands of each command in turn, the end's last.  Raises Unread at a command that does not read well; whether
    the models before it are good plays no part."""
    position, command, results = 0, 0, 0
    while True:
        if position == len(job):
            raise Unread(JOB_ENDS, command)
        byte = job[position]
        if byte not in OPERAND_WIDTH or (byte == EDITION) != (command == 0):
            raise Unread(BAD_VALUE, command)
        operands = job[position + 1:position + 1 + OPERAND_WIDTH[byte]]
        if len(operands) < OPERAND_WIDTH[byte]:
            raise Unread(JOB_ENDS, command)
        position += 1 + len(operands)
        if byte == EDITION and operands[0] not in EDITIONS:
            raise Unread(BAD_VALUE, command)
        if byte == MULTIPLY and MAX_DEGREE < operands[2] < DEFAULT_KEPT:
            raise Unread(BAD_VALUE, command)
        if byte == END and position < len(job):
            raise Unread(BYTES_AFTER_END, command)
        if byte in RESULT_BYTES:
            if any(name >= results for name in operands[:RESULT_BYTES[byte]]):
                raise Unread(NOT_A_RESULT, command)
            if results == MAX_RESULTS:
                raise Unread(TOO_MANY_RESULTS, command)
            results += 1
        yield byte, operands
        if byte == END:
            return
        command += 1


def checked_commands(job):
    """('accepted', count, models, m N and b of the test of each, none where no test ran) or ('refused', number, command)."""
    results, tests = [], []
    try:
        for command, (byte, operands) in enumerate(reading(job)):
            if byte in RESULT_BYTES:
                number, result, *tested = _operation(job[1], byte, operands,
                                                     [results[name] for name in operands[:RESULT_BYTES[byte]]])
                if number:
                    return 'refused', number, command
                results.append(result)
                tests.append(tuple(tested))
    except Unread as unread:
        return 'refused', *unread.args
    return 'accepted', len(results), results, tests


def check_job(job):
    """('accepted', count, models) or ('refused', number, command)."""
    return checked_commands(job)[:3]


def printed(job):
    """What the program prints for a job."""
    if len(job) > PROGRAM_JOB_BYTES:
        return 'too long\n'
    answer = check_job(job)
    if answer[0] == 'refused':
        return f'refused {answer[1]} {answer[2]}\n'
    lines = [f'{i} {r.degree} {r.radius}\n' for i, r in enumerate(answer[2])]
    return ''.join(lines) + f'accepted {answer[1]}\n'


if __name__ == '__main__':
    from examples_of_01 import check_examples
    check_examples()
    print('P1 to P11 and the borders of document 01: as stated')
