"""Cases for values in units, the last step of the makers of document 02's S-19: every exponent of a double, ties and their
neighbours, both limits, subnormal numbers, infinities and NaNs, one at a time at a changing place; and full lists whose weight is
around 2^28.  A value is the 64 bits of its double."""

from fractions import Fraction
from itertools import product
from math import isfinite, isinf, isnan

import proposal_oracle as p
from cases import Case
from header import ACCEPTED, LARGE_PROPOSAL, MAX_WEIGHT, NOT_FINITE, S, VALUES_SIZE
from proposal_oracle import bits

SIGN = 1 << 63
FRACTION = (1 << 52) - 1
EXPONENTS = 2048
INFINITY = bits(float('inf'))
# Quiet and signalling, both signs, the smallest and the largest payloads.
NANS = [sign | INFINITY | payload for sign in (0, SIGN) for payload in (1, 1 << 51, (1 << 51) + 1, (1 << 51) - 1, FRACTION)]
LIMIT_BITS, DOUBLE_BITS = bits(256.0), bits(512.0)       # 2^28 and 2^29 units
LARGEST = INFINITY - 1                                  # the largest finite double


def case(patterns):
    return Case('to_units', (tuple(patterns),))


def alone(pattern, place):
    """All values zero but one."""
    row = [0] * VALUES_SIZE
    row[place] = pattern
    return case(row)


def units(n):
    """The bits of n units, n a whole number or one with a half."""
    return bits(float(Fraction(n) / S))


# ---- Fixed ------------------------------------------------------------------------------------

def fixed_exponents():
    """Every exponent, infinities and NaNs too: powers of two, their neighbours and the middle."""
    for exponent in range(EXPONENTS):
        for fraction in (0, 1, FRACTION >> 1, 1 << 51, FRACTION):
            yield exponent << 52 | fraction


def fixed_ties():
    """Halves of units between whole numbers of both parities, whole numbers, and what stands beside them."""
    powers = [1 << k for k in range(8, 30)]
    for n in (*range(260), *powers, *(power - 1 for power in powers), 10 ** 6, 10 ** 8 + 1, MAX_WEIGHT + 1):
        for pattern in (units(n), units(n + Fraction(1, 2))):
            yield from (max(pattern - 1, 0), pattern, pattern + 1)


def fixed_limits():
    """Around 2^28 and 2^29 units, by the smallest steps and by quarters of a unit."""
    for limit, start in ((256, LIMIT_BITS), (512, DOUBLE_BITS)):
        yield from range(start - 20, start + 20)
        for quarter in range(-12, 13):
            pattern = bits(limit + quarter / (4.0 * S))
            yield from (pattern - 1, pattern, pattern + 1)


def fixed_patterns():
    yield from (*fixed_exponents(), *fixed_ties(), *fixed_limits(), *range(40), LARGEST)
    yield from (bits(float(f'1e{n}')) for n in range(-308, 309, 4))


def at_limit(extra, half=False):
    """33 values of both signs whose units weigh 2^28 and this much more; with halves on top, all ties that go to even numbers."""
    share = MAX_WEIGHT // VALUES_SIZE // 2 * 2
    row = [share] * (VALUES_SIZE - 1) + [MAX_WEIGHT - share * (VALUES_SIZE - 1) + extra]
    more = Fraction(half, 2)
    return case(units(n + more) | (SIGN if k % 2 else 0) for k, n in enumerate(row))


def fixed_lists():
    for extra in (-2, -1, 0, 1, 2):
        yield at_limit(extra)
        yield at_limit(extra, half=extra % 2 == 0)
    for k in range(VALUES_SIZE):                        # 15 before 16, wherever it stands
        for bad in (INFINITY, SIGN | INFINITY, NANS[k % len(NANS)]):
            row = [LARGEST if j % 2 else DOUBLE_BITS for j in range(VALUES_SIZE)]
            row[k] = bad
            yield case(row)
    yield case([LARGEST] * VALUES_SIZE)
    yield case([SIGN] * VALUES_SIZE)
    yield case([units(Fraction(1, 2))] * VALUES_SIZE)
    yield case([units(Fraction(3, 2)) | SIGN] * VALUES_SIZE)
    for n in range(1, 34):                              # so many values of 2^29 units or more: no sum may wrap
        for pattern in (DOUBLE_BITS, bits(2.0 ** 11), bits(2.0 ** 12), bits(2.0 ** 43), bits(2.0 ** 44), bits(2.0 ** 1000)):
            yield case([pattern] * n + [0] * (VALUES_SIZE - n))


def fixed_to_units():
    for count, pattern in enumerate(dict.fromkeys(fixed_patterns())):
        yield alone(pattern, count % VALUES_SIZE)
        yield alone(pattern ^ SIGN, (count + 7) % VALUES_SIZE)
    for place in range(VALUES_SIZE):
        for pattern in (*NANS, INFINITY, LIMIT_BITS, units(3), units(Fraction(5, 2))):
            yield alone(pattern, place)
            yield alone(pattern ^ SIGN, place)
    yield from fixed_lists()


# ---- Random -----------------------------------------------------------------------------------

def random_pattern(rng):
    """A double that is not negative."""
    kind = rng.random()
    if kind < 0.35:                                 # a tie, or the double beside it
        n = rng.randrange(1 << rng.randint(12, 28))
        return max(units(n + Fraction(1, 2)) + rng.choice((0, 0, 1, -1)), 0)
    if kind < 0.7:                                  # a whole number of units and a part
        return bits(rng.uniform(0.0, 2.0 ** rng.randint(-21, 9)))
    if kind < 0.78:                                 # around the limits
        return rng.choice((LIMIT_BITS, LIMIT_BITS, DOUBLE_BITS)) + rng.randint(-999, 999) * rng.choice((1, 1 << 10, 1 << 20))
    if kind < 0.85:
        return rng.randrange(1 << rng.randint(1, 53))      # subnormal, or hardly more
    return rng.randrange(SIGN)


def random_list(rng):
    """33 values whose weight in units is around 2^28, each a whole number of units, a tie or neither."""
    total = MAX_WEIGHT + rng.choice((0, 0, 1, -1, rng.randint(-40, 40), -rng.randrange(1 << 20)))
    cuts = sorted(rng.randint(0, total) for _ in range(VALUES_SIZE - 1))
    parts = rng.choice(((0,), (Fraction(1, 2),), (0, Fraction(1, 2), Fraction(-1, 2)), (Fraction(1, 4), Fraction(-3, 8), 0)))
    row = [max(Fraction(high - low) + rng.choice(parts), Fraction(0)) for low, high in zip([0, *cuts], [*cuts, total])]
    return case(units(n) | rng.choice((0, SIGN)) for n in row)


def random_to_units(rng):
    if rng.random() < 0.02:
        return random_list(rng)
    return alone(random_pattern(rng) | rng.choice((0, SIGN)), rng.randrange(VALUES_SIZE))


# ---- What the cases are -----------------------------------------------------------------------

def kinds_of(pattern):
    """What is said of one value, without its sign."""
    size = pattern & ~SIGN
    value = p.value_of(size)
    if isnan(value):
        return ['signalling NaN' if size < INFINITY | 1 << 51 else 'quiet NaN']
    if isinf(value):
        return ['infinity']
    found = ['zero'] * (size == 0) + ['subnormal'] * (0 < size <= FRACTION) + ['power of two'] * (size & FRACTION == 0 < size)
    found += ['2^28 units'] * (size == LIMIT_BITS) + ['2^29 units'] * (size == DOUBLE_BITS)
    found += ['beyond 2^29'] * (size > DOUBLE_BITS)
    if size < DOUBLE_BITS:
        below, rest = divmod(Fraction(value) * S, 1)
        found += ['tie, even below' if below % 2 == 0 else 'tie, odd below'] * (rest == Fraction(1, 2))
        found += ['whole units'] * (rest == 0 < size) + ['below half a unit'] * (below == 0 < rest < Fraction(1, 2))
        for beside, step in (('above', -1), ('below', 1)):
            if size and (Fraction(p.value_of(size + step)) * S) % 1 == Fraction(1, 2):
                found.append(f'next {beside} a tie')
    return found


KINDS = ('quiet NaN', 'signalling NaN', 'infinity', 'zero', 'subnormal', 'power of two', '2^28 units', '2^29 units',
         'beyond 2^29', 'tie, even below', 'tie, odd below', 'whole units', 'below half a unit', 'next above a tie',
         'next below a tie')
LISTS = ('weight 2^28', 'weight 2^28 + 1', '15 beside a weight above 2^28')


def kinds(drawn, number):
    """What is counted of one call whose areas are long enough: its value, or what its list weighs."""
    row, = drawn.inputs
    shown = [(k, pattern) for k, pattern in enumerate(row) if pattern]
    if len(shown) <= 1:
        place, pattern = shown[0] if shown else (0, 0)
        return [('pattern', pattern), ('place', place, number), *((kind, pattern < SIGN) for kind in kinds_of(pattern))]
    found = ['lists']
    finite = [value for value in map(p.value_of, row) if isfinite(value)]
    size = sum(map(abs, p.in_units(finite)))
    if number == NOT_FINITE:
        return found + ['15 beside a weight above 2^28'] * (size > MAX_WEIGHT)
    return found + [f'weight 2^28{"" if size == MAX_WEIGHT else " + 1"}'] * (size - MAX_WEIGHT in (0, 1))


DEMANDED = [*product(KINDS, (True, False)), *LISTS,
            *(('place', place, number) for place in range(VALUES_SIZE) for number in (ACCEPTED, NOT_FINITE, LARGE_PROPOSAL))]


def counted(found):
    """The counts in words; each kind must be there."""
    missing = [kind for kind in DEMANDED if not found[kind]]
    assert not missing, f'no value in units: {missing}'
    patterns = sum(isinstance(kind, tuple) and kind[0] == 'pattern' for kind in found)
    rest = ', '.join(f'{kind} {found[kind, True]}+{found[kind, False]}' for kind in KINDS)
    lists = ', '.join(f'{kind} {found[kind]}' for kind in LISTS)
    return patterns, f'{patterns} different values alone, above and below zero: {rest}; {found["lists"]} lists: {lists}'


WITNESSES = {ACCEPTED: at_limit(0).inputs, NOT_FINITE: alone(NANS[0], 32).inputs, LARGE_PROPOSAL: at_limit(1).inputs}


def check_units():
    """compare.py asks this before every comparison: stated values, and the makers' step back from units."""
    assert all(p.to_units(row)[0] == number for number, (row,) in WITNESSES.items())
    for odd, whole in ((1, 0), (3, 2), (5, 2), (7, 4), (2 * MAX_WEIGHT - 1, MAX_WEIGHT)):
        for sign in (1, -1):
            assert p.unit(float(Fraction(sign * odd, 2 * S))) == sign * whole
    assert all(p.unit(n / S) == n for n in (0, 1, -1, MAX_WEIGHT - 1, -(1 << 31), (1 << 31) - 1))
    tie = units(MAX_WEIGHT + Fraction(1, 2))            # goes to 2^28
    for pattern, number in ((LIMIT_BITS, ACCEPTED), (tie, ACCEPTED), (tie + 1, LARGE_PROPOSAL)):
        assert p.to_units(*alone(pattern, 3).inputs)[0] == number


FIXED = {'to_units': fixed_to_units}
RANDOM = {'to_units': random_to_units}
