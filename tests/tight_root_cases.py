"""Cases for the tighter root test, document 02's S-22: candidates of every degree, each answer of the search, and the candidates
of the root test.  Behind each test compare.py puts the root test of the same candidates.  tight_root_jobs.py has those in jobs.

M is the weight of w, c = (S - m) S and v = c/(4 M) rounded down; what satisfies reaches as far below c/(4 M) as above it.

Run as a program it compares the oracle's least radius with a walk from 0, and asks that the fixed cases show each wrong rule.
"""

from collections import Counter
from math import gcd, isqrt
from random import Random

import oracle as o
from candidates import largest_accepted, root_candidates
from cases import Case, perhaps_spoiled, signed, spread
from certificate_cases import fixed_root, nudged, realistic_root
from examples_of_01 import root_inputs
from header import (ACCEPTED, BAD_MODEL, CANDIDATE_SIZE, HELPER_NOT_POSITIVE, LARGE_RESIDUAL, MAX_DEGREE, MODEL_SIZE, NO_RADIUS,
                    NOT_CONTRACTING, NUMBERS_SIZE, S, SCRATCH_SIZE)
from oracle import LIMIT, constant, first_at_most, least_radius, model, up

ENTRY = 'tight_root'
SIZES = {'f': MODEL_SIZE, 'h': CANDIDATE_SIZE, 'w': CANDIDATE_SIZE, 'scratch': SCRATCH_SIZE, 'out': MODEL_SIZE,
         'numbers': NUMBERS_SIZE}
SHOWN = 5                   # fixed cases that a wrong rule changes, at least
PER_FAMILY = 60             # fixed cases of each family of constants


def case(f, h, w):
    return Case(ENTRY, (f, h, w))


# ---- Constants with chosen M, m and N ---------------------------------------------------------------

def constants_with(big_m, m, n, over=False, by_radius=1.0):
    """Constant f, h and w with these M, m and N, or None: 2 M h is about m S below S^2, or over it; what N lacks is taken
    from f's radius by this share, and the rest from f."""
    h = (S * S + m * S) // (2 * big_m) if over else up(S * S - m * S, 2 * big_m)
    f = min(h * h // S, LIMIT)
    lacking = n - up(h * h - S * f, S)
    if lacking < 0:
        return None
    radius = int(lacking * by_radius)
    found = constant(f - (lacking - radius), radius), constant(h), constant(big_m)
    number, numbers = o.root_numbers(*found)
    return found if number == 0 and numbers[:3] == (big_m, m, n) else None


def constants_for(rng, big_m, m, b):
    """The same with this b; which side of S^2 and what share are drawn."""
    n = b * S // big_m
    if m < 0 or up(big_m * n, S) != b:
        return None
    return constants_with(big_m, m, n, rng.random() < 0.5, rng.choice((1.0, 1.0, 0.0, rng.random())))


def narrow(rng):
    """(S - m)^2 - 8 M b = e^2 with M about e S: what satisfies is about one wide, so that r is v, v + 1 or none.
    t = S - m is e modulo p, -e modulo q and odd, where M = p q."""
    e = rng.choice((1, 1, 1, 3, 5, rng.randrange(1, 40, 2)))
    big_m = int(e * S * 2 ** rng.uniform(-2, 2))
    p = int(2 ** rng.uniform(0, 11)) | 1
    q = big_m // p | 1
    if gcd(p, q) != 1 or p * q > LIMIT:
        return None
    t = e + p * (-2 * e * pow(p, -1, q) % q)
    t += p * q * (t % 2 == 0)
    b, rest = divmod(t * t - e * e, 8 * p * q)
    assert rest == 0
    return constants_for(rng, p * q, S - t, b) if b > 0 else None


def double(rng):
    """(S - m)^2 = 8 M b: at most one number satisfies."""
    x, y = int(2 ** rng.uniform(0, 12)), int(2 ** rng.uniform(0, 9))
    big_m, b = rng.choice(((2 * x * x, y * y), (x * x, 2 * y * y), (x * y, 2 * x * y)))
    t = isqrt(8 * big_m * b)
    assert t * t == 8 * big_m * b
    return constants_for(rng, big_m, S - t, b)


def at_scale(rng):
    """4 M <= S - m, b = (S - m) - 2 M and a little beside it: r is S, little less, or none."""
    big_m = int(2 ** rng.uniform(0, 15))
    t = rng.randint(4 * big_m, 32 * big_m)
    return constants_for(rng, big_m, S - t, t - 2 * big_m + rng.choice((-2, -1, 0, 0, 1, 2, t // 9)))


def on_end(rng):
    """The numbers that satisfy begin with r = S/2^j, below v; or they end with S/4, which is v + 1: equality holds there."""
    if rng.random() < 0.5:
        j = rng.randint(1, 7)
        big_m = rng.randint(1, 1 << 18 - 2 * j) << 2 * j - 1
        t = rng.randint(4 * big_m >> 2 * j, S >> j) << j
        return constants_for(rng, big_m, S - t, (t >> j) - (2 * big_m >> 2 * j))
    big_m = rng.randrange(S // 2 + 2, S, 8)
    return constants_for(rng, big_m, S - (big_m - 1), big_m // 8)


def exact(rng):
    """b = 0."""
    x = rng.randint(2, 1 << 14)
    h = 1024 * x
    w = (1 << 39) // h
    return constant(x * x), constant(h), constant(rng.randint(w // 2 + 1, w + w // 3))


def wrapped(rng):
    """b is a multiple of 2^24 or a little beside: b S^2 is about 0 in 64 bits, and far above what r can reach."""
    big_m = 1 << rng.randint(22, 28)
    n = (rng.randint(1, 16) << 44) // big_m + rng.choice((0, 0, 1, rng.randint(0, 99)))
    return constants_with(big_m, 0, n) if n <= LIMIT else None


FAMILIES = (narrow, double, at_scale, on_end, exact, wrapped)


def drawn(family, rng):
    """Candidates of a family, of which a draw may give none."""
    while True:
        found = family(rng)
        if found is not None and all(map(o.good, found)):
            return found


# ---- Candidates of every degree ------------------------------------------------------------------------

def curves(degree):
    """Roots of curves of a degree, at a little and at more distance until none is accepted."""
    rng = Random(degree)
    for first, share in ((4 * S, 0.3), (S // 3, 0.5), (100 * S, 0.1)):
        row = spread(rng, degree, int(first * share))
        f = model([first + row[0], *row[1:]], rng.choice((0, 3, 500)))
        h, w = root_candidates(f, degree)
        yield case(f, h, w)
        for place in {0, degree}:
            for size in range(4, 25, 4):
                moved = list(h.coefficients)
                moved[place] += signed(rng, 1 << size)
                yield case(f, model(moved, 0, degree), w)
        edge = largest_accepted(lambda e: o.tight_root(f._replace(radius=e), h, w)[0] == ACCEPTED)
        for radius in () if edge is None else (edge, edge + 1):
            yield case(f._replace(radius=radius), h, w)


# ---- Fixed ------------------------------------------------------------------------------------------------

def around(f, h, w):
    """Constants, and those with one number one off."""
    yield case(f, h, w)
    for d in (1, -1):
        yield case(f._replace(radius=max(0, f.radius + d)), h, w)
        for k in range(3):
            yield case(*(constant(m.coefficients[0] + d * (i == k), m.radius) for i, m in enumerate((f, h, w))))


def fixed_families():
    rng = Random(22)
    for family in FAMILIES:
        for _ in range(PER_FAMILY):
            f, h, w = drawn(family, rng)
            yield case(f, h, w)
            yield case(f._replace(radius=min(LIMIT, f.radius + 1)), h, w)


def fixed_wraps():
    """b at S and on both sides, at 2^23 and 2^24, and the largest there is."""
    for w_units in (1 << 20, 1 << 24, 1 << 28):
        h = (1 << 39) // w_units
        for n in {(b << 20) // w_units for b in (S // 2, S - 1, S, S + 256, 1 << 23, 1 << 24, 1 << 25, 1 << 36)}:
            for d in (-1, 0, 1):
                yield case(constant(h * h // S, max(0, min(LIMIT, n + d))), constant(h), constant(w_units))


def fixed_tight():
    yield from (root._replace(entry=ENTRY) for root in fixed_root())
    for inputs in root_inputs():
        yield from around(*inputs)
    yield from fixed_families()
    yield from fixed_wraps()
    for degree in range(MAX_DEGREE + 1):
        yield from curves(degree)


# ---- Random -------------------------------------------------------------------------------------------------

def tight_inputs(rng):
    """f, h and w: a perturbed root of a curve, or constants where the search has more than one way to go."""
    found = realistic_root(rng) if rng.random() < 0.6 else drawn(rng.choice(FAMILIES), rng)
    if found is None:
        found = drawn(narrow, rng)
    f, h, w = found
    kind = rng.random()
    if kind < 0.08 and all(map(o.good, found)):     # on both sides of a border
        edge = largest_accepted(lambda e: o.tight_root(f._replace(radius=e), h, w)[0] == ACCEPTED)
        f = f if edge is None else f._replace(radius=min(LIMIT, edge + rng.randint(0, 1)))
    elif kind < 0.13:
        h = nudged(rng, h)
    elif kind < 0.18:
        w = nudged(rng, w)
    return f, h, w


def random_tight(rng):
    return Case(ENTRY, perhaps_spoiled(rng, tight_inputs(rng), 0.02, candidates=(1, 2)))


# ---- What the tests are ---------------------------------------------------------------------------------------

def radius_kinds(big_m, m, b, radius):
    """What is said of a test that accepts with this radius; what document 02 says of both commands is asked of it."""
    former, v = o.root_radius(big_m, m, b), (S - m) * S // (4 * big_m)
    assert former is not None and radius <= former, (big_m, m, b)
    yield from (f'r = {name}' for name, stated in (('0', 0), ('S', S), ('v', v), ('v + 1', v + 1)) if radius == stated)
    yield from ['r below v'] * (0 < radius < v) + ['r below S <= v'] * (0 < radius < S <= v)
    if radius > 0 and 2 * big_m * radius ** 2 + b * S * S == (S - m) * S * radius:
        yield f'equality, {"r below v" if radius < min(v, S) else "r = v + 1" if radius > v else "r = v or S"}'
    equal = 'equal radii' if radius else 'radii 0'
    yield f'both accept, {equal if radius == former else "0x22 with the smaller radius"}'


def kinds(drawn_case, lengths, number):
    """What is said of one test, whose areas have these lengths."""
    found = [f'{name} of {length}' for name, length in zip(SIZES, lengths)]
    short = [(name, length - size) for (name, size), length in zip(SIZES.items(), lengths) if length < size]
    if short:
        return found + [f'1, {name} one too short' for name, less in short if len(short) == 1 and less == -1]
    found.append('tests')
    f, h, w = drawn_case.inputs
    shared, numbers = o.root_numbers(f, h, w)
    if shared == BAD_MODEL:
        bad = [name for name, m in zip('fhw', (f, h, w)) if not o.good(m)]
        return found + [f'2 of {bad[0]}'] * (len(bad) == 1)
    if shared:
        return found + [str(shared)]
    big_m, m, _, b = numbers
    radius = least_radius(big_m, m, b)
    if radius is None:
        assert number == NO_RADIUS, drawn_case
        former, v = o.root_radius(big_m, m, b), (S - m) * S // (4 * big_m)
        found.append(f'0x21 {"8" if former is None else "accepts"}, 0x22 17')
        found += ['17, b above S'] * (b > S) + ['17, b S^2 a multiple of 2^64'] * (b % (1 << 24) == 0 < b)
        return found + ([] if former is None else [f'17, {"all beyond S" if v >= S else "none between"}, 0x21 accepts'])
    assert number == ACCEPTED, drawn_case
    found += radius_kinds(big_m, m, b, radius)
    return found + [f'{name} of degree {one.degree}, accepted' for name, one in zip('fhw', (f, h, w))]


ACCEPTED_KINDS = [
    *(f'r = {name}' for name in ('0', 'S', 'v', 'v + 1')), 'r below v', 'r below S <= v',
    *(f'equality, r {which}' for which in ('below v', '= v or S', '= v + 1')),
    *(f'both accept, {which}' for which in ('0x22 with the smaller radius', 'equal radii', 'radii 0')),
]
DEMANDED = [
    *(f'1, {name} one too short' for name in SIZES), *(f'2 of {name}' for name in 'fhw'),
    *map(str, (HELPER_NOT_POSITIVE, NOT_CONTRACTING, LARGE_RESIDUAL)), '0x21 8, 0x22 17', '0x21 accepts, 0x22 17',
    '17, b above S', '17, b S^2 a multiple of 2^64', '17, all beyond S, 0x21 accepts', '17, none between, 0x21 accepts',
    *ACCEPTED_KINDS,
]
OF_EACH = [*(f'{name} of degree {degree}, accepted' for name in 'fhw' for degree in range(MAX_DEGREE + 1)),
           *(f'{name} of {length}' for name, size in SIZES.items() for length in sorted({0, 1, size - 1, size, size + 1}))]


def counted(found):
    """The counts in words; each kind must be there."""
    missing = [kind for kind in (*DEMANDED, *OF_EACH) if not found[kind]]
    assert not missing, f'no tighter root test: {missing}'
    least = min(found[kind] for kind in OF_EACH if 'degree' in kind)
    return (f'{found["tests"]} tests; {", ".join(f"{kind}: {found[kind]}" for kind in DEMANDED)}; '
            f'accepted with f, h and w of each degree from 0 to {MAX_DEGREE}, {least} times at least')


# ---- Is the oracle right, and are the cases what they are said to be? ------------------------------------------------

def walked(big_m, m, b, unit):
    return next((r for r in range(unit + 1) if o.satisfies(big_m, m, b, r, unit)), None)


def check_walk(unit, numbers):
    """The oracle's least radius is what a walk from 0 to S finds, with S = unit; gives what was found."""
    found = Counter()
    for big_m, m, b in numbers:
        r, v = walked(big_m, m, b, unit), (unit - m) * unit // (4 * big_m)
        assert least_radius(big_m, m, b, unit) == r, (big_m, m, b, unit)
        found['none' if r is None else 'v + 1' if r == v + 1 else 'v' if r == v else 'S' if r == unit else 'less'] += 1
    return found


def every_number(unit):
    return ((big_m, m, b) for big_m in range(1, 3 * unit) for m in range(unit) for b in range(unit + 3))


def check_tight():
    """compare.py asks this before every comparison: the least radius by a walk."""
    found = check_walk(16, every_number(16))
    assert min(found[kind] for kind in ('none', 'v + 1', 'v', 'S', 'less')) > 0, found


def greatest(big_m, m, b):
    c = (S - m) * S
    if least_radius(big_m, m, b) is None:
        return None
    return min(S, (c + isqrt(c * c - 8 * big_m * b * S * S)) // (4 * big_m))


def next_not_tried(big_m, m, b):
    r = least_radius(big_m, m, b)
    return None if r == (S - m) * S // (4 * big_m) + 1 else r


WRONG_RULES = {
    'v + 1 not tried': next_not_tried,
    'the greatest r': greatest,
    'b S for b S^2': lambda big_m, m, b: first_at_most(2 * big_m, b * S, (S - m) * S, S),
    'b S^2 in 64 bits': lambda big_m, m, b: first_at_most(2 * big_m, b * S * S % (1 << 64), (S - m) * S, S),
    'the search begun at 1': lambda *n: least_radius(*n) or (1 if least_radius(*n) == 0 else None),
    'M for 2 M': lambda big_m, m, b: first_at_most(big_m, b * S * S, (S - m) * S, S),
    'S for S - m': lambda big_m, m, b: first_at_most(2 * big_m, b * S * S, S * S, S),
    'below, not at most': lambda big_m, m, b: first_at_most(2 * big_m, b * S * S + 1, (S - m) * S, S),
    'r up to S - 1': lambda big_m, m, b: first_at_most(2 * big_m, b * S * S, (S - m) * S, S - 1),
    'r beyond S': lambda big_m, m, b: first_at_most(2 * big_m, b * S * S, (S - m) * S, LIMIT),
    'the radius of 0x21': lambda *n: None if least_radius(*n) is None else o.root_radius(*n),
    'half the radius of 0x21': lambda *n: None if least_radius(*n) is None else up(o.root_radius(*n), 2),
    'accepted where 0x21 accepts': o.root_radius,
}


def check_cases():
    """The fixed tests hold every kind, and show each wrong rule."""
    found, shown = Counter(), Counter()
    for one in fixed_tight():
        number, *_ = o.tight_root(*one.inputs)
        found.update(kinds(one, list(SIZES.values()), number))
        shared, numbers = o.root_numbers(*one.inputs)
        if shared == 0:
            big_m, m, _, b = numbers
            r = least_radius(big_m, m, b)
            shown.update(name for name, rule in WRONG_RULES.items() if rule(big_m, m, b) != r)
    few = [name for name in WRONG_RULES if shown[name] < SHOWN]
    assert not few, f'too few fixed cases that show: {few}'
    missing = [kind for kind in DEMANDED if not kind.startswith('1,') and not found[kind]]
    assert not missing, f'no fixed case: {missing}'
    return f'{found["tests"]} tests: {", ".join(f"{name} shows in {shown[name]}" for name in WRONG_RULES)}'


def check_walks():
    """Every M, m and b of a small scale, random ones of a larger, and some of S itself, those of examples_of_01.py among them."""
    rng = Random(22)
    found = check_walk(24, every_number(24))
    larger = []
    for _ in range(4000):
        big_m, t = rng.randint(1, 2000), rng.randint(1, 1024)
        larger.append((big_m, 1024 - t, rng.randint(0, t * t // (8 * big_m) + 1)))
    found += check_walk(1024, larger)
    shared = [o.root_numbers(*inputs) for inputs in (*root_inputs(), *(drawn(narrow, rng) for _ in range(20)))]
    found += check_walk(S, [(numbers[0], numbers[1], numbers[3]) for number, numbers in shared if number == 0])
    return ', '.join(f'{kind} {count}' for kind, count in sorted(found.items()))


FIXED = {ENTRY: fixed_tight}
RANDOM = {ENTRY: random_tight}

if __name__ == '__main__':
    check_tight()
    print(f'tighter roots, the least radius by a walk: {check_walks()}')
    print(f'tighter roots, fixed cases: {check_cases()}')
