"""Cases for the plain operations, and the makers of models all cases share.

fixed_*() give the same cases each time; random_*(rng) give one more case from
a seeded generator.
"""

from typing import NamedTuple

import oracle as o
from candidates import largest_accepted
from header import COEFFICIENTS, DEFAULT_KEPT, MAX_DEGREE, MAX_END, S
from oracle import LIMIT, constant, model, term

LOWEST, HIGHEST = -(1 << 31), (1 << 31) - 1


class Case(NamedTuple):
    """One call.  inputs: models and candidates in operand order, or the job's
    bytes alone, or values alone.  scalar: kept degree or point; of a conversion by how
    many bytes the output is longer than the job, or shorter.  lengths: pairs of area number and length; other
    areas are long enough.  made: of a test, the maker whose proposal it judges."""
    entry: str
    inputs: tuple
    scalar: int = 0
    lengths: tuple = ()
    made: str = ''


# ---- Models -------------------------------------------------------------------

def on(m, lower, upper):
    """The model on another interval."""
    return m._replace(lower=lower, upper=upper)


def random_interval(rng):
    """Good ends: extents from 1 to 2^29, those of document 02's limits and of the standard interval too, anywhere."""
    extent = rng.choice((1, 2, 3, S, 2 * S, 4 * S, 2 * MAX_END, *(int(2 ** rng.uniform(0, 29)) for _ in range(9))))
    last = MAX_END - extent
    lower = rng.choice((-MAX_END, last, 0, -S, -extent // 2, rng.randint(-MAX_END, last), rng.randint(-MAX_END, last)))
    lower = min(lower, last)
    return lower, lower + extent


def random_degree(rng):
    return rng.choice((0, 0, 1, 2, 3, MAX_DEGREE - 1, MAX_DEGREE, MAX_DEGREE,
                       rng.randint(0, MAX_DEGREE), rng.randint(0, MAX_DEGREE)))


def signed(rng, value):
    return value if rng.random() < 0.5 else -value


def spread(rng, degree, total):
    """degree + 1 coefficients whose weight is at most total, often exactly."""
    style = rng.randrange(5)
    if style == 0:                                  # all of about one size
        share = total // (degree + 1)
        return [rng.randint(-share, share) for _ in range(degree + 1)]
    if style == 1:                                  # falling off, as curves do
        ratio = rng.uniform(0.3, 0.9)
        first = total * (1 - ratio)
        return [int(first * ratio ** k * rng.uniform(-1, 1)) for k in range(degree + 1)]
    row = [0] * (degree + 1)
    if style == 2:                                  # one place holds it all
        row[rng.randint(0, degree)] = signed(rng, total)
    elif style == 3:                                # cut up, weight exactly total
        cuts = sorted(rng.randint(0, total) for _ in range(degree))
        for k, (low, high) in enumerate(zip([0] + cuts, cuts + [total])):
            row[k] = signed(rng, high - low)
    else:                                           # a few small numbers
        for _ in range(3):
            row[rng.randint(0, degree)] = rng.randint(-min(total, 9), min(total, 9)) // 3
    return row


def random_total(rng, highest=28.0):
    return int(2 ** rng.uniform(0, highest))


def random_radius(rng, highest=28.0):
    return rng.choice((0, 0, 1, rng.randint(0, 99), int(2 ** rng.uniform(0, highest))))


def random_model(rng, total=None, radius=None, degree=None):
    degree = random_degree(rng) if degree is None else degree
    total = rng.choice((random_total(rng), random_total(rng), LIMIT)) if total is None else total
    radius = random_radius(rng) if radius is None else radius
    return model(spread(rng, degree, total), radius)


BAD_DEGREES = (-1, MAX_DEGREE + 1, MAX_DEGREE + 2, 2 * MAX_DEGREE, 255, LOWEST, HIGHEST)


def with_row(m, row):
    """The model with these leading coefficients, and their degree."""
    return m._replace(degree=len(row) - 1, coefficients=tuple(row) + (0,) * (COEFFICIENTS - len(row)))


def spoiled(rng, m, candidate=False):
    """A bad model that differs from m in one point; a candidate has no radius."""
    row = list(m.coefficients)
    kind = rng.randrange(4 if candidate else 5)
    if kind == 0:
        return m._replace(degree=rng.choice(BAD_DEGREES))
    if kind == 1:                                   # a nonzero beyond the degree
        degree = rng.randint(0, MAX_DEGREE - 1)
        row = row[:degree + 1] + [0] * (MAX_DEGREE - degree)
        row[rng.choice((degree + 1, MAX_DEGREE, rng.randint(degree + 1, MAX_DEGREE)))] = \
            rng.choice((1, -1, S, LOWEST))
        return m._replace(degree=degree, coefficients=tuple(row))
    if kind == 2:                                   # weight one too high
        row = [0] * (m.degree + 1)
        row[0] = signed(rng, 1)
        row[-1] = signed(rng, LIMIT if m.degree else LIMIT + 1)
        return with_row(m, row)
    if kind == 3:                                   # far too high, ends of 32 bits
        row = [0] * (m.degree + 1)
        row[rng.randint(0, len(row) - 1)] = rng.choice((LOWEST, HIGHEST))
        if rng.random() < 0.3:
            row = [LOWEST] * COEFFICIENTS
        return with_row(m, row)
    return m._replace(radius=rng.choice((LIMIT + 1, -1, LOWEST, HIGHEST)))


def perhaps_spoiled(rng, models, chance=0.12, candidates=()):
    """Spoils each of the models with the given chance."""
    return tuple(spoiled(rng, m, i in candidates) if rng.random() < chance else m
                 for i, m in enumerate(models))


# Good and bad models at the borders of refusal 2, each with its verdict.
BORDER_MODELS = [
    (constant(LIMIT), True), (constant(LIMIT + 1), False),
    (constant(-LIMIT), True), (constant(-LIMIT - 1), False),
    (term(MAX_DEGREE, LIMIT), True), (term(MAX_DEGREE, -LIMIT - 1), False),
    (model([LIMIT - MAX_DEGREE] + [-1] * MAX_DEGREE), True),
    (model([LIMIT - MAX_DEGREE + 1] + [-1] * MAX_DEGREE), False),
    (constant(0, LIMIT), True), (constant(0, LIMIT + 1), False), (constant(0, -1), False),
    (constant(0, HIGHEST), False), (constant(0, LOWEST), False),
    (model([], 0, MAX_DEGREE), True), (model([], 0, MAX_DEGREE + 1), False),
    (model([], 0, -1), False),
    (model([], 0, HIGHEST), False), (model([], 0, LOWEST), False),
    (model([0, 1], 0, 1), True), (model([0, 1], 0, 0), False),
    (term(MAX_DEGREE, -1)._replace(degree=MAX_DEGREE - 1), False),
    (model([S], 0, MAX_DEGREE), True),
    (constant(LOWEST), False), (constant(HIGHEST), False),
    (model([LOWEST] * COEFFICIENTS), False), (model([HIGHEST] * COEFFICIENTS, HIGHEST), False),
    # Weights that come back to a small number in 32 or fewer bits.
    (model([LOWEST, LOWEST]), False), (model([1 << 30] * 4), False),
    (model([LOWEST, HIGHEST, 1]), False),
]


def check_border_models():
    for m, verdict in BORDER_MODELS:
        assert o.good(m) == verdict, m


# ---- Add and subtract -----------------------------------------------------------

def fixed_add(entry='add'):
    sign = 1 if entry == 'add' else -1
    for m, _ in BORDER_MODELS:
        for other in (constant(0), constant(1, 1), constant(LIMIT + 1)):
            yield Case(entry, (m, other))
            yield Case(entry, (other, m))
    half = LIMIT // 2
    for extra in (-1, 0, 1):                        # weight and radius at the limit
        yield Case(entry, (constant(half), constant(sign * (half + extra))))
        yield Case(entry, (constant(0, half), constant(7, half + extra)))
        yield Case(entry, (term(MAX_DEGREE, half), model([sign * (half + extra)])))
    yield Case(entry, (constant(LIMIT), constant(-sign * LIMIT)))
    yield Case(entry, (constant(LIMIT), constant(sign * LIMIT)))
    yield Case(entry, (model([S, 0, 0, 0]), model([-sign * S, 0])))     # top zeros kept


def random_add(rng, entry='add'):
    highest = rng.choice((26.9, 26.9, 28.0))
    pair = [random_model(rng, random_total(rng, highest), random_radius(rng, highest))
            for _ in range(2)]
    if rng.random() < 0.1:                          # weight at the limit or one off
        row = spread(rng, pair[0].degree, LIMIT // 2)
        rest = LIMIT - o.weight(row) + rng.choice((-1, 0, 1))
        row2 = [0] * (MAX_DEGREE + 1)
        place = rng.randint(0, MAX_DEGREE)
        at = row[place] if place < len(row) else 0
        row2[place] = (rest if at >= 0 else -rest) * (1 if entry == 'add' else -1)
        pair = [model(row), model(row2)]
    return Case(entry, perhaps_spoiled(rng, pair))


# ---- Multiply -------------------------------------------------------------------

ODD = range(-7, 8, 2)       # twice a tie each, with the lower number even and odd, on both sides of zero
BAD_KEPT = (MAX_DEGREE + 1, MAX_DEGREE + 2, DEFAULT_KEPT - 1, DEFAULT_KEPT + 1, MAX_DEGREE + 256,
            1 << 31, (1 << 32) - 1)
KEPT_BORDERS = (*range(MAX_DEGREE + 1), DEFAULT_KEPT, *BAD_KEPT)


def fixed_multiply():
    t1 = model([0, S])
    half = constant(S // 2)
    yield Case('multiply', (t1, t1), 2)                                 # P1
    yield Case('multiply', (t1, t1), 1)                                 # P2
    yield Case('multiply', (constant(1), half), MAX_DEGREE)             # P3
    yield Case('multiply', (constant(-1), half), MAX_DEGREE)            # P4
    full = model([(-1) ** k * (S // 3 + k) for k in range(COEFFICIENTS)], 5)
    for kept in KEPT_BORDERS:
        yield Case('multiply', (full, full), kept)
        yield Case('multiply', (t1, full), kept)
        yield Case('multiply', (constant(3), constant(-S // 2)), kept)
        yield Case('multiply', (constant(LIMIT + 1), t1), kept)         # 2 before 9
        yield Case('multiply', (constant(LIMIT), constant(LIMIT)), kept)  # 9 before 3
    for m, _ in BORDER_MODELS:
        yield Case('multiply', (m, constant(S)), MAX_DEGREE)
        yield Case('multiply', (t1, m), 7)
    for extra in (-1, 0, 1):
        yield Case('multiply', (constant(LIMIT), constant(S + extra)), 0)
        yield Case('multiply', (constant(-LIMIT), constant(S + extra)), MAX_DEGREE)
        yield Case('multiply', (constant(0, LIMIT), constant(S + extra)), 0)
        yield Case('multiply', (constant(0, LIMIT + extra), constant(S)), 0)
    # Radius exactly one above the limit: the limit, and two halves rounded.
    yield Case('multiply', (constant(1, LIMIT), model([S // 2, S // 2])), 1)
    yield Case('multiply', (constant(1, LIMIT - 1), model([S // 2, S // 2])), 1)
    for top in (LIMIT, -LIMIT):                     # the largest numbers there are
        for place in (0, 1, MAX_DEGREE):
            a = term(place, top, LIMIT)
            yield Case('multiply', (a, a), MAX_DEGREE)
            yield Case('multiply', (a, constant(LIMIT, LIMIT)), 0)
    for odd in (*ODD, LIMIT - 1, 1 - LIMIT):        # odd/2 at several places, from either factor
        yield Case('multiply', (model([odd, odd, -odd]), model([S // 2, S, S // 2])), MAX_DEGREE)
        for place in (0, 1, MAX_DEGREE - 1, MAX_DEGREE):
            yield Case('multiply', (term(place, odd), half), MAX_DEGREE)
            yield Case('multiply', (half, term(place, odd)), MAX_DEGREE)


def tied_factors(rng):
    """Two models whose product has many ties."""
    a = model([rng.randint(-9, 9) for _ in range(rng.randint(1, COEFFICIENTS))])
    b = model([rng.randint(-4, 4) * S // 2 for _ in range(rng.randint(1, COEFFICIENTS))])
    return (a, b) if rng.random() < 0.5 else (b, a)


def random_multiply(rng):
    kind = rng.random()
    if kind < 0.1:
        pair = tied_factors(rng)
    elif kind < 0.13:                               # radius on both sides of the limit
        a, b = (random_model(rng, random_total(rng, 22.0), 0) for _ in range(2))
        edge = largest_accepted(lambda e: o.multiply(a._replace(radius=e), b, MAX_DEGREE)[0] == 0)
        if edge is not None:
            a = a._replace(radius=min(LIMIT, edge + rng.randint(0, 1)))
        pair = (a, b)
    else:
        first = rng.uniform(0, 28)
        second = rng.uniform(0, 28) if kind < 0.25 else rng.uniform(0, min(28.0, 47 - first))
        pair = [random_model(rng, int(2 ** size), random_radius(rng, min(28.0, 47 - other)))
                for size, other in ((first, second), (second, first))]
    kept = rng.choice((DEFAULT_KEPT, MAX_DEGREE, rng.randint(0, MAX_DEGREE),
                       rng.randint(0, MAX_DEGREE)))
    if rng.random() < 0.05:
        kept = rng.choice((*BAD_KEPT, rng.randint(MAX_DEGREE + 1, DEFAULT_KEPT - 1)))
    return Case('multiply', perhaps_spoiled(rng, pair, 0.08), kept)


# ---- Integrate ------------------------------------------------------------------

def fixed_integrate():
    yield Case('integrate', (constant(S),))                             # P5
    yield Case('integrate', (term(1, S),))                              # strips.py
    for degree in range(MAX_DEGREE + 1):            # degree 31 fits, 32 gives 3
        yield Case('integrate', (model([S] * (degree + 1), degree),))
        yield Case('integrate', (model([], 0, degree),))
        for top in (1, -1, LIMIT, -LIMIT, *(odd * (degree + 1) for odd in ODD)):    # ties at the top
            yield Case('integrate', (term(degree, top),))
    for m, _ in BORDER_MODELS:
        yield Case('integrate', (m,))
    half = LIMIT // 2
    for extra in (-1, 0, 1):
        yield Case('integrate', (constant(half + extra),))
        yield Case('integrate', (constant(-half + extra),))
        for degree in (0, 1, 2, MAX_DEGREE - 1):
            for shift in (0, (degree + 1) // 2, degree // 2 + 1):
                yield Case('integrate', (term(degree, 1, half - shift + extra),))


def random_integrate(rng):
    kind = rng.random()
    degree = min(random_degree(rng), MAX_DEGREE - rng.choice((1, 1, 1, 0)))
    if kind < 0.4:                                  # small numbers: many ties
        m = model([rng.randint(-70, 70) for _ in range(degree + 1)], random_radius(rng, 26.0))
    else:
        m = random_model(rng, random_total(rng, rng.choice((26.5, 28.0))),
                         random_radius(rng, rng.choice((26.9, 28.0))), degree)
    return Case('integrate', perhaps_spoiled(rng, (m,)))


# ---- Evaluate -------------------------------------------------------------------

POINTS = (0, 1, -1, S // 2, -S // 2, S - 1, 1 - S, S, -S)
OUTSIDE = (S + 1, -S - 1, HIGHEST, LOWEST, 2 * S, -2 * S)
# At p = odd * 2^shift the last bit of 2 p t_(k-1)/S is exactly one half for k = 30/(19 - shift): t_k is the first tie.
TIED_SHIFTS = {4: 2, 9: 3, 13: 5, 14: 6, 16: 10, 17: 15, 18: 30}


def fixed_tied_evaluate():
    """One large coefficient: a t_k that is one off moves the bounds by a_k/2^30 only."""
    for shift, k in TIED_SHIFTS.items():
        for odd in range(1, min(24, S >> shift), 2):
            for place in sorted({k, min(k + 2, MAX_DEGREE), MAX_DEGREE - 1, MAX_DEGREE}):
                for p in (odd << shift, -odd << shift):
                    yield Case('evaluate', (term(place, LIMIT if odd % 4 == 1 else -LIMIT),), p)


def fixed_evaluate():
    t2 = model([0, 0, S])
    yield Case('evaluate', (t2,), S // 2)                               # P6
    for p in POINTS + OUTSIDE:
        yield Case('evaluate', (t2,), p)
        yield Case('evaluate', (term(MAX_DEGREE, LIMIT, LIMIT),), p)
        yield Case('evaluate', (term(MAX_DEGREE, -LIMIT, LIMIT),), p)
        yield Case('evaluate', (term(MAX_DEGREE - 1, LIMIT),), p)
        yield Case('evaluate', (model([LIMIT - MAX_DEGREE] + [1] * MAX_DEGREE, LIMIT),), p)
        yield Case('evaluate', (model([], 3, MAX_DEGREE),), p)
        for m, _ in BORDER_MODELS:                  # 2 before 4
            yield Case('evaluate', (m,), p)
    yield from fixed_tied_evaluate()


def random_evaluate(rng):
    p = rng.choice((rng.randint(-S, S), rng.randint(-S, S), rng.randint(-99, 99),
                    rng.choice(POINTS), rng.choice((S, -S)) - rng.randint(-9, 9)))
    m = random_model(rng)
    if rng.random() < 0.25:                         # ties, with coefficients that show them
        shift = rng.choice(list(TIED_SHIFTS))
        p = signed(rng, rng.randrange(1, S >> shift, 2) << shift)
        m = model(spread(rng, max(TIED_SHIFTS[shift], random_degree(rng)), LIMIT), random_radius(rng))
    if rng.random() < 0.05:
        p = rng.choice(OUTSIDE)
    return Case('evaluate', perhaps_spoiled(rng, (m,), 0.08), p)


FIXED = {'add': fixed_add, 'subtract': lambda: fixed_add('subtract'),
         'multiply': fixed_multiply, 'integrate': fixed_integrate,
         'evaluate': fixed_evaluate}
RANDOM = {'add': random_add, 'subtract': lambda rng: random_add(rng, 'subtract'),
          'multiply': random_multiply, 'integrate': random_integrate,
          'evaluate': random_evaluate}
