"""Cases for the two tests, quotient and root: both sides of every border,
candidates as a solver would propose them, and candidates meant to deceive."""

import oracle as o
from candidates import largest_accepted, quotient_candidates, root_candidates
from cases import (BORDER_MODELS, LOWEST, Case, perhaps_spoiled, random_degree, random_model,
                   random_radius, random_total, signed, spread)
from header import COEFFICIENTS, LARGE_RESIDUAL, LARGE_RESULT, MAX_DEGREE, NOT_CONTRACTING, S
from oracle import LIMIT, constant, model, term


def quotient_case(f, g, h, w):
    return Case('quotient', (f, g, h, w))


def root_case(f, h, w):
    return Case('root', (f, h, w))


def first_and_last(first, last):
    return model([first] + [0] * (MAX_DEGREE - 1) + [last])


# ---- Quotient: fixed --------------------------------------------------------------

def fixed_quotient():
    one, third = constant(S), constant(349525)
    yield quotient_case(one, constant(3 * S), third, third)             # P7
    # Each operand at the borders of refusal 2; alone, and with what 5 or 6 refuses.
    for m, _ in BORDER_MODELS:
        yield quotient_case(m, one, one, one)
        yield quotient_case(one, m, one, one)
        yield quotient_case(m, one, one, constant(0))
        candidate = m._replace(radius=0)
        yield quotient_case(one, one, candidate, one)
        yield quotient_case(one, one, one, candidate)
        yield quotient_case(constant(LIMIT, LIMIT), one, candidate, constant(0))
    # m = S - 1 and S from both sides, with and without the divisor's radius.
    for w in (-1, 0, 1, 2, S - 1, S + 1, 2 * S - 2, 2 * S - 1, 2 * S, 2 * S + 1):
        yield quotient_case(constant(0), one, constant(0), constant(w))
        yield quotient_case(constant(5), one, constant(4), constant(w))
        yield quotient_case(constant(LIMIT, LIMIT), one, constant(0), constant(w))  # 5 before 6
    for e in (0, 1, S - 1, S, S + 1, LIMIT):
        yield quotient_case(constant(0), constant(S, e), constant(0), one)
        yield quotient_case(constant(9), constant(S, e), constant(9), constant(S // 2))
        yield quotient_case(constant(9), constant(S, e), constant(9), constant(1))
    # m is rounded up: one part in 2S above a whole number.
    for w in (1, S // 2, S // 2 + 1):
        yield quotient_case(constant(0), model([S, 1]), constant(0), constant(w))
        yield quotient_case(constant(0), model([S, 0, -1]), constant(0), model([S - 1, w]))
    # N = 2^28 and one more, by f, by its radius, by h and by the divisor's radius.
    for extra in (-1, 0, 1):
        for w in (S // 2, S - 1, S, S + 1):
            helper = constant(w)
            yield quotient_case(constant(LIMIT + extra), one, constant(0), helper)
            yield quotient_case(constant(LIMIT, 1 + extra), one, constant(0), helper)
            yield quotient_case(constant(0, LIMIT + extra), one, constant(0), helper)
            yield quotient_case(constant(0), one, constant(LIMIT + extra), helper)
            yield quotient_case(constant(-LIMIT // 2, LIMIT // 4 + extra), one,
                                constant(LIMIT // 4), helper)
            yield quotient_case(constant(LIMIT), constant(S, 1), constant(extra), helper)
    # Radius above the limit: test passed, result refused.
    for w in (S - 7, S, S + 1, S + S // 2, 2 * S - 1):
        for f in (LIMIT // 2, LIMIT - 1, LIMIT):
            yield quotient_case(constant(f), one, constant(0), constant(w))
    # f longer than C(g, h): all its places count.
    for place in range(1, COEFFICIENTS):
        yield quotient_case(model([S] + [0] * (place - 1) + [S]), one, one, one)
    # The longest lists: the last of the 65 numbers counts.
    high = term(MAX_DEGREE, S // 3)
    yield quotient_case(constant(S), high, high, high)
    yield quotient_case(constant(0), first_and_last(S, S // 2), high, first_and_last(S, -S // 2))
    # The largest numbers there are: nothing may wrap.
    for a in (LIMIT, -LIMIT):
        for b in (LIMIT, -LIMIT):
            for e in (0, LIMIT):
                yield quotient_case(constant(a, e), constant(b, e), constant(a), constant(b))
                yield quotient_case(constant(a, e), constant(b, e),
                                    term(MAX_DEGREE, a), term(MAX_DEGREE, b))
                yield quotient_case(constant(a, e), constant(4096), constant(b), constant(LIMIT))
                yield quotient_case(constant(a, e), constant(4097, e), constant(0),
                                    constant(LIMIT))


# ---- Quotient: random -------------------------------------------------------------

def divisor(rng, degree):
    """A curve that keeps away from zero."""
    base = int(S * 2 ** rng.uniform(-3, 6))
    rest = spread(rng, degree, int(base * rng.choice((0.1, 0.5, 0.9))))
    rest[0] += base
    sign = rng.choice((1, 1, -1))
    return [sign * c for c in rest]


def nudged(rng, candidate):
    """A candidate a little or much off, at one place or at all of them."""
    row = list(candidate.coefficients[:candidate.degree + 1])
    size = int(2 ** rng.uniform(0, 24))
    if rng.random() < 0.5:
        row[rng.randint(0, candidate.degree)] += signed(rng, size)
    else:
        row = [c + rng.randint(-size, size) // (candidate.degree + 1) for c in row]
    return model(row) if max(map(abs, row)) < 1 << 31 else candidate


def realistic_quotient(rng):
    degree = random_degree(rng)
    g = model(divisor(rng, degree), rng.choice((0, 0, rng.randint(0, 50), random_radius(rng, 18.0))))
    f = random_model(rng, random_total(rng, 26.0), random_radius(rng, 18.0))
    found = quotient_candidates(f, g, rng.choice((MAX_DEGREE, MAX_DEGREE, random_degree(rng))))
    if found is None:
        return None
    h, w = found
    if rng.random() < 0.25:
        h = nudged(rng, h)
    if rng.random() < 0.25:
        w = nudged(rng, w)
    return f, g, h, w


def random_quotient(rng):
    kind = rng.random()
    found = realistic_quotient(rng) if kind < 0.6 else None
    if found is None and kind < 0.85:               # constants near the borders of m
        g = rng.randint(1, 1 << rng.randint(12, 28))
        w = S * S // g + signed(rng, int(2 ** rng.uniform(0, 20)))
        w = max(-LIMIT, min(LIMIT, rng.choice((w, S * S // g, 2 * S * S // g + rng.randint(-2, 2)))))
        f, h = signed(rng, random_total(rng)), signed(rng, random_total(rng))
        if rng.random() < 0.5:
            h = max(-LIMIT, min(LIMIT, f * S // g + rng.randint(-3, 3)))
        found = (constant(f, random_radius(rng)), constant(g, rng.choice((0, 0, random_radius(rng, 20)))),
                 constant(h), constant(w))
    if found is None:
        found = (random_model(rng), random_model(rng),
                 random_model(rng, radius=0), random_model(rng, radius=0))
    elif kind < 0.03 and all(map(o.good, found)):   # on both sides of a border
        f, g, h, w = found
        if rng.random() < 0.5:                      # m at S, or the result too wide
            number = rng.choice((NOT_CONTRACTING, LARGE_RESULT, LARGE_RESIDUAL))
            edge = largest_accepted(
                lambda e: o.quotient(f, g._replace(radius=e), h, w)[0]
                not in (NOT_CONTRACTING, number))
            if edge is not None:
                found = f, g._replace(radius=min(LIMIT, edge + rng.randint(0, 1))), h, w
        else:
            edge = largest_accepted(
                lambda e: o.quotient(f._replace(radius=e), g, h, w)[0] == 0)
            if edge is not None:
                found = f._replace(radius=min(LIMIT, edge + rng.randint(0, 1))), g, h, w
    return Case('quotient', perhaps_spoiled(rng, found, 0.025, candidates=(2, 3)))


# ---- Root: fixed ------------------------------------------------------------------

def fixed_root():
    h, w = constant(2 * S), constant(S // 4)
    four = constant(4 * S)
    yield root_case(constant(2097152), h, w)                            # P8
    yield root_case(constant(2097151), h, w)                            # P9
    yield root_case(constant(S), h, w)                                  # P10
    yield root_case(four, h, w)                                         # 01's example
    yield root_case(four, constant(-2 * S), constant(-S // 4))          # slip 1
    for m, _ in BORDER_MODELS:
        candidate = m._replace(radius=0)
        yield root_case(m, h, w)
        yield root_case(m, h, constant(-1))                             # 2 before 7
        yield root_case(four, candidate, w)
        yield root_case(four, candidate, constant(0))
        yield root_case(four, h, candidate)
        yield root_case(constant(LIMIT, LIMIT), h, candidate)
    # The helper's sum at -1, 0 and 1, with all that a later place refuses.
    for total in (-1, 0, 1):
        for row in ([total], [S // 4, total - S // 4], [-S, S, total],
                    [0] * (MAX_DEGREE - 1) + [-LIMIT // 2, LIMIT // 2 + total],
                    [S // 4 + 1, 0, total - S // 4 - 1]):
            for f in (four, constant(S), constant(LIMIT, LIMIT)):
                yield root_case(f, h, model(row))
                yield root_case(f, constant(0), model(row))
    # m = S - 1 and S (h = S/2 makes m = |S - w|).
    half = constant(S // 2)
    quarter = S // 4                                # h * h / S
    for x in (1, 2, S - 1, S, S + 1, 2 * S - 1, 2 * S, 2 * S + 1, LIMIT):
        for f in (quarter - 1, quarter, quarter + 1, LIMIT):
            yield root_case(constant(f), half, constant(x))
        yield root_case(constant(LIMIT, LIMIT), half, constant(x))      # 5 before 6
    # (S - m)^2 = 8 b M at equality and one off, for powers of two.
    for j in range(-9, 5):
        big, small = 2.0 ** j * S, S / 2.0 ** (j + 1)
        border = 2.0 ** (2 * j - 1) * S
        for extra in (-2, -1, 0, 1, 2):
            yield root_case(constant(int(border) + extra), constant(int(big)), constant(int(small)))
            yield root_case(constant(int(border) + 3, max(0, 3 + extra)), constant(int(big)),
                            constant(int(small)))
    # The same with m far from zero: 8 b M = 144 = 12^2.
    for f in (116508, 116509, 116510):
        for h_units in (349525, 349526, 349527):
            for w_units in (17, 18, 19):
                yield root_case(constant(f), constant(h_units), constant(w_units))
    # 8 b M past 64 bits and N = 2^28 and one more beside it.
    for e in (0, 3, 4, 5, LIMIT):
        yield root_case(constant(LIMIT, e), constant(1 << 11), constant(LIMIT))
        yield root_case(constant(-LIMIT, e), constant(1 << 11), constant(LIMIT))
        yield root_case(constant(0, LIMIT - 4 + e if e < 6 else e), constant(1 << 11), constant(LIMIT))
        for w_units in (1 << 13, 1 << 17, 1 << 20, 1 << 25, 1 << 27):
            yield root_case(constant(LIMIT, e), constant((1 << 39) // w_units), constant(w_units))
    # N at 2^28 with h beyond the root of every f: near the border of 8 as well.
    for h_units in (23726565, 23726566, 23726567, 23726568, 16 * S, LIMIT):
        for w_units in (23170, 23171, 23172, S // 32):
            yield root_case(constant(LIMIT), constant(h_units), constant(w_units))
            yield root_case(constant(LIMIT, 1), constant(h_units), constant(w_units))
    # f longer than C(h, h), and the last of the 65 numbers.
    for place in range(1, COEFFICIENTS):
        yield root_case(model([4 * S] + [0] * (place - 1) + [S // 8]), h, w)
    yield root_case(four, first_and_last(2 * S, S // 64), w)
    yield root_case(four, h, first_and_last(S // 4, S // 64))
    for a in (LIMIT, -LIMIT, LIMIT - 1):
        for place in (0, 1, MAX_DEGREE):
            yield root_case(constant(a, LIMIT), term(place, a), constant(LIMIT))
            yield root_case(constant(a, LIMIT), term(place, a), term(place, LIMIT))
    yield root_case(four, h, model([LOWEST, LOWEST]))


# ---- Root: random -----------------------------------------------------------------

def realistic_root(rng):
    degree = random_degree(rng)
    base = int(S * 2 ** rng.uniform(-6, 7))
    row = spread(rng, degree, int(base * rng.choice((0.1, 0.5, 0.9))))
    row[0] += base
    f = model(row, random_radius(rng, rng.choice((8.0, 18.0))))
    found = root_candidates(f, rng.choice((MAX_DEGREE, MAX_DEGREE, random_degree(rng))))
    if found is None:
        return None
    h, w = found
    if rng.random() < 0.2:
        h = nudged(rng, h)
    if rng.random() < 0.2:
        w = nudged(rng, w)
    if rng.random() < 0.04:                         # slip 1 in full degree
        h, w = (model([-c for c in c_list.coefficients], 0, c_list.degree) for c_list in (h, w))
    return f, h, w


def random_root(rng):
    kind = rng.random()
    found = realistic_root(rng) if kind < 0.6 else None
    if found is None and kind < 0.85:
        h = int(2 ** rng.uniform(11, 28))
        w = (1 << 39) // h + rng.choice((0, 1, signed(rng, int(2 ** rng.uniform(0, 20)))))
        square = h * h // S
        f = square + rng.choice((0, 1, -1, -square // 2, square // 2,
                                 signed(rng, random_total(rng))))
        f = max(-LIMIT, min(LIMIT, f))
        found = (constant(f, random_radius(rng)), constant(h), constant(max(-LIMIT, min(LIMIT, w))))
    if found is None:
        found = random_model(rng), random_model(rng, radius=0), random_model(rng, radius=0)
    elif (kind < 0.03 or 0.6 < kind < 0.63) and all(map(o.good, found)):
        f, h, w = found                             # on both sides of a border
        edge = largest_accepted(lambda e: o.root(f._replace(radius=e), h, w)[0] == 0)
        if edge is not None:
            found = f._replace(radius=min(LIMIT, edge + rng.randint(0, 1))), h, w
    return Case('root', perhaps_spoiled(rng, found, 0.03, candidates=(1, 2)))


FIXED = {'quotient': fixed_quotient, 'root': fixed_root}
RANDOM = {'quotient': random_quotient, 'root': random_root}
