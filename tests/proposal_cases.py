"""Cases for the makers of proposals, document 02's S-19: both outcomes, every number of rounds, both new refusals by each of
their grounds and in their order, powers of two, a change of exactly 2^-24, ratios from tiny to huge, lists at the limit of the
weight.  Each proposal that is made is put to the quotient test.

No model is known whose change alone is not finite: the v and w of a round would both have to be near the largest double, and a
round squares what it finds."""

from itertools import cycle, product
from math import isnan
from sys import float_info

import oracle as o
import proposal_oracle as p
from cases import (BORDER_MODELS, Case, on, perhaps_spoiled, random_degree, random_model, random_radius, random_total, signed,
                   spread)
from certificate_cases import divisor
from header import (ACCEPTED, BAD_ENDS, BAD_MODEL, CANDIDATE_SIZE, COEFFICIENTS, DIFFERENT_INTERVALS, GIVEN_UP, LARGE_PROPOSAL,
                    MAX_DEGREE, MODEL_SIZE, NOT_CONTRACTING, NOT_FINITE, OUTCOME_SIZE, QUOTIENT_RECORD_SIZE,
                    RECIPROCAL_RECORD_SIZE, S, SETTLED, SHORT_AREA)
from oracle import LIMIT, Model, constant, model, term

# What each entry writes, in the order of the oracle's answer.
WRITTEN = {'make_reciprocal': ('record', 'w', 'outcome'), 'make_quotient': ('record', 'h', 'w', 'outcome'),
           'to_units': ('units',)}
AREA_SIZES = {'make_reciprocal': {'g': MODEL_SIZE, 'record': RECIPROCAL_RECORD_SIZE, 'w': CANDIDATE_SIZE,
                                  'outcome': OUTCOME_SIZE},
              'make_quotient': {'f': MODEL_SIZE, 'g': MODEL_SIZE, 'record': QUOTIENT_RECORD_SIZE, 'h': CANDIDATE_SIZE,
                                'w': CANDIDATE_SIZE, 'outcome': OUTCOME_SIZE}}
MAKERS = tuple(AREA_SIZES)
NUMBERS = (ACCEPTED, SHORT_AREA, BAD_MODEL, NOT_FINITE, LARGE_PROPOSAL)
ONE, TWO = constant(S), constant(2 * S)


def reciprocal_case(g):
    return Case('make_reciprocal', (g,))


def quotient_case(f, g):
    return Case('make_quotient', (f, g))


def signed_by(value, count):
    return value if count % 2 else -value


def two_terms(first, place, other):
    """first, and other times T_place."""
    return model([first] + [0] * (place - 1) + [other])


# ---- Divisors ---------------------------------------------------------------------------------

# A divisor for each number of rounds that settles, S and a term beside it.
SETTLING = {3: (1, 1048), 4: (1, 65536), 5: (1, 262144), 6: (1, 524288), 7: (31, S), 8: (1, 917504), 9: (3, 688128),
            10: (3, 720896), 11: (2, 851968), 12: (3, 786432)}
# w is given up near the end of the doubles: it is finite, and f times w is not if f is large.
DIVERGING = two_terms(S, 1, 1248179)
# In round 12 sums leave the doubles whose halves do not: 15, since they are halved last.
HALVED_LAST = [two_terms(S, 1, other) for other in (1248190, 1248200, 1248300)]
VANISHING = two_terms(S, 31, S)             # at -1; settles in round 7


def constants():
    """Powers of two of both signs, of which those below 2^12 have too large a reciprocal, and other numbers."""
    for k in range(29):
        yield from (constant(1 << k), constant(-1 << k), model([1 << k], 0, MAX_DEGREE))
    for n in (3, 5, 7, 10, 4095, 4097, 5461, 65535, S - 1, S + 1, 3 * S, 10 * S, LIMIT // 3, LIMIT - 1):
        yield from (constant(n), constant(-n), constant(n, LIMIT))


def at_small_change():
    """The first change is g_k/g_0^2: exactly 2^-24, and the smallest steps on both sides of it."""
    for k in range(6):
        first, other = 1 << (22 + k), 1 << 2 * k
        for place in (1, 2, 17, 31, 32):
            for sign in (1, -1):
                yield two_terms(first, place, sign * other)
                yield two_terms(-first, place, sign * other)
            yield from (two_terms(first - 1, place, other), two_terms(first + 1, place, other))
            yield from (two_terms(first, place, other + 1), two_terms(first, place, other - 1))


def settling():
    yield from (two_terms(S, place, other) for place, other in SETTLING.values())
    for place in (1, 2, 3, 5, 11, 16, 17, 32):
        for part in range(16, 33):                      # 6 to 12 rounds, and given up
            yield two_terms(S, place, part * S // 32)
    for k in range(4, 29, 3):                           # the same at other sizes
        yield two_terms(-1 << k, 1, (1 << k) // 2)
    for ratio in (0.9, 0.7, -0.8, -0.3):                # as curves are, every place
        yield model([4 * S] + [round(0.8 * S * ratio ** k) for k in range(1, COEFFICIENTS)])
    yield from (two_terms(S, place, S) for place in range(1, COEFFICIENTS))     # each vanishes somewhere


def huge_ratios():
    """The rounds leave the doubles, in round 6 at the earliest, or come near their end."""
    yield from (DIVERGING, *HALVED_LAST, model([1] + [(LIMIT - 1) // MAX_DEGREE] * MAX_DEGREE))
    for k in range(28):
        for place in (1, 16, 32):
            yield two_terms(1, place, 1 << k)
    for other in (S + S // 8, S + S // 6, 1248178, 1248180, S + S // 5, S + S // 4, 3 * S // 2, 2 * S):
        yield from (two_terms(S, 1, other), two_terms(-S, 2, other))
    for place in range(1, COEFFICIENTS):                # tiny ones beside it
        yield two_terms(LIMIT - 1, place, signed_by(1, place))


def at_weight_limit():
    """1/(g_0 - g_k) is the weight of w before rounding: 2^28 units, one more by rounding alone, and a last place that decides."""
    for place in (1, 2, 16, 17):
        for other in (*range(1, 25), 46, 200, 460, 760):
            yield two_terms(4096 + other, place, signed_by(other, place))
    for other in (1, 2, 3, 50):
        yield from (two_terms(4095 + other, MAX_DEGREE, other), two_terms(-4095 - other, MAX_DEGREE, -other))


def without_first():
    yield constant(0)
    for place in range(1, COEFFICIENTS):
        yield from (term(place, S), term(place, -LIMIT, 3))
    yield model([0] + [S] * MAX_DEGREE)


def good_divisors():
    for divisors in (constants, at_small_change, settling, huge_ratios, at_weight_limit, without_first):
        yield from divisors()


# ---- Fixed ------------------------------------------------------------------------------------

DIVIDENDS = (ONE, model([S, S // 3, -5], 7), constant(0, 9), term(MAX_DEGREE, S, LIMIT), constant(-LIMIT),
             model([(-1) ** k * (S // (k + 1)) for k in range(COEFFICIENTS)]), constant(1), model([S, 5]), term(1, LIMIT),
             model([S // 7] * COEFFICIENTS))


def fixed_reciprocals():
    for g in (*good_divisors(), *(m for m, _ in BORDER_MODELS)):
        yield reciprocal_case(g)


def fixed_orders():
    """2 before 15 and 16, 15 before 16, each list's own weight, which of the two lists is too large."""
    for m, _ in BORDER_MODELS:
        yield from (quotient_case(m, ONE), quotient_case(ONE, m), quotient_case(m, constant(0)), quotient_case(m, constant(1)),
                    quotient_case(m, DIVERGING))
    yield from (quotient_case(constant(f), DIVERGING) for f in (0, 1, S, 2 * S, LIMIT // 2, LIMIT, -LIMIT))
    yield from (quotient_case(constant(f), g) for f in (0, 1, S, LIMIT) for g in (constant(0), constant(1), constant(2048)))
    for f in (model([S, 5]), model([S, -5]), model([2 * S, 0, 5]), TWO):
        yield from (quotient_case(f, constant(sign << k)) for k in (12, 13, 14) for sign in (1, -1))
    yield from (quotient_case(constant(LIMIT - 256 + more), constant(S - 1)) for more in range(4))     # h of 2^28, and 2^28 + 1
    for f in range(-2, 3):                              # h at the limit, w within it: the nearest units, a tie, one above
        yield from (quotient_case(constant(LIMIT // 2 + f), constant(S // 2)),
                    quotient_case(constant(LIMIT + min(f, 0)), constant(S)),
                    quotient_case(two_terms(LIMIT // 2, 1, f), constant(S // 2)),
                    quotient_case(two_terms(LIMIT - 2, 1, f), constant(S - 1)))


def fixed_quotients():
    yield from fixed_orders()
    for number, (f, g) in enumerate(zip(cycle(DIVIDENDS), good_divisors())):
        yield quotient_case(f, g)
        if number % 9 == 0:
            yield quotient_case(g, g)
    for k, sign in product(range(29), (1, -1)):
        yield quotient_case(ONE, constant(sign << k))
    for f, (place, other) in product(DIVIDENDS, SETTLING.values()):
        yield quotient_case(f, two_terms(S, place, other))


# ---- Random -----------------------------------------------------------------------------------

def random_divisor(rng):
    kind = rng.random()
    if kind < 0.35:                                 # keeps away from zero, as curves do
        return model(divisor(rng, random_degree(rng)), random_radius(rng))
    if kind < 0.6:                                  # a term, or some, that settle late or not at all
        first = rng.choice((S, signed(rng, int(2 ** rng.uniform(12, 27)))))
        rest = spread(rng, rng.randint(1, MAX_DEGREE), int(abs(first) * rng.uniform(0.3, 1.3)))
        return model([first, *rest[1:]]) if rng.random() < 0.3 else \
            two_terms(first, rng.randint(1, MAX_DEGREE), signed(rng, int(abs(first) * rng.uniform(0.5, 1.02))))
    if kind < 0.75:                                 # around a first change of 2^-24
        first = int(2 ** rng.uniform(20, 27))
        other = first * first // (1 << 44) + rng.randint(-1, 2)
        return two_terms(signed(rng, first), rng.randint(1, MAX_DEGREE), signed(rng, other))
    if kind < 0.85:
        return constant(signed(rng, random_total(rng)), random_radius(rng))
    return random_model(rng)


def random_reciprocal(rng):
    return reciprocal_case(*perhaps_spoiled(rng, (random_divisor(rng),), 0.03))


def random_quotient(rng):
    f = random_model(rng, random_total(rng, rng.choice((22.0, 28.0))))
    return quotient_case(*perhaps_spoiled(rng, (f, random_divisor(rng)), 0.02))


# ---- The test of what is made -----------------------------------------------------------------

def made_candidates(drawn):
    """h and w as the maker answers them, or None."""
    number, _, *lists, _ = getattr(p, drawn.entry)(*drawn.inputs)
    return [Model(row[0], tuple(row[1:]), 0) for row in lists] if number == ACCEPTED else None


def tests_of(drawn):
    """The quotient test of what a maker makes, 1/g being tested as the quotient it is."""
    found = made_candidates(drawn)
    if found:
        g = drawn.inputs[-1]
        f = drawn.inputs[0] if len(drawn.inputs) == 2 else on(ONE, *o.interval(g))
        yield Case('quotient', (f, g, found[0], found[-1]), made=drawn.entry)


# ---- What the cases are -----------------------------------------------------------------------

def weights(drawn, made):
    """The weight in units of each list that is made."""
    lists = {'w': made.w}
    if len(drawn.inputs) == 2:
        lists = {'h': p.product(p.values(drawn.inputs[0].coefficients), made.w), **lists}
    return {name: o.weight(p.in_units(row)) for name, row in lists.items()}


def is_power(g):
    """Whether a model is plus or minus a power of two, alone."""
    size = o.weight(g.coefficients)
    return size == abs(g.coefficients[0]) and size & size - 1 == 0


def kinds(drawn, lengths, number):
    """What is said of one case, whose areas have these lengths."""
    if drawn.made:
        return [(drawn.made, 'test', number)]
    entry, sizes, g = drawn.entry, AREA_SIZES[drawn.entry], drawn.inputs[-1]
    found = [(entry, number), *((entry, f'{name} of {length}') for name, length in zip(sizes, lengths))]
    if number in (SHORT_AREA, BAD_MODEL, BAD_ENDS, DIFFERENT_INTERVALS):
        return found
    found.append((entry, 'model', tuple((m.coefficients, m.radius) for m in drawn.inputs)))     # on whatever interval
    if g.coefficients[0] == 0:
        return [*found, (entry, '15, g_0 is zero')]
    made = p.made_reciprocal(g.coefficients)
    if made.outcome is None:
        return [*found, (entry, '15 in round 12' if made.rounds == p.ROUNDS else '15 in an earlier round')]
    if number == NOT_FINITE:                        # 15 before 16: units of such a w weigh too much
        assert o.weight(p.in_units(made.w)) > LIMIT
        return [*found, (entry, '15, f times w')]
    ending = 'settled' if made.outcome == SETTLED else 'given up'
    weighed = weights(drawn, made)
    if number == LARGE_PROPOSAL:
        found += [(entry, '16, power of two', g.coefficients[0])] * is_power(g)
        found += [(entry, 'weight 2^28 + 1')] * (LIMIT + 1 in weighed.values())
        which = ' and '.join(name for name, size in weighed.items() if size > LIMIT)
        return [*found, (entry, f'16, {ending}'), (entry, f'16 of {which}')]
    found += [(entry, 'weight 2^28')] * (LIMIT in weighed.values())
    found += [(entry, 'settled', made.rounds) if made.outcome == SETTLED else (entry, 'given up')]
    found += [(entry, 'power of two', g.coefficients[0])] * is_power(g)
    found += [(entry, 'change 2^-24')] * (made.change == p.SMALL) + [(entry, 'change 0')] * (made.change == 0)
    return found + [(entry, 'both lists together above 2^28')] * (sum(weighed.values()) > LIMIT)


OF_BOTH = (*NUMBERS, *(('settled', rounds) for rounds in range(1, p.ROUNDS + 1)), 'given up', '16, settled', '16, given up',
           '15, g_0 is zero', '15 in round 12', '15 in an earlier round', 'change 2^-24', 'change 0', 'weight 2^28',
           'weight 2^28 + 1',
           *(('power of two', sign << k) for k in range(12, 29) for sign in (1, -1)),
           *(('16, power of two', sign << k) for k in range(12) for sign in (1, -1)))
OF_ONE = {'make_reciprocal': ('16 of w',),
          'make_quotient': ('16 of h', '16 of w', '16 of h and w', '15, f times w', 'both lists together above 2^28')}


def demanded(entry):
    for kind in (*OF_BOTH, *OF_ONE[entry]):
        yield (entry, *kind) if isinstance(kind, tuple) else (entry, kind)
    for name, size in AREA_SIZES[entry].items():
        yield from ((entry, f'{name} of {length}') for length in {0, size - 1, size, size + 1})


def counted(found, entries):
    """How many different models there are, and the counts in words; each kind must be there."""
    entries = [entry for entry in MAKERS if entry in entries]
    missing = [kind for entry in entries for kind in demanded(entry) if not found[kind]]
    assert not missing, f'no made proposal: {missing}'
    rows = []
    for entry in entries:
        rounds = ' '.join(f'{n}:{found[entry, "settled", n]}' for n in range(1, p.ROUNDS + 1))
        rest = ', '.join(f'{kind} {found[entry, kind]}' for kind in (*OF_BOTH, *OF_ONE[entry]) if isinstance(kind, str))
        tests = {kind[2]: calls for kind, calls in found.items() if kind[:2] == (entry, 'test')}
        assert not tests or {ACCEPTED, NOT_CONTRACTING} <= set(tests), f'{entry}: none made passes, or none fails'
        tested = f'; put to the test (number:calls) {" ".join(f"{n}:{c}" for n, c in sorted(tests.items()))}' if tests else ''
        rows.append(f'{entry} (settled, rounds:calls {rounds}) {rest}{tested}')
    models = sum(kind[1] == 'model' for kind in found)
    return models, '\n  '.join([f'{models} different models', *rows])


def check_makers():
    """compare.py asks this before every comparison: floats are binary64, and what the request states of single models holds."""
    assert (float_info.mant_dig, float_info.min_exp, float_info.max_exp, float_info.rounds) == (53, -1021, 1024, 1)
    for number, (g,) in WITNESSES['make_reciprocal'].items():
        assert p.make_reciprocal(g)[0] == number
    for j in range(12, 29):                         # with no rounding at all
        number, record, w, outcome = p.make_reciprocal(constant(1 << j))
        assert (number, outcome, w) == (ACCEPTED, [SETTLED], [MAX_DEGREE, 1 << (40 - j)] + [0] * MAX_DEGREE)
        assert record == [p.bits(2.0 ** (20 - j))] + [0] * COEFFICIENTS
    for rounds, (place, other) in SETTLING.items():
        made = p.made_reciprocal(two_terms(S, place, other).coefficients)
        assert (made.rounds, made.outcome) == (rounds, SETTLED)
    for (first, other), rounds, change in (((1 << 22, 1), 1, p.SMALL), ((1 << 22, 2), 2, 2.0 ** -45),
                                           (((1 << 22) - 1, 1), 2, None), (((1 << 22) + 1, 1), 1, None)):
        made = p.made_reciprocal(model([first, other]).coefficients)
        assert made.rounds == rounds and change in (None, made.change)
    made = p.made_reciprocal(VANISHING.coefficients)
    assert (made.rounds, made.outcome, made.change) == (7, SETTLED, 2.0 ** -31)
    test, = tests_of(reciprocal_case(VANISHING))
    assert o.quotient(*test.inputs)[0] == NOT_CONTRACTING
    # 15 of f times w before 16 of w; each list's own weight.
    assert p.make_quotient(constant(LIMIT), DIVERGING)[0] == NOT_FINITE and p.make_quotient(ONE, DIVERGING)[0] == LARGE_PROPOSAL
    assert p.made_reciprocal(DIVERGING.coefficients).outcome == GIVEN_UP
    for g in HALVED_LAST:
        made = p.made_reciprocal(g.coefficients)
        assert (made.rounds, made.outcome) == (p.ROUNDS, None) and not any(map(isnan, made.w))
    assert p.make_quotient(model([S, 5]), constant(1 << 13))[0] == ACCEPTED


WITNESSES = {
    'make_reciprocal': {ACCEPTED: (model([2 * S, S]),), BAD_MODEL: (constant(LIMIT + 1),), NOT_FINITE: (term(1, S),),
                        LARGE_PROPOSAL: (constant(4095),), BAD_ENDS: (on(ONE, S, S),)},
    'make_quotient': {ACCEPTED: (model([S, 5], 3), model([2 * S, S])), BAD_MODEL: (ONE, constant(LIMIT + 1)),
                      NOT_FINITE: (constant(LIMIT), DIVERGING), LARGE_PROPOSAL: (ONE, DIVERGING), BAD_ENDS: (on(ONE, S, -S), ONE),
                      DIFFERENT_INTERVALS: (ONE, on(ONE, 0, 1))},
}
FIXED = {'make_reciprocal': fixed_reciprocals, 'make_quotient': fixed_quotients}
RANDOM = {'make_reciprocal': random_reciprocal, 'make_quotient': random_quotient}
