"""Cases for models on their own intervals, document 02's S-24: each entry on intervals of every size, 18 and 19 at each place in
the order of the operands, points that are mapped exactly, inexactly and by a tie, integrals that leave 32 bits.

interval_jobs.py has those in jobs; interval_rules.py asks that the fixed cases show each wrong rule.
"""

from collections import Counter
from itertools import cycle, islice, product
from random import Random

import cases
import certificate_cases
import oracle as o
import proposal_cases
import selection_cases
import tight_root_cases
from area_cases import AREAS, CANDIDATE_IN, MODEL_IN, WITNESSES, sized, witness
from candidates import largest_accepted
from cases import HIGHEST, LOWEST, Case, on, random_interval, random_model, signed, spread
from header import ACCEPTED, BAD_ENDS, BAD_MODEL, DIFFERENT_INTERVALS, MAX_DEGREE, MAX_END, POINT_OUTSIDE, S, SHORT_AREA
from oracle import LIMIT, STANDARD, constant, model, term

# How many models each entry takes, ahead of its other inputs; the entries that take any.
MODELS = {entry: areas.count(MODEL_IN) for entry, areas in AREAS.items() if MODEL_IN in areas}
OF_TWO = [entry for entry, count in MODELS.items() if count == 2]
CANDIDATES = {entry: AREAS[entry].count(CANDIDATE_IN) for entry in MODELS}
LEAST, GREATEST = -MAX_END, MAX_END
EXTENTS = (1, 2, 3, S, 2 * S, 4 * S, MAX_END, 2 * MAX_END)
INTERVALS = [
    (0, 1), (GREATEST - 1, GREATEST), (LEAST, LEAST + 1), (-1, 0), (0, 2), (-1, 1), (6, 8), (0, 3), (-2, 1),
    (GREATEST - 3, GREATEST), (0, S), (-S, 0), (0, 2 * S), (1 - S, 1 + S), (LEAST, LEAST + 2 * S), (GREATEST - 2 * S, GREATEST),
    (-2 * S, 2 * S), (S, 5 * S), (-S, 2 * S), (-S - 1, S), (0, GREATEST), (LEAST, 0), (LEAST, GREATEST),
    (LEAST + 1, GREATEST), (LEAST, GREATEST - 1), (7, 1000003), (-123456789, 98765432), (3 * S + 1, 3 * S + 12345),
]
WRONG_ENDS = [
    (0, 0), (S, S), (-S, -S), (LEAST, LEAST), (GREATEST, GREATEST), (1, 0), (S, -S), (GREATEST, LEAST), (2 * S, 0),
    (LEAST - 1, 0), (LEAST - 1, LEAST), (LEAST - 1, GREATEST), (0, GREATEST + 1), (GREATEST, GREATEST + 1), (LEAST, GREATEST + 1),
    (LEAST - 1, GREATEST + 1), (LOWEST, HIGHEST), (HIGHEST, LOWEST), (LOWEST, 0), (0, HIGHEST), (LOWEST, LOWEST),
    (HIGHEST, HIGHEST), (LOWEST, LOWEST + 1), (HIGHEST - 1, HIGHEST), (-1 << 29, 0), (0, 1 << 29),
    (GREATEST + 1, 0), (0, LEAST - 1),
]
DIFFERENT = [
    # The same extent, the same l, the same u, nothing.
    (STANDARD, (0, 2 * S)), (STANDARD, (1 - S, 1 + S)), ((0, 1), (1, 2)), ((LEAST, LEAST + 7), (GREATEST - 7, GREATEST)),
    (STANDARD, (-S, S + 1)), (STANDARD, (-S, 0)), ((LEAST, GREATEST), (LEAST, LEAST + 1)), ((0, 1), (0, 2)),
    (STANDARD, (1 - S, S)), (STANDARD, (0, S)), ((LEAST, GREATEST), (GREATEST - 1, GREATEST)), ((-1, 0), (-2, 0)),
    (STANDARD, (0, 1)), ((LEAST, 0), (0, GREATEST)), ((-3, 5), (-5, 3)), (STANDARD, (-2 * S, 2 * S)),
]


# ---- Calls on intervals ------------------------------------------------------------------------------------------------------

def moved_point(p, lower, upper):
    """The point of these ends that p is of -S and S; outside as far outside."""
    if -S <= p <= S:
        return lower + (p + S) * (upper - lower) // (2 * S)
    return max(LOWEST, min(HIGHEST, p - S + upper if p > S else p + S + lower))


def placed(case, *ends):
    """The call with its models on these intervals in turn; the point of an evaluation goes along."""
    count = MODELS[case.entry]
    models = tuple(on(m, *pair) for m, pair in zip(case.inputs[:count], cycle(ends)))
    scalar = moved_point(case.scalar, *ends[0]) if case.entry == 'evaluate' else case.scalar
    return case._replace(inputs=models + case.inputs[count:], scalar=scalar)


def plain_witnesses(entry):
    """The entry's calls for the numbers that neither a model nor its interval gives."""
    return [witness(entry, number) for number in WITNESSES[entry] if number not in (BAD_MODEL, BAD_ENDS, DIFFERENT_INTERVALS)]


def fixed_placed(entry):
    """Each answer of the entry on each interval; wrong ends and the zero model at each operand; different intervals, with what
    would be refused later."""
    calls = plain_witnesses(entry)
    for call in calls:
        yield from (placed(call, ends) for ends in (*INTERVALS, *WRONG_ENDS))
    for call in calls[:1] if entry in OF_TWO else ():
        for ends in WRONG_ENDS:
            yield from (placed(call, ends, STANDARD), placed(call, STANDARD, ends), placed(call, ends, (0, 1)))
    for pair in DIFFERENT if entry in OF_TWO else ():
        yield from (placed(call, *both) for call in calls for both in (pair, pair[::-1]))
    for call in calls:
        for i in range(MODELS[entry]):
            yield call._replace(inputs=(*call.inputs[:i], o.ZERO_MODEL, *call.inputs[i + 1:]))


# A model good on one of two intervals, with wrong ends, beyond its limits, both.
STATES = 'first', 'second', 'ends', 'limits', 'both'


def in_state(m, state, wrong):
    ends = {'first': STANDARD, 'second': (0, 2 * S), 'limits': (0, 2 * S)}.get(state, wrong)
    beyond = m._replace(radius=-1) if m.degree % 2 else m._replace(degree=MAX_DEGREE + 1)
    return on(beyond if state in ('limits', 'both') else m, *ends)


def other_inputs(call):
    """What stands behind the models: good and bad candidates, or proposals of every number; as the call has it otherwise."""
    rest = call.inputs[MODELS[call.entry]:]
    if call.entry == 'quotient_of_two':
        first = [tested[0] for tested in selection_cases.TESTED.values()]
        return product(*2 * ((*first, selection_cases.TESTED[BAD_MODEL][1]),))      # h bad, and w alone
    return product(*((c, c._replace(degree=MAX_DEGREE + 1)) for c in rest))


def fixed_orders(entry):
    """Every combination of what can be wrong with the operands, before each later refusal."""
    wrong = cycle(WRONG_ENDS)
    for call in plain_witnesses(entry)[:1 if entry == 'quotient_of_two' else None]:
        for states in product(STATES, repeat=MODELS[entry]):
            models = tuple(in_state(m, state, next(wrong)) for m, state in zip(call.inputs, states))
            yield from (call._replace(inputs=models + rest) for rest in other_inputs(call))


# Of the fixed cases of each entry on the standard interval every so many-th is put on another.
STEPS = {'tight_root': 3, 'quotient_of_two': 5, 'make_reciprocal': 3, 'make_quotient': 3}


def fixed_moved(entry):
    former = {**cases.FIXED, **certificate_cases.FIXED, **selection_cases.FIXED, **proposal_cases.FIXED, **tight_root_cases.FIXED}
    for call, ends in zip(islice(former[entry](), 0, None, STEPS.get(entry, 1)), cycle(INTERVALS)):
        yield placed(call, ends)


# ---- Points ------------------------------------------------------------------------------------------------------------------

CURVES = (model([0, LIMIT]), term(2, LIMIT), term(MAX_DEGREE, LIMIT, 3), term(MAX_DEGREE - 1, -LIMIT),
          model([S // 3] * (MAX_DEGREE + 1), LIMIT), model([(-1) ** k * (LIMIT // 33) for k in range(MAX_DEGREE + 1)]),
          model([5, -1, 7]), constant(LIMIT, 1), model([], 3, MAX_DEGREE))


def points(lower, upper):
    """Those at the ends and one off, around the middle, and some between."""
    middle = (lower + upper) // 2
    found = {end + d for end in (lower, middle, upper) for d in (-1, 0, 1)}
    found |= {lower + (upper - lower) * i // 7 for i in range(8)} | {LOWEST, HIGHEST, 0, S, -S, S + 1}
    return sorted(p for p in found if LOWEST <= p <= HIGHEST)


def tied_point(rng):
    """Ends and a point that is mapped by a tie: the extent is an odd number times 2^22 or a higher power of two."""
    shift = rng.randint(22, 29)
    odd = rng.randrange(1, 1 << 29 - shift, 2) if shift < 29 else 1
    extent = odd << shift
    lower = rng.choice((LEAST, GREATEST - extent, rng.randint(LEAST, GREATEST - extent)))
    p = lower + extent // 2 + (odd << shift - 22) * signed(rng, rng.choice((1, 3, rng.randrange(1, 1 << 21, 2))))
    return lower, lower + extent, p


def fixed_points():
    for lower, upper in INTERVALS:
        for p in points(lower, upper):
            yield from (Case('evaluate', (on(m, lower, upper),), p) for m in CURVES)
    for lower, upper in WRONG_ENDS:
        for p in points(lower, upper):
            yield Case('evaluate', (on(CURVES[0], lower, upper),), p)
    rng = Random(24)
    for m in islice(cycle(CURVES[:6]), 300):
        lower, upper, p = tied_point(rng)
        yield Case('evaluate', (on(m, lower, upper),), p)


# ---- Integrals ---------------------------------------------------------------------------------------------------------------

def wide_integrals():
    """On 2^29 units: coefficients that come back to small numbers in 32 bits, and up to 2^36."""
    for degree in (0, 1, 2, 7, MAX_DEGREE - 1):
        for size in (1 << 23, 1 << 24, 1 << 25, 3 << 24, 1 << 27, LIMIT):
            for extra in (-1, 0, 1):
                for sign in (1, -1):
                    yield on(term(degree, sign * min(LIMIT, size * (degree + 1) + extra)), LEAST, GREATEST)
    yield from (on(constant(LIMIT, LIMIT), LEAST, GREATEST), on(constant(-LIMIT), LEAST, GREATEST - 1))


def at_limits(lower, upper):
    """Weights and radii at the limit of the result, and one more; ties at the top; radii of which 'up' shows."""
    for degree in (0, 1, 2, 5, MAX_DEGREE - 1, MAX_DEGREE):
        m = on(term(degree, 1), lower, upper)
        edge = largest_accepted(lambda value: o.integrate(on(term(degree, value), lower, upper))[0] == ACCEPTED)
        wide = largest_accepted(lambda e: o.integrate(m._replace(radius=e))[0] == ACCEPTED)
        for value in () if edge is None else (edge, edge + 1):
            yield from (on(term(degree, sign * min(value, LIMIT)), lower, upper) for sign in (1, -1))
        for e in () if wide is None else (wide, min(wide + 1, LIMIT)):
            yield m._replace(radius=e)
        for e in (1, 2, S - 1, S, S + 1):
            yield m._replace(radius=e)
        for odd in (1, 3, -1, -3, 5):               # numerators whose scaled half is a tie, where the extent has one
            yield on(term(degree, odd * (degree + 1)), lower, upper)
            yield on(term(degree, odd * 2 * S * (degree + 1) // (upper - lower) or odd), lower, upper)


def fixed_integrals():
    for m in wide_integrals():
        yield Case('integrate', (m,))
    rng = Random(24)
    for lower, upper in INTERVALS:
        for m in at_limits(lower, upper):
            yield Case('integrate', (m,))
        for degree in range(0, MAX_DEGREE, 3):
            total = min(LIMIT, LIMIT * S // (upper - lower))
            yield Case('integrate', (on(model(spread(rng, degree, total), rng.randint(0, 99)), lower, upper),))


# ---- Makers ------------------------------------------------------------------------------------------------------------------

def fixed_zero_divisors():
    """g_0 = 0, which is refused with 15 before any round, behind 19."""
    for first, second in DIFFERENT:
        yield Case('make_quotient', (on(constant(S), *first), on(term(1, S), *second)))


OF_ENTRY = {'evaluate': fixed_points, 'integrate': fixed_integrals, 'make_quotient': fixed_zero_divisors}


def interval_cases(entry):
    if entry not in MODELS:
        return
    for made in (fixed_placed, fixed_orders, fixed_moved):
        yield from made(entry)
    yield from OF_ENTRY.get(entry, tuple)()


# ---- Random ------------------------------------------------------------------------------------------------------------------

def beside(rng, lower, upper):
    """Other ends: both moved, one of them, the standard ones or any."""
    d = rng.choice((1, -1, 2 * S, rng.randint(-99, 99) or 1))
    return rng.choice(((lower + d, upper + d), (lower, upper + abs(d)), (lower - abs(d), upper), STANDARD, random_interval(rng)))


def shrunk(m):
    """An integrand whose integral is about as large on its interval as it was on the standard one."""
    part = max(1, o.up(m.upper - m.lower, 2 * S))
    return m._replace(coefficients=tuple(int(c / part) for c in m.coefficients), radius=m.radius // part)


def on_some_interval(rng, case):
    """A random call of any entry, in about half of those with models on a drawn interval; of these some on two, some with wrong
    ends."""
    if case.entry not in MODELS or rng.random() < 0.45:
        return case
    ends = [random_interval(rng)] * MODELS[case.entry]
    kind, at = rng.random(), rng.randrange(len(ends))
    if kind < 0.06:
        ends[at] = rng.choice(WRONG_ENDS)
    elif kind < 0.14:
        ends[at] = beside(rng, *ends[at])
    if case.entry == 'evaluate' and kind > 0.8:
        lower, upper, p = tied_point(rng)
        return case._replace(inputs=(on(random_model(rng), lower, upper),), scalar=p)
    case = placed(case, *ends)
    if case.entry == 'integrate' and kind < 0.7:
        return case._replace(inputs=tuple(map(shrunk, case.inputs)))
    if case.entry == 'evaluate' and 0.2 < kind < 0.7:
        return case._replace(scalar=rng.randint(*ends[0]))
    return case


# ---- What the calls are ------------------------------------------------------------------------------------------------------

def answer(case):
    """The oracle's number."""
    call = getattr(proposal_cases.p if case.entry in proposal_cases.MAKERS else o, case.entry)
    return call(*case.inputs, *[case.scalar] * (case.entry in ('multiply', 'evaluate')))[0]


def wrong_by(m):
    """On which grounds the ends of a model are wrong."""
    grounds = {'l = u': m.lower == m.upper, 'l > u': m.lower > m.upper, 'l below -2^28': m.lower < LEAST,
               'u above 2^28': m.upper > GREATEST, 'l above 2^28': m.lower > GREATEST, 'u below -2^28': m.upper < LEAST}
    return [name for name, holds in grounds.items() if holds]


def refused_kinds(case, models, number):
    """What is said of a call that a model or its interval refuses; i counts the models."""
    if number == DIFFERENT_INTERVALS:
        f, g = models
        alike = {'extent': f.upper - f.lower == g.upper - g.lower, 'l': f.lower == g.lower, 'u': f.upper == g.upper}
        yield f'19, the same {next((name for name, same in alike.items() if same), "nothing")}'
        yield '19 before', answer(case._replace(inputs=(f, on(g, *o.interval(f)), *case.inputs[2:])))
        return
    i = next((i for i, m in enumerate(models) if not o.good(m)), None)
    if i is None:                                   # a candidate, or a proposal
        apart = not o.same_interval(models[0], models[-1])
        yield from [f'{number} of a candidate, different intervals'] * apart
        return
    m, behind = models[i], models[i + 1:]
    if number == SHORT_AREA:
        yield f'1 of a proposal before {o.fault(m)}'
        return
    yield f'{number} of', i
    if number == BAD_MODEL:
        yield from [('2 before 18 of', i)] * (not o.good_ends(m))
        return
    grounds = wrong_by(m)
    yield from [f'18, {grounds[0]}'] * (len(grounds) == 1)
    yield from (f'18, {name} by one' for name, by_one in (
        ('l below -2^28', m.lower == LEAST - 1), ('u above 2^28', m.upper == GREATEST + 1)) if by_one and grounds == [name])
    yield from ['18, the zero model'] * (m == o.ZERO_MODEL)
    yield from (f'18 before {fault} of the next model' for fault in map(o.fault, behind) if fault)
    if CANDIDATES[case.entry] and not all(map(o.within_limits, case.inputs[len(models):])):
        yield '18 before 2 of a candidate'


def point_kinds(m, p, number):
    """What is said of an evaluation on a good model."""
    if number == POINT_OUTSIDE:
        yield from ['4, p = l - 1'] * (p == m.lower - 1) + ['4, p = u + 1'] * (p == m.upper + 1)
        yield from ['4 within -S..S'] * (-S <= p <= S)
        return
    exact = S * o.position(m, o.Fraction(p, S))
    tie = 'by a tie' if exact.denominator == 2 else 'inexactly'
    yield f'mapped {"exactly" if exact.denominator == 1 else tie}'
    yield from ['p = l'] * (p == m.lower) + ['p = u'] * (p == m.upper) + ['accepted beyond -S..S'] * (not -S <= p <= S)


def integral_kinds(m, number):
    """What is said of an integral of a good model."""
    terms = [0] if m.degree == MAX_DEGREE else o.integral_terms(m)
    largest, left = (max(map(abs, row)) for row in (terms, map(narrowed, terms)))
    if number == ACCEPTED:
        yield from ["'up' of the radius shows"] * (m.radius * (m.upper - m.lower) % S != 0)
        yield from ['e = 1 on an extent of 1'] * (m.radius == m.upper - m.lower == 1)
    elif m.degree < MAX_DEGREE:
        yield from ['3, a coefficient of 2^36'] * (largest == 1 << 36) + ['3, a coefficient beyond 32 bits'] * (largest >= 1 << 31)
        yield from ['3, all within 2^26 in 32 bits'] * (largest >= 1 << 31 and left < 1 << 26)
        yield from ['3 by the radius'] * (largest < LIMIT // 80 and o.integral_radius(m) > LIMIT)


def narrowed(n):
    """What is left of a number in 32 bits."""
    return (n - LOWEST) % (1 << 32) + LOWEST


def is_placed(case):
    """Whether a model of the call has another interval than the standard one."""
    return any(o.interval(m) != STANDARD for m in case.inputs[:MODELS.get(case.entry, 0)])


def kinds(case, lengths, number):
    """What is said of one call, whose areas have these lengths; nothing if all its models are on the standard interval."""
    if not is_placed(case) or any(lengths[i] < size for i, size in sized(case.entry)):
        return []
    models = case.inputs[:MODELS[case.entry]]
    found = [number]
    good = all(map(o.good, models)) and o.same_interval(models[0], models[-1])
    if not good:
        found += refused_kinds(case, models, number)
    elif case.entry == 'evaluate':
        found += point_kinds(*models, case.scalar, number)
    elif case.entry == 'integrate':
        found += integral_kinds(*models, number)
    if number == ACCEPTED:
        lower, upper = o.interval(models[0])
        found += [('extent', upper - lower)] * (upper - lower in EXTENTS)
        found += ['l = -2^28'] * (lower == LEAST) + ['u = 2^28'] * (upper == GREATEST)
    return ['calls', *((case.entry, kind) for kind in found)]


OWN = {
    'evaluate': ['mapped exactly', 'mapped inexactly', 'mapped by a tie', 'p = l', 'p = u', 'accepted beyond -S..S', '4, p = l - 1',
                 '4, p = u + 1', '4 within -S..S'],
    'integrate': ["'up' of the radius shows", 'e = 1 on an extent of 1', '3, a coefficient of 2^36',
                  '3, a coefficient beyond 32 bits', '3, all within 2^26 in 32 bits', '3 by the radius'],
    'quotient_of_two': ['1 of a proposal before 2', '1 of a proposal before 18',
                        *(f'{number} of a candidate, different intervals' for number in (SHORT_AREA, BAD_MODEL))],
}


def demanded(entry):
    yield from WITNESSES[entry]
    yield from (('extent', extent) for extent in EXTENTS)
    yield from ('l = -2^28', 'u = 2^28', '18, l = u', '18, l > u', '18, l below -2^28 by one', '18, u above 2^28 by one',
                '18, the zero model')
    for i in range(MODELS[entry]):
        yield from (('2 of', i), ('18 of', i), ('2 before 18 of', i))
    if entry in OF_TWO:
        yield from (f'19, the same {what}' for what in ('extent', 'l', 'u', 'nothing'))
        yield from ('18 before 2 of the next model', '18 before 18 of the next model')
        later = set(WITNESSES[entry]) - {BAD_MODEL, BAD_ENDS, DIFFERENT_INTERVALS, SHORT_AREA}
        yield from (('19 before', number) for number in later)
    if CANDIDATES[entry]:
        yield '18 before 2 of a candidate'
        yield from ['2 of a candidate, different intervals'] * (entry in OF_TWO)
    yield from OWN.get(entry, ())


def counted(found, entries):
    """The counts in words; each kind must be there."""
    entries = [entry for entry in MODELS if entry in entries]
    missing = [(entry, kind) for entry in entries for kind in demanded(entry) if not found[entry, kind]]
    assert not missing, f'no call with an interval: {missing}'
    rows, together = [], Counter()
    for entry in entries:
        numbers = ' '.join(f'{n}:{found[entry, n]}' for n in sorted(WITNESSES[entry]))
        rows.append(f'{entry} {sum(found[entry, n] for n in WITNESSES[entry])} (number:calls {numbers})')
        together.update({kind: found[entry, kind] for kind in demanded(entry) if not isinstance(kind, int)})
    rest = ', '.join(f'{kind if isinstance(kind, str) else " ".join(map(str, kind))}: {count}' for kind, count in together.items())
    return '\n  '.join([f'{found["calls"]} calls', ', '.join(rows), f'of all entries {rest}'])
