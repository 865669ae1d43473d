"""Cases for two proposals for one quotient, document 02's S-14: every pair of numbers that the two tests give, equal radii and
radii one apart in both orders, proposals of every length, bad models beside short proposals."""

from collections import Counter
from functools import partial
from itertools import product
from operator import ge, le, lt

import oracle as o
from candidates import quotient_candidates
from cases import BAD_DEGREES, BORDER_MODELS, HIGHEST, LOWEST, Case, perhaps_spoiled, random_radius, random_total, signed, spoiled
from certificate_cases import divisor, nudged, realistic_quotient
from header import (ACCEPTED, BAD_MODEL, CANDIDATE_SIZE, CHOSEN_FIRST, CHOSEN_NONE, CHOSEN_SECOND, LARGE_RESIDUAL, LARGE_RESULT,
                    MAX_DEGREE, MODEL_SIZE, NOT_CONTRACTING, PROPOSAL_SIZE, S, SCRATCH_SIZE, SELECTION_SIZE, SHORT_AREA)
from oracle import LIMIT, constant, model, term

NUMBERS = (ACCEPTED, SHORT_AREA, BAD_MODEL, NOT_CONTRACTING, LARGE_RESIDUAL, LARGE_RESULT)     # of one proposal
AREA_SIZES = (MODEL_SIZE, MODEL_SIZE, 0, 0, SCRATCH_SIZE, SELECTION_SIZE)    # f, g, proposals, scratch, answer
SIZES = {name: (i, AREA_SIZES[i]) for i, name in ((0, 'f'), (1, 'g'), (4, 'scratch'), (5, 'answer'))}
LENGTHS = (0, 1, CANDIDATE_SIZE, PROPOSAL_SIZE - 1, PROPOSAL_SIZE, PROPOSAL_SIZE + 1)           # of a proposal
HALVES = slice(CANDIDATE_SIZE), slice(CANDIDATE_SIZE, PROPOSAL_SIZE)                            # h, w
SHOWN = 40                  # fixed cases that a wrong selection changes, at least


def proposal(h, w):
    return (h.degree, *h.coefficients, w.degree, *w.coefficients)


def case(f, g, first, second):
    return Case('quotient_of_two', (f, g, first, second))


def both_orders(f, g, one, other):
    yield case(f, g, one, other)
    yield case(f, g, other, one)


# ---- Proposals for 1/2, by the number that their test gives -------------------------------

DIVIDEND, DIVISOR, HALF = constant(S), constant(2 * S), constant(S // 2)


def off_by(d, w=HALF):
    """h is d units off; with w = 1/2 the radius is |d|."""
    return proposal(constant(S // 2 + d), w)


# With w = 3/4 the radius is 2 up(3 |d| / 2): 2^28, and 2^28 + 2; no test gives a number between them.
WIDE, AT_LIMIT = constant(3 * S // 4), 89478485
BAD = [constant(LIMIT + 1), constant(LOWEST), term(MAX_DEGREE, 1)._replace(degree=0),
       *(HALF._replace(degree=degree) for degree in BAD_DEGREES)]
TESTED = {
    ACCEPTED: [*map(off_by, (0, 5, -5, 6, LIMIT // 2)), off_by(AT_LIMIT, WIDE), off_by(-AT_LIMIT, WIDE), off_by(9, constant(1)),
               off_by(5) + (LOWEST,), off_by(6) + (7,) * PROPOSAL_SIZE, proposal(HALF._replace(degree=MAX_DEGREE), HALF)],
    SHORT_AREA: [off_by(5)[:length] for length in (PROPOSAL_SIZE - 1, CANDIDATE_SIZE + 1, CANDIDATE_SIZE, 1, 0)],
    BAD_MODEL: [proposal(*pair) for bad in BAD for pair in ((bad, HALF), (HALF, bad))],
    NOT_CONTRACTING: [off_by(d, w) for d in (0, LIMIT // 2 + 1) for w in (constant(0), constant(S), constant(-S // 2))],
    LARGE_RESIDUAL: [off_by(d) for d in (LIMIT // 2 + 1, -LIMIT // 2 - 1, LIMIT - S)],
    LARGE_RESULT: [off_by(AT_LIMIT + 1, WIDE), off_by(-AT_LIMIT - 1, WIDE), off_by(LIMIT // 2, WIDE)],
}


# ---- Fixed ----------------------------------------------------------------------------------

def fixed_numbers():
    every = [one for tested in TESTED.values() for one in tested]
    for first, second in product(every, every):
        yield case(DIVIDEND, DIVISOR, first, second)


def fixed_radii():
    """Equal radii, and radii one apart, above and below the quotient."""
    for d in (0, 1, 2, 1000, S, LIMIT // 2 - 1):
        for sign, other in product((1, -1), (1, -1)):
            yield from both_orders(DIVIDEND, DIVISOR, off_by(sign * d), off_by(other * (d + 1)))
            yield case(DIVIDEND, DIVISOR, off_by(sign * d), off_by(other * d))


def fixed_curves():
    """Better and better h and w; the same h with a better w, the same w with a better h."""
    for f, g in ((DIVIDEND, model([2 * S, S])), (model([S, S // 2, -S // 3], 7), model([-3 * S, S, 0, S // 4], 3))):
        pairs = [quotient_candidates(f, g, degree) for degree in range(MAX_DEGREE + 1)]
        best_h, best_w = pairs[-1]
        for (h, w), (next_h, next_w) in zip(pairs, pairs[1:]):
            yield from both_orders(f, g, proposal(h, best_w), proposal(next_h, best_w))
            yield from both_orders(f, g, proposal(best_h, w), proposal(best_h, next_w))
            yield from both_orders(f, g, proposal(h, next_w), proposal(next_h, w))
            yield from both_orders(f, g, proposal(w, h), proposal(h, w))
            yield case(f, g, proposal(h, w), proposal(h, w))


def fixed_models():
    """f and g at the borders of refusal 2, beside short proposals: 1 comes before it, in that proposal alone."""
    long, short = off_by(0), off_by(0)[:-1]
    for m, _ in BORDER_MODELS:
        for f, g in ((m, DIVISOR), (DIVIDEND, m)):
            for first, second in product((long, short), (long, short)):
                yield case(f, g, first, second)


def fixed_lengths():
    """Every length of the proposals, and of each area beside short ones."""
    tail = (LOWEST, HIGHEST, 0, 1)
    rows = [(off_by(d) + tail)[:length] for d in (2, 3) for length in (*LENGTHS, PROPOSAL_SIZE + 3)]
    for first, second in product(rows, rows):
        yield case(DIVIDEND, DIVISOR, first, second)
    long, short, empty = off_by(2), off_by(3)[:-1], ()
    for first, second in product((long, short, empty), (long, short, empty)):
        for i, size in SIZES.values():
            for length in sorted({0, 1, size - 1, size, size + 1}):
                yield case(DIVIDEND, DIVISOR, first, second)._replace(lengths=((i, length),))


def fixed_selections():
    for cases in (fixed_numbers, fixed_radii, fixed_curves, fixed_models, fixed_lengths):
        yield from cases()


# ---- Random ---------------------------------------------------------------------------------

def exact_quotient(rng):
    """f, g and two proposals whose radii are how far their h are off."""
    scale = rng.randint(-6, 6)
    sign, q = rng.choice((1, -1)), signed(rng, rng.randint(0, 1 << 14) << 6)
    g, w = ((sign * S << place if place >= 0 else sign * S >> -place) for place in (scale, -scale))
    d = random_total(rng, 20.0)
    other = rng.choice((d, d, d + 1, d - 1, random_total(rng, 20.0)))
    pairs = [(constant(q + signed(rng, x)), constant(w)) for x in (d, other)]
    return constant(q * g // S), constant(g), pairs


def zero_quotient(rng):
    """f = 0: h and -h have the same radius."""
    g = model(divisor(rng, rng.randint(0, MAX_DEGREE)))
    f = constant(0, random_radius(rng, 18.0))
    found = quotient_candidates(constant(random_total(rng, 24.0)), g, MAX_DEGREE)
    if found is None:
        return None
    h, w = found
    return f, g, [(h, w), (model([-c for c in h.coefficients]), w)]


def solved_quotient(rng):
    """A solver's proposal and another: of another degree, a little off in h or w, or the same."""
    found = realistic_quotient(rng)
    if found is None:
        return None
    f, g, h, w = found
    others = [(h, w), (nudged(rng, h), w), (h, nudged(rng, w)), quotient_candidates(f, g, rng.randint(0, MAX_DEGREE))]
    return f, g, [(h, w), rng.choice(others) or (h, w)]


def scaled(m, factor):
    return model([max(LOWEST, min(HIGHEST, int(c * factor))) for c in m.coefficients], 0, m.degree)


def moved(m, d):
    """The constant coefficient moved, the weight kept within the limit."""
    room = LIMIT - o.weight(m.coefficients[1:])
    return model([max(-room, min(room, m.coefficients[0] + d)), *m.coefficients[1:]], 0, m.degree)


def failing(rng, g, h, w):
    """A proposal made to fail with each of the numbers; some pass, or fail with another."""
    number = rng.choice(NUMBERS[1:])
    size = max(1, abs(g.coefficients[0]))
    if number == SHORT_AREA:
        return proposal(h, w)[:rng.choice((*LENGTHS[:-2], rng.randrange(PROPOSAL_SIZE)))]
    if number == BAD_MODEL:
        bad = rng.randrange(2)
        return proposal(*(spoiled(rng, m, candidate=True) if i == bad else m for i, m in enumerate((h, w))))
    if number == NOT_CONTRACTING:
        return proposal(h, rng.choice((constant(0), scaled(w, -1), scaled(w, 3))))
    if number == LARGE_RESIDUAL:
        return proposal(moved(h, signed(rng, LIMIT)), w)
    return proposal(moved(h, signed(rng, int(0.9 * LIMIT * S / size))), scaled(w, rng.uniform(1.3, 1.9)))


def random_selection(rng):
    draw, = rng.choices((exact_quotient, zero_quotient, solved_quotient), (2, 1, 5))
    f, g, pairs = draw(rng) or exact_quotient(rng)
    row = []
    for h, w in rng.sample(pairs, 2):
        drawn = failing(rng, g, h, w) if rng.random() < 0.45 else proposal(h, w)
        behind = rng.choice((0, 0, 0, 1, rng.randint(1, 40)))
        row.append(drawn + tuple(rng.randint(LOWEST, HIGHEST) for _ in range(behind if len(drawn) == PROPOSAL_SIZE else 0)))
    return case(*perhaps_spoiled(rng, (f, g), 0.03), *row)


# ---- What the cases are ---------------------------------------------------------------------

def kinds(drawn, lengths):
    """What is said of one case, whose areas have these lengths."""
    f, g, *proposals = drawn.inputs
    short = [len(one) < PROPOSAL_SIZE for one in proposals]
    found = [f'{name} of {lengths[i]}' for name, (i, _) in SIZES.items()]
    found += [f'scratch of {lengths[4]}, both short'] * all(short)
    if any(lengths[i] < size for i, size in SIZES.values()):
        return found
    (number, radius), (other, second) = tests = [o.proposal_test(f, g, one) for one in proposals]
    found += ['pairs', (number, other)]
    for name, one, (verdict, wide) in zip(('first', 'second'), proposals, tests):
        found += [f'{name} of {len(one)} numbers'] + [f'radius 2^28, {name}'] * (verdict == ACCEPTED and wide == LIMIT)
        found += [f'{part} of a degree below 0, {name}' for part, place in (('h', 0), ('w', CANDIDATE_SIZE))
                  if verdict != SHORT_AREA and one[place] < 0]
    if not (o.good(f) and o.good(g)) and any(short) and not all(short):
        found.append(f'bad model, {"first" if short[0] else "second"} short')
    if any(short) or ACCEPTED not in (number, other):
        return found
    same_h, same_w = (proposals[0][part] == proposals[1][part] for part in HALVES)
    if number != other:
        found += ['one passes, the same h'] * same_h + ['one passes, the same w'] * same_w
    elif radius == second:
        found.append('equal radii, ' + ('another h' if not same_h else 'the same proposal' if same_w else 'another w'))
    else:
        found.append('first tighter' if radius < second else 'second tighter')
        found += [f'{found[-1]} by 1'] * (abs(radius - second) == 1)
    return found


DEMANDED = [
    *product(NUMBERS, NUMBERS),
    *(f'equal radii, {which}' for which in ('the same proposal', 'another h', 'another w')),
    *(f'one passes, the same {part}' for part in 'hw'),
    *(f'{name} tighter{by}' for name in ('first', 'second') for by in ('', ' by 1')),
    *(f'{name} of {length} numbers' for name in ('first', 'second') for length in LENGTHS),
    *(f'{name} of {length}' for name, (_, size) in SIZES.items() for length in sorted({0, size - 1, size, size + 1})),
    *(f'scratch of {length}, both short' for length in (0, SCRATCH_SIZE - 1, SCRATCH_SIZE, SCRATCH_SIZE + 1)),
    *(f'{part} of a degree below 0, {name}' for part in 'hw' for name in ('first', 'second')),
    *(f'radius 2^28, {name}' for name in ('first', 'second')), *(f'bad model, {name} short' for name in ('first', 'second')),
]


def counted(found):
    """The counts in words; each kind must be there."""
    missing = [kind for kind in DEMANDED if not found[kind]]
    assert not missing, f'no pair of proposals: {missing}'
    numbers = ' '.join(f'{a},{b}:{found[a, b]}' for a, b in product(NUMBERS, NUMBERS))
    rest = ', '.join(f'{kind} {found[kind]}' for kind in DEMANDED if isinstance(kind, str) and ' of ' not in kind)
    return f'{found["pairs"]} tested (numbers of first,second:pairs {numbers}); {rest}'


def check_selection():
    """compare.py asks this before every comparison: each proposal for 1/2 has its number, and the radius is as said."""
    for number, tested in TESTED.items():
        for one in tested:
            assert o.proposal_test(DIVIDEND, DIVISOR, one)[0] == number, (number, one)
    for d in (0, 5, -5, LIMIT // 2):
        assert o.proposal_test(DIVIDEND, DIVISOR, off_by(d)) == (ACCEPTED, abs(d))
    assert o.proposal_test(DIVIDEND, DIVISOR, off_by(AT_LIMIT, WIDE)) == (ACCEPTED, LIMIT)


def selected(tests, prefers=le, refusal=0):
    """The answer by the numbers and radii of both tests; the right one unless told otherwise."""
    (number, radius), (other, second) = tests
    if number == ACCEPTED and (other != ACCEPTED or prefers(radius, second)):
        return ACCEPTED, CHOSEN_FIRST, radius
    if other == ACCEPTED:
        return ACCEPTED, CHOSEN_SECOND, second
    return tests[refusal][0], CHOSEN_NONE, 0


def refused_if_short(tests):
    return (SHORT_AREA, CHOSEN_NONE, 0) if SHORT_AREA in next(zip(*tests)) else selected(tests)


WRONG_SELECTIONS = {
    'ties to the second': partial(selected, prefers=lt), 'the larger radius': partial(selected, prefers=ge),
    'the first if it passes': partial(selected, prefers=lambda *_: True), 'the refusal of the second': partial(selected, refusal=1),
    'a short one refuses the call': refused_if_short,
}


def check_cases():
    """The fixed cases hold every kind of pair, each pair with different radii in both orders, and show each wrong selection."""
    found, drawn = Counter(), list(fixed_selections())
    shown, inputs = Counter(), {one.inputs for one in drawn}
    for one in drawn:
        told = dict(one.lengths)
        found.update(kinds(one, [told.get(i, size) for i, size in enumerate(AREA_SIZES)]))
        f, g, *proposals = one.inputs
        tests = [o.proposal_test(f, g, p) for p in proposals]
        right = o.quotient_of_two(*one.inputs)
        assert selected(tests) == right
        shown.update(name for name, rule in WRONG_SELECTIONS.items() if rule(tests) != right)
        if tests[0][0] == tests[1][0] == ACCEPTED and tests[0][1] != tests[1][1]:
            assert (f, g, *reversed(proposals)) in inputs, 'a pair in one order alone'
    assert all(shown[name] >= SHOWN for name in WRONG_SELECTIONS), shown
    return counted(found), ', '.join(f'{name} shows in {shown[name]}' for name in WRONG_SELECTIONS)


FIXED = {'quotient_of_two': fixed_selections}
RANDOM = {'quotient_of_two': random_selection}

if __name__ == '__main__':
    check_selection()
    print('two proposals, fixed cases: %s; %s' % check_cases())
