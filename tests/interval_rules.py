"""Are the fixed cases of document 02's S-24 sharp?  One wrong rule at a time in the oracle must change the answers to some of them;
and the soundness checks must find those that make an answer too small, or put it on another interval.

  interval_rules.py [part of a rule's name]
"""

import sys
from contextlib import contextmanager
from fractions import Fraction
from random import Random

import compare
import interval_cases
import interval_jobs
import oracle as o
import proposal_oracle as p
import soundness
from area_cases import AREAS, area_cases
from cases import LOWEST, Case, on
from header import (ACCEPTED, BAD_ENDS, BAD_MODEL, BAD_VALUE, BLOCK_BYTES, COEFFICIENTS, DEFAULT_KEPT, DIFFERENT_INTERVALS,
                    MAX_DEGREE, MAX_END, MAX_RESULTS, MODEL_SIZE, PROPOSAL_SIZE, S)
from interval_cases import MODELS, narrowed
from oracle import STANDARD, Model

SHOWN = 5                   # fixed cases that a wrong rule changes, at least
near, right_fault, right_terms, right_test = o.near, o.fault, o.integral_terms, o.proposal_test


def lipschitz(a):
    return sum(abs(c) * k * k for k, c in enumerate(a.coefficients))


# ---- Which models are good ---------------------------------------------------------------------------------------------------

def ends_first(m):
    return right_fault(m) if o.good_ends(m) else BAD_ENDS


def by_ends(rule):
    """A rule for good ends."""
    return 'good_ends', lambda m: rule(m.lower, m.upper)


def by_order(order):
    """A rule for the order: it gives the refusals of the models, of the candidates, of their intervals in turn."""
    def rule(models, candidates=()):
        of_candidates = [ACCEPTED if o.within_limits(c) else BAD_MODEL for c in candidates]
        apart = ACCEPTED if o.same_interval(models[0], models[-1]) else DIFFERENT_INTERVALS
        return next(filter(None, order(list(map(o.fault, models)), of_candidates, apart)), ACCEPTED)
    return 'first_fault', rule


def numbers_in_turn(faults, of_candidates, apart):
    """Every 2, of candidates too, before every 18."""
    return [*(n for number in (BAD_MODEL, BAD_ENDS) for n in (*faults, *of_candidates) if n == number), apart]


GOOD = [
    ('18 before 2', 'fault', ends_first),
    ('18 left out', 'fault', lambda m: right_fault(m) if right_fault(m) == BAD_MODEL else ACCEPTED),
    ('2 for 18', 'fault', lambda m: BAD_MODEL if right_fault(m) else ACCEPTED),
    ('l = u accepted', *by_ends(lambda l, u: -MAX_END <= l <= u <= MAX_END)),
    ('l > u accepted', *by_ends(lambda l, u: max(abs(l), abs(u)) <= MAX_END and l != u)),
    ('l = -2^28 - 1 accepted', *by_ends(lambda l, u: -MAX_END - 1 <= l < u <= MAX_END)),
    ('l = -2^28 refused', *by_ends(lambda l, u: -MAX_END < l < u <= MAX_END)),
    ('u = 2^28 + 1 accepted', *by_ends(lambda l, u: -MAX_END <= l < u <= MAX_END + 1)),
    ('u = 2^28 refused', *by_ends(lambda l, u: -MAX_END <= l < u < MAX_END)),
    ('l = -2^31 accepted', *by_ends(lambda l, u: l < u <= MAX_END and (l >= -MAX_END or l == LOWEST))),
    ('ends without limits', *by_ends(lambda l, u: l < u)),
    ('extent of 1 refused', *by_ends(lambda l, u: -MAX_END <= l < u - 1 < MAX_END)),
    ('every 2 before every 18', *by_order(numbers_in_turn)),
    ('2 of h and w before 18', *by_order(lambda f, c, apart: [*(n for n in f if n == BAD_MODEL), *c, *f, apart])),
    ('19 before 2 of h', *by_order(lambda f, c, apart: [*f, apart, *c])),
    ('19 before the models', *by_order(lambda f, c, apart: [apart, *f, *c])),
    ('19 before 18', *by_order(lambda f, c, apart: [*(n for n in f if n == BAD_MODEL), apart, *f, *c])),
    ('19 left out', *by_order(lambda f, c, apart: [*f, *c])),
    ('18 for 19', *by_order(lambda f, c, apart: [*f, *c, BAD_ENDS if apart else ACCEPTED])),
    ('only the extents compared', 'same_interval', lambda a, b: a.upper - a.lower == b.upper - b.lower),
    ('only l compared', 'same_interval', lambda a, b: a.lower == b.lower),
    ('only u compared', 'same_interval', lambda a, b: a.upper == b.upper),
    ("a result's ends zero", 'result_ends', lambda operand: (0, 0)),
    ("a result's ends -S and S", 'result_ends', lambda operand: STANDARD),
    ("a result's ends exchanged", 'result_ends', lambda operand: (operand.upper, operand.lower)),
    ('ends of the zero model -S and S', 'ZERO_MODEL', Model(0, (0,) * COEFFICIENTS, 0, *STANDARD)),
]


# ---- What comes behind 19 ----------------------------------------------------------------------------------------------------

def behind(entry, refusals, module=o):
    """A rule by which 19 comes behind these refusals of an entry of two models."""
    right = getattr(module, entry)

    def rule(f, g, *rest):
        answer = right(f, g, *rest)
        if answer[0] != DIFFERENT_INTERVALS:
            return answer
        later = right(f, on(g, *o.interval(f)), *rest)
        return later if later[0] in refusals else answer
    return entry, rule


def kept_first(a, b, kept, right=o.multiply):
    return o.refused(BAD_VALUE) if MAX_DEGREE < kept != DEFAULT_KEPT else right(a, b, kept)


def models_first(f, g, proposal):
    """The 1 of a short proposal behind the refusals of the models."""
    number = o.first_fault((f, g)) if len(proposal) < PROPOSAL_SIZE else ACCEPTED
    return (number, 0) if number else right_test(f, g, proposal)


# ---- Evaluation --------------------------------------------------------------------------------------------------------------

def mapped_by(rounded):
    """A rule for the mapped point: it rounds a fraction."""
    def rule(a, p):
        exact = S * o.position(a, Fraction(p, S))
        return rounded(exact), exact.denominator == 1
    return 'mapped_point', rule


def grown_by(rule):
    return 'growth', lambda a, exact: 0 if exact else rule(a)


EVALUATION = [
    ('position with the ends exchanged', 'position', lambda a, x: (2 * S * x - a.lower - a.upper) / (a.lower - a.upper)),
    ('position at x itself', 'position', lambda a, x: x),
    ('position not moved', 'position', lambda a, x: 2 * S * x / (a.upper - a.lower)),
    ('position by u', 'position', lambda a, x: (2 * S * x - a.lower - a.upper) / (a.upper or 1)),
    ('position of half the extent', 'position', lambda a, x: (S * x - a.lower) / (a.upper - a.lower)),
    ("p' rounded at 2^30", 'MAP_SCALE', 1 << 30),
    ("p' rounded at 2^19", 'MAP_SCALE', 1 << 19),
    ("p' floored", *mapped_by(lambda y: y.numerator // y.denominator)),
    ("p' rounded up", *mapped_by(lambda y: o.up(y.numerator, y.denominator))),
    ("p' cut", *mapped_by(int)),
    ("p' with ties upwards", *mapped_by(lambda y: (2 * y.numerator + y.denominator) // (2 * y.denominator))),
    ("p' with ties downwards", *mapped_by(lambda y: o.up(2 * y.numerator - y.denominator, 2 * y.denominator))),
    ('W not grown', *grown_by(lambda a: 0)),
    ('W always grown', 'growth', lambda a, exact: lipschitz(a) << 11),
    ('W grown if exact', 'growth', lambda a, exact: lipschitz(a) << 11 if exact else 0),
    ('growth halved', *grown_by(lambda a: lipschitz(a) << 10)),
    ('growth doubled', *grown_by(lambda a: lipschitz(a) << 12)),
    ('growth with k', *grown_by(lambda a: sum(abs(c) * k for k, c in enumerate(a.coefficients)) << 11)),
    ('growth with k (k - 1)', *grown_by(lambda a: sum(abs(c) * k * (k - 1) for k, c in enumerate(a.coefficients)) << 11)),
    ('growth by signed coefficients', *grown_by(lambda a: abs(sum(c * k * k for k, c in enumerate(a.coefficients))) << 11)),
    ('4 outside -S..S', 'outside', lambda a, p: not -S <= p <= S),
    ('4 outside -S..S too', 'outside', lambda a, p: not max(a.lower, -S) <= p <= min(a.upper, S)),
    ('p = l refused', 'outside', lambda a, p: not a.lower < p <= a.upper),
    ('p = u refused', 'outside', lambda a, p: not a.lower <= p < a.upper),
    ('p = l - 1 accepted', 'outside', lambda a, p: not a.lower - 1 <= p <= a.upper),
    ('p = u + 1 accepted', 'outside', lambda a, p: not a.lower <= p <= a.upper + 1),
]


# ---- Integration -------------------------------------------------------------------------------------------------------------

def rounded_before(a):
    """Scaled after rounding."""
    return [near(c * (a.upper - a.lower), 2 * S) for c in right_terms(on(a, *STANDARD))]


def from_minus_one(a, terms):
    """The value at x = -1 is 0, as nearly as c_0 can make it."""
    y = o.position(a, Fraction(-1))
    value = Fraction(o.value_numerator([0, *terms], y.numerator, y.denominator), y.denominator ** MAX_DEGREE)
    return -near(value.numerator, value.denominator)


def radius_by(rule):
    return 'integral_radius', lambda a: rule(a.radius, a.upper - a.lower) + a.degree + 1


INTEGRATION = [
    ('integral not scaled', 'half_extent', lambda a: (1, 1)),
    ('integral scaled by u - l', 'half_extent', lambda a: (a.upper - a.lower, S)),
    ('integral scaled by u', 'half_extent', lambda a: (a.upper, S)),
    ('integral scaled by l - u', 'half_extent', lambda a: (a.lower - a.upper, 2 * S)),
    ('integral scaled after rounding', 'integral_terms', rounded_before),
    ('integral floored', 'near', lambda n, d: n // d),
    ('integral narrowed to 32 bits', 'integral_terms', lambda a: list(map(narrowed, right_terms(a)))),
    ('integral from x = -1', 'integral_constant', from_minus_one),
    ('integral from u/S', 'integral_constant', lambda a, terms: -sum(terms)),
    ('radius with 2e', *radius_by(lambda e, extent: 2 * e)),
    ('radius with e', *radius_by(lambda e, extent: e)),
    ('radius floored', *radius_by(lambda e, extent: e * extent // S)),
    ('radius to the nearest', *radius_by(lambda e, extent: near(e * extent, S))),
    ('radius with half the extent', *radius_by(lambda e, extent: o.up(e * extent, 2 * S))),
    ('extent rounded up first', *radius_by(lambda e, extent: e * o.up(extent, S))),
    ('radius narrowed to 32 bits', *radius_by(lambda e, extent: narrowed(o.up(e * extent, S)))),
    ('product of the radius in 32 bits', *radius_by(lambda e, extent: o.up(narrowed(e * extent), S))),
]


# ---- Jobs --------------------------------------------------------------------------------------------------------------------

def ends_by(rule):
    """A rule for the ends that 0x14 reads, from their place behind the radius."""
    return 'read_ends', lambda byte, operands: STANDARD if byte == o.LOAD else rule(operands, BLOCK_BYTES + 4)


def ends_before_radius(byte, operands, right=o.read_load):
    if byte == o.LOAD_ON:
        radius, ends = operands[BLOCK_BYTES:BLOCK_BYTES + 4], operands[BLOCK_BYTES + 4:]
        operands = operands[:BLOCK_BYTES] + ends + radius
    return right(byte, operands)


def one_interval(job, right=o.check_job):
    """A job with results on different intervals refused."""
    answer = right(job)
    apart = answer[0] == 'accepted' and len(set(map(o.interval, answer[2]))) > 1
    return ('refused', DIFFERENT_INTERVALS, 0) if apart else answer


JOBS = [
    ("0x14's ends exchanged", *ends_by(lambda data, at: (o.read_number(data, at + 4), o.read_number(data, at)))),
    ("0x14's ends unsigned", *ends_by(lambda data, at: (o.read_number(data, at, False), o.read_number(data, at + 4, False)))),
    ("0x14's ends before the radius", 'read_load', ends_before_radius),
    ("0x14's ends left unread", *ends_by(lambda data, at: STANDARD)),
    ('0x14 with its u alone', *ends_by(lambda data, at: (-S, o.read_number(data, at + 4)))),
    ('0x14 with its l alone', *ends_by(lambda data, at: (o.read_number(data, at), S))),
    ('0x10 on 0..2S', 'read_ends', lambda byte, data, right=o.read_ends: (0, 2 * S) if byte == o.LOAD else right(byte, data)),
    ('0x14 of the width of 0x10', 'OPERAND_WIDTH', {**o.OPERAND_WIDTH, o.LOAD_ON: o.OPERAND_WIDTH[o.LOAD]}),
    ('0x14 unknown', 'OPERAND_WIDTH', {byte: width for byte, width in o.OPERAND_WIDTH.items() if byte != o.LOAD_ON}),
    ('a job on one interval only', 'check_job', one_interval),
    ('18 before 2 in a job', 'fault', ends_first),
    ('18 of a load left out', 'fault', lambda m: right_fault(m) if right_fault(m) == BAD_MODEL else ACCEPTED),
    ('19 left out in a job', *by_order(lambda f, c, apart: [*f, *c])),
    ('19 before 2 of h in a job', *by_order(lambda f, c, apart: [*f, apart, *c])),
    ("a result's ends -S and S in a job", 'result_ends', lambda operand: STANDARD),
]


# ---- Areas -------------------------------------------------------------------------------------------------------------------

def of_size(size):
    """The areas with so many numbers for a model, and 32 times as many for the results."""
    sizes = {MODEL_SIZE: size, MAX_RESULTS * MODEL_SIZE: MAX_RESULTS * size}
    return {entry: tuple((code, sizes.get(old, old), what) for code, old, what in areas) for entry, areas in AREAS.items()}


SIZES = [(f'{size} in place of {MODEL_SIZE}', 'AREAS', of_size(size)) for size in (35, 36, 38)]


# ---- Cases and answers -------------------------------------------------------------------------------------------------------

def calls_of(entries):
    return [call for entry in entries for call in interval_cases.interval_cases(entry)]


def few_calls():
    """Those that differ in their intervals and in their order of refusals alone."""
    return [call for entry in MODELS for made in (interval_cases.fixed_placed, interval_cases.fixed_orders) for call in made(entry)]


def answer(call):
    """What the oracle answers, or the kind of its failure."""
    try:
        if isinstance(call, bytes):
            return o.check_job(call)
        module = p if hasattr(p, call.entry) else o
        return getattr(module, call.entry)(*call.inputs, *[call.scalar] * (call.entry in ('multiply', 'evaluate')))
    except (AssertionError, ArithmeticError) as failure:
        return type(failure)


def short_answer(call):
    """The number with areas of the lengths that the call has."""
    told = dict(call.lengths)
    return compare.answer_to(call, [told.get(i, size) for i, (_, size, _) in enumerate(AREAS[call.entry])])[0]


VOUCHED = 'add', 'subtract', 'multiply', 'integrate', 'evaluate', 'quotient', 'root'
# Wrong rules by which what was accepted does not hold.
UNSOUND = [
    ("not sound: a result's ends -S and S", 'result_ends', lambda operand: STANDARD),
    ("not sound: a result's ends moved by one", 'result_ends', lambda operand: (operand.lower + 1, operand.upper + 1)),
    ('not sound: position with the ends exchanged', 'position', lambda a, x: (2 * S * x - a.lower - a.upper) / (a.lower - a.upper)),
    ('not sound: integral not scaled', 'half_extent', lambda a: (1, 1)),
    ('not sound: integral from u/S', 'integral_constant', lambda a, terms: -sum(terms)),
    ('not sound: radius with e', *radius_by(lambda e, extent: min(e, o.up(e * extent, S)))),
    ('not sound: W not grown', *grown_by(lambda a: 0)),
]
UNSOUND_JOBS = [
    ("not sound in a job: a result's ends -S and S", 'result_ends', lambda operand: STANDARD),
    ("not sound in a job: a result's ends exchanged", 'result_ends', lambda operand: (operand.upper, operand.lower)),
]


def soundness_of(call):
    """Whether a call, or a job, that is accepted is sound at a few fractions."""
    case, rng = Case('check', (call,)) if isinstance(call, bytes) else call, Random(24)
    found = answer(call)
    try:
        for _ in range(3 if is_accepted(found) else 0):
            soundness.check(rng, case)
        return found if isinstance(found, type) else 'sound'
    except AssertionError as failure:
        return type(failure)


def is_accepted(found):
    return not isinstance(found, type) and found[0] in (ACCEPTED, 'accepted')


def accepted(calls):
    """Every so many-th call that the oracle accepts."""
    return [call for call in calls if is_accepted(answer(call))][::20]


# Where the rule stands, the calls, how they are answered, the rules.
GROUPS = [
    (o, few_calls, answer, GOOD),
    (o, lambda: calls_of(('multiply',)), answer, [('19 after 9', 'multiply', kept_first)]),
    (o, lambda: calls_of(('quotient',)), answer, [(f'19 after {n} of a quotient', *behind('quotient', (n,))) for n in (5, 6, 3)]),
    (o, lambda: calls_of(('add',)), answer, [('19 after 3 of a sum', *behind('add', (3,)))]),
    (p, lambda: calls_of(('make_quotient',)), answer, [(f'19 after {n}', *behind('make_quotient', (n,), p)) for n in (15, 16)]),
    (o, lambda: calls_of(('quotient_of_two',)), answer, [('1 of a proposal after 2, 18 and 19', 'proposal_test', models_first)]),
    (o, lambda: calls_of(('evaluate',)), answer, EVALUATION),
    (o, lambda: calls_of(('integrate',)), answer, INTEGRATION),
    (o, lambda: list(interval_jobs.fixed_jobs()), answer, JOBS),
    (o, lambda: accepted(calls_of(VOUCHED)), soundness_of, UNSOUND),
    (o, lambda: accepted(interval_jobs.fixed_jobs()), soundness_of, UNSOUND_JOBS),
    (compare, lambda: [call for entry in AREAS for call in area_cases(entry)], short_answer, SIZES),
]


@contextmanager
def replaced(module, what, rule):
    right = getattr(module, what)
    setattr(module, what, rule)
    right_test.cache_clear()
    try:
        yield
    finally:
        setattr(module, what, right)
        right_test.cache_clear()


def main(part=''):
    shown = {}
    for module, made, answered, rules in GROUPS:
        rules = [rule for rule in rules if part in rule[0]]
        calls = made() if rules else []
        right = list(map(answered, calls))
        assert not any(isinstance(one, type) for one in right), 'the oracle fails'
        for name, what, rule in rules:
            with replaced(module, what, rule):
                shown[name] = sum(answered(call) != one for call, one in zip(calls, right))
    few = [name for name, count in shown.items() if count < SHOWN]
    assert not few, f'too few fixed cases that show: {few}'
    assert part or len(shown) == sum(len(rules) for *_, rules in GROUPS), 'two rules of one name'
    print(f'intervals, {len(shown)} wrong rules: ' + ', '.join(f'{name} shows in {count}' for name, count in shown.items()))


if __name__ == '__main__':
    main(*sys.argv[1:])
