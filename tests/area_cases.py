"""Lent areas: those of each entry, and calls with every area at every length around its size,
two areas short at once, and all of them, for every answer that the entry has."""

from itertools import combinations

import jobs
import proposal_cases
import unit_cases
from cases import Case, on
from examples_of_01 import example_job
from header import (
    ACCEPTED, ANSWER_SIZE, BAD_ENDS, BAD_MODEL, BAD_SERIES, BAD_VALUE, BOUNDS_SIZE, BYTES_AFTER_END,
    CANDIDATE_SIZE, DIFFERENT_INTERVALS, HELPER_NOT_POSITIVE, JOB_ENDS, LARGE_RESIDUAL, LARGE_RESULT, MAX_DEGREE,
    MAX_RESULTS, MODEL_SIZE, NEGATIVE_DISCRIMINANT, NO_RADIUS, NOT_A_RESULT, NOT_CONTRACTING, NUMBERS_SIZE, OUTCOME_SIZE,
    POINT_OUTSIDE, QUOTIENT_RECORD_SIZE, RECIPROCAL_RECORD_SIZE, SCRATCH_SIZE, SELECTION_SIZE, SERIES_SIZE, SERVICE_ROOM, SHORT_OUTPUT,
    TOO_MANY_RESULTS, VALUES_SIZE, WORK_SIZE, WORKSHOP_ROOM)
from oracle import LIMIT, S, constant, model, power, series, term
from power_basis import PRODUCT_SIZE
from selection_cases import DIVIDEND, DIVISOR, TESTED
from series_cases import GROWN

# Areas of each entry: array type code, size in numbers, and what it is.  A job, a proposal and an output are never too short an area.
ANY_LENGTH = ('job', 'proposal', 'output')
PROPOSAL, JOB = ('i', 0, 'proposal'), ('B', 0, 'job')
MODEL_IN, CANDIDATE_IN = ('i', MODEL_SIZE, 'in'), ('i', CANDIDATE_SIZE, 'in')
SERIES_IN = ('i', SERIES_SIZE, 'in')
OUT, BOUNDS = ('i', MODEL_SIZE, 'out'), ('q', BOUNDS_SIZE, 'bounds')
SCRATCH, NUMBERS = ('q', SCRATCH_SIZE, 'scratch'), ('Q', NUMBERS_SIZE, 'numbers')
# A double is lent as its 64 bits.
DOUBLES = ('record', 'values')
WORK, ANSWER = ('i', WORK_SIZE, 'work'), ('I', ANSWER_SIZE, 'answer')
H, W, OUTCOME = ('i', CANDIDATE_SIZE, 'h'), ('i', CANDIDATE_SIZE, 'w'), ('I', OUTCOME_SIZE, 'outcome')
AREAS = {
    'add': (MODEL_IN, MODEL_IN, OUT),
    'subtract': (MODEL_IN, MODEL_IN, OUT),
    'multiply': (MODEL_IN, MODEL_IN, OUT),
    'integrate': (MODEL_IN, OUT),
    'evaluate': (MODEL_IN, BOUNDS),
    'quotient': (MODEL_IN, MODEL_IN, CANDIDATE_IN, CANDIDATE_IN, SCRATCH, OUT, NUMBERS),
    'root': (MODEL_IN, CANDIDATE_IN, CANDIDATE_IN, SCRATCH, OUT, NUMBERS),
    'check': (JOB, WORK, SCRATCH, ANSWER),
    'from_series': (SERIES_IN, OUT),
    'quotient_of_two': (MODEL_IN, MODEL_IN, PROPOSAL, PROPOSAL, SCRATCH, ('I', SELECTION_SIZE, 'answer')),
    'make_reciprocal': (MODEL_IN, ('Q', RECIPROCAL_RECORD_SIZE, 'record'), W, OUTCOME),
    'make_quotient': (MODEL_IN, MODEL_IN, ('Q', QUOTIENT_RECORD_SIZE, 'record'), H, W, OUTCOME),
    'to_units': (('Q', VALUES_SIZE, 'values'), ('i', CANDIDATE_SIZE, 'units')),
    'tight_root': (MODEL_IN, CANDIDATE_IN, CANDIDATE_IN, SCRATCH, OUT, NUMBERS),
    'convert_edition': (JOB, ('B', 0, 'output'), ANSWER),
    'check_workshop': (JOB, WORK, SCRATCH, ('B', WORKSHOP_ROOM, 'room'), ANSWER),
    'check_service': (JOB, WORK, SCRATCH, ('B', SERVICE_ROOM, 'room'), ANSWER),
}
REPORTS = 'check_workshop', 'check_service'
CHECKS = 'check', *REPORTS        # the entries that check a job
# Numbers that a long enough area has beyond its size; a scratch half of the time none, else up to those of the list C and one more.
MORE = {what: (0, 0, 1, 3) for areas in AREAS.values() for _, _, what in areas}
MORE['scratch'] = (0, 0, 0, 0, 1, *(PRODUCT_SIZE + more - SCRATCH_SIZE for more in (-1, 0, 1)))
# What an entry answers in; each is zero after every refusal if it is itself long enough.
ANSWERS = ('out', 'bounds', 'numbers', 'answer', 'record', 'h', 'w', 'outcome', 'units', 'output')

# ---- One call for each answer of each entry, where every area is long enough

ONE, MOST, BAD = constant(S), constant(LIMIT), constant(LIMIT + 1)
CURVE = model([S, S // 3, -5], 7)
FOUR, TWO, QUARTER = constant(4 * S), constant(2 * S), constant(S // 4)
# With no interval, and on another one.
ENDLESS, SHIFTED = on(CURVE, S, S), on(CURVE, 0, 2 * S)


def one_load(*commands, loaded=FOUR):
    return jobs.EDITION_1 + jobs.load(loaded) + b''.join(commands) + jobs.END


WITNESSES = {
    'add': {ACCEPTED: (CURVE, ONE), BAD_MODEL: (CURVE, BAD), LARGE_RESULT: (MOST, ONE), BAD_ENDS: (CURVE, ENDLESS),
            DIFFERENT_INTERVALS: (CURVE, SHIFTED)},
    'subtract': {ACCEPTED: (CURVE, ONE), BAD_MODEL: (BAD, CURVE), LARGE_RESULT: (MOST, constant(-1)), BAD_ENDS: (ENDLESS, CURVE),
                 DIFFERENT_INTERVALS: (SHIFTED, CURVE)},
    'multiply': {ACCEPTED: (CURVE, CURVE, 2), BAD_MODEL: (CURVE, BAD, 2),
                 BAD_VALUE: (CURVE, CURVE, MAX_DEGREE + 1), LARGE_RESULT: (MOST, MOST, 0), BAD_ENDS: (ENDLESS, CURVE, 2),
                 DIFFERENT_INTERVALS: (CURVE, SHIFTED, 2)},
    'integrate': {ACCEPTED: (CURVE,), BAD_MODEL: (BAD,), LARGE_RESULT: (term(MAX_DEGREE, 1),), BAD_ENDS: (ENDLESS,)},
    'evaluate': {ACCEPTED: (CURVE, S // 2), BAD_MODEL: (BAD, 0), POINT_OUTSIDE: (CURVE, S + 1), BAD_ENDS: (ENDLESS, S)},
    'quotient': {ACCEPTED: (ONE, constant(3 * S), constant(S // 3), constant(S // 3)),
                 BAD_MODEL: (ONE, ONE, BAD, ONE), NOT_CONTRACTING: (ONE, ONE, ONE, constant(0)),
                 LARGE_RESIDUAL: (constant(-LIMIT), ONE, MOST, ONE),
                 LARGE_RESULT: (MOST, ONE, constant(0), constant(S + 1)), BAD_ENDS: (ONE, ENDLESS, ONE, ONE),
                 DIFFERENT_INTERVALS: (SHIFTED, ONE, ONE, ONE)},
    'root': {ACCEPTED: (constant(2 * S), TWO, QUARTER), BAD_MODEL: (FOUR, TWO, BAD),
             HELPER_NOT_POSITIVE: (FOUR, constant(-2 * S), constant(-S // 4)),
             NOT_CONTRACTING: (FOUR, TWO, ONE), LARGE_RESIDUAL: (constant(-LIMIT), TWO, QUARTER),
             NEGATIVE_DISCRIMINANT: (ONE, TWO, QUARTER), BAD_ENDS: (ENDLESS, TWO, QUARTER)},
    'check': {number: (job,) for number, job in {
        ACCEPTED: example_job(),
        BAD_VALUE: one_load(jobs.multiply(0, 0, MAX_DEGREE + 1)),
        JOB_ENDS: example_job()[:-1],
        NOT_A_RESULT: one_load(jobs.add(0, 1)),
        TOO_MANY_RESULTS: one_load(jobs.load(ONE) * MAX_RESULTS),
        BAD_MODEL: one_load(jobs.load(BAD)),
        BAD_ENDS: one_load(jobs.load_on(ENDLESS)),
        DIFFERENT_INTERVALS: one_load(jobs.load_on(SHIFTED), jobs.add(0, 1)),
        HELPER_NOT_POSITIVE: one_load(jobs.root(0, constant(-2 * S), constant(-S // 4))),
        NOT_CONTRACTING: one_load(jobs.root(0, TWO, ONE)),
        LARGE_RESIDUAL: one_load(jobs.root(0, TWO, QUARTER), loaded=constant(-LIMIT)),
        NEGATIVE_DISCRIMINANT: one_load(jobs.root(0, TWO, QUARTER), loaded=ONE),
        NO_RADIUS: one_load(jobs.tight_root(0, TWO, QUARTER), loaded=ONE),
        LARGE_RESULT: one_load(jobs.add(0, 0), loaded=MOST),
        BYTES_AFTER_END: example_job() + jobs.END,
    }.items()},
    'from_series': {ACCEPTED: (series([S, -7, S // 3, 5]),), LARGE_RESULT: (GROWN[0],),
                    BAD_SERIES: (power(MAX_DEGREE, LIMIT + 1),)},
    'quotient_of_two': {**{number: (DIVIDEND, DIVISOR, tested[0], tested[-1]) for number, tested in TESTED.items()},
                        BAD_ENDS: (DIVIDEND, ENDLESS, TESTED[ACCEPTED][0], TESTED[ACCEPTED][1]),
                        DIFFERENT_INTERVALS: (DIVIDEND, SHIFTED, TESTED[ACCEPTED][0], TESTED[ACCEPTED][1])},
    **proposal_cases.WITNESSES, 'to_units': unit_cases.WITNESSES,
}
# Up to N the tighter root test is the root test.
WITNESSES['tight_root'] = {NO_RADIUS if number == NEGATIVE_DISCRIMINANT else number: inputs
                           for number, inputs in WITNESSES['root'].items()}


# A job is converted where it reads well: each refusal of its reading, and 20 with an output one byte too short.
WITNESSES['convert_edition'] = {number: (WITNESSES['check'][number][0], 1) for number in (
    ACCEPTED, BAD_VALUE, JOB_ENDS, BYTES_AFTER_END, NOT_A_RESULT, TOO_MANY_RESULTS)} | {SHORT_OUTPUT: (example_job(), -1)}
# A report has the numbers of its check.
WITNESSES.update((entry, WITNESSES['check']) for entry in REPORTS)


def witness(entry, number):
    """The call that is answered with the number."""
    operands = WITNESSES[entry][number]
    if entry in ('multiply', 'evaluate', 'convert_edition'):
        return Case(entry, operands[:-1], operands[-1])
    return Case(entry, operands)


# ---- Lengths

def sized(entry):
    """Number and size of each area that can be too short."""
    return [(i, size) for i, (_, size, what) in enumerate(AREAS[entry]) if what not in ANY_LENGTH]


FORMER = {MODEL_SIZE: MODEL_SIZE - 2, WORK_SIZE: WORK_SIZE - 2 * MAX_RESULTS}       # without the ends


def lengths_around(size):
    """None, one, as many as before S-24, one too few, as many as needed, one more, many more."""
    return sorted({0, 1, FORMER.get(size, 0), size - 1, size, size + 1, size + 9})


def area_cases(entry):
    sizes = sized(entry)
    for number in WITNESSES[entry]:
        case = witness(entry, number)
        for i, size in sizes:
            for length in lengths_around(size):
                yield case._replace(lengths=((i, length),))
        for (i, first), (j, second) in combinations(sizes, 2):
            for one in (0, first - 1):
                for other in (0, second - 1):
                    yield case._replace(lengths=((i, one), (j, other)))
        for less in (0, 1):                         # as many as needed; all one too few
            yield case._replace(lengths=tuple((i, size - less) for i, size in sizes))
        yield case._replace(lengths=tuple((i, 0) for i, _ in sizes))
