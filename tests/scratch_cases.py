"""Cases for the scratch, document 02's S-17: lent with fewer numbers than 16, with 16 and with more, around 65 too, which were
needed before; for every answer that an entry has, each refusal of a job at each operation, and beside another short area.  The
oracle does not see the length, so that calls which differ in it alone must have the same answers from 16 on."""

from itertools import product

import jobs
import oracle as o
from area_cases import AREAS, CHECKS, ENDLESS, FOUR, MOST, ONE, QUARTER, SHIFTED, TWO, WITNESSES, sized, witness
from cases import Case
from header import (ACCEPTED, BAD_ENDS, BAD_MODEL, BAD_VALUE, BYTES_AFTER_END, DIFFERENT_INTERVALS, HELPER_NOT_POSITIVE, JOB_ENDS,
                    LARGE_RESIDUAL, LARGE_RESULT, MAX_DEGREE, MAX_RESULTS, NEGATIVE_DISCRIMINANT, NO_RADIUS, NOT_A_RESULT,
                    NOT_CONTRACTING, S, SCRATCH_SIZE, SHORT_AREA, TOO_MANY_RESULTS)
from oracle import ADD, LIMIT, LOAD, LOAD_ON, MULTIPLY, QUOTIENT, ROOT, SUBTRACT, TIGHT_ROOT, constant
from power_basis import PRODUCT_SIZE
from selection_cases import DIVIDEND, DIVISOR, NUMBERS, TESTED

PLACES = {entry: i for entry, areas in AREAS.items() for i, (_, _, what) in enumerate(areas) if what == 'scratch'}
LENGTHS = (0, *(size + more for size in (SCRATCH_SIZE, PRODUCT_SIZE) for more in (-1, 0, 1)))   # 0, 15, 16, 17, 64, 65, 66
OTHER = 'another area short'

# ---- Jobs: number and operation where they are refused; result 0 is 4, and count the number of results before ----------

BAD = constant(LIMIT + 1)
OPERATIONS = {LOAD: 'load', ADD: 'add', SUBTRACT: 'subtract', MULTIPLY: 'multiply', LOAD_ON: 'load_on', QUOTIENT: 'quotient',
              ROOT: 'root', TIGHT_ROOT: 'tight_root'}
READING = (BAD_VALUE, JOB_ENDS, NOT_A_RESULT, TOO_MANY_RESULTS, BYTES_AFTER_END)
TESTS = jobs.quotient(0, 0, ONE, QUARTER) + jobs.root(0, TWO, QUARTER) + jobs.tight_root(0, TWO, QUARTER)      # all pass


def endings(count):
    """What follows in a job: for each number, and each operation that gives it."""
    most, shifted, end = jobs.load(MOST), jobs.load_on(SHIFTED), jobs.END
    return {
        (ACCEPTED, ''): end,
        (BAD_VALUE, ''): jobs.multiply(0, 0, MAX_DEGREE + 1) + end, (JOB_ENDS, ''): jobs.root(0, TWO, QUARTER)[:-1],
        (NOT_A_RESULT, ''): jobs.root(count, TWO, QUARTER) + end, (BYTES_AFTER_END, ''): end + end,
        (TOO_MANY_RESULTS, ''): jobs.load(ONE) * (MAX_RESULTS - count) + jobs.root(0, TWO, QUARTER) + end,
        (BAD_MODEL, 'load'): jobs.load(BAD) + end, (BAD_MODEL, 'quotient'): jobs.quotient(0, 0, ONE, BAD) + end,
        (NOT_CONTRACTING, 'quotient'): jobs.quotient(0, 0, ONE, constant(0)) + end,
        (LARGE_RESIDUAL, 'quotient'): jobs.quotient(0, 0, MOST, QUARTER) + end,
        **{(number, root.__name__): root(0, h, w) + end
           for root, none in ((jobs.root, NEGATIVE_DISCRIMINANT), (jobs.tight_root, NO_RADIUS))
           for number, h, w in ((BAD_MODEL, BAD, QUARTER), (HELPER_NOT_POSITIVE, constant(-2 * S), constant(-S // 4)),
                                (NOT_CONTRACTING, TWO, ONE), (LARGE_RESIDUAL, MOST, constant((1 << 39) // LIMIT)),
                                (none, FOUR, constant(S // 8)))},
        (LARGE_RESULT, 'quotient'): jobs.quotient(0, 0, constant(LIMIT // 8), constant(S // 4 + S // 5)) + end,
        (LARGE_RESULT, 'add'): most + jobs.add(count, count) + end,
        (LARGE_RESULT, 'subtract'): jobs.load(constant(0, LIMIT)) + jobs.subtract(count, count) + end,
        (LARGE_RESULT, 'multiply'): most + jobs.multiply(count, count, 0) + end,
        (BAD_MODEL, 'load_on'): jobs.load_on(BAD) + end, (BAD_ENDS, 'load_on'): jobs.load_on(ENDLESS) + end,
        (DIFFERENT_INTERVALS, 'add'): shifted + jobs.add(0, count) + end,
        (DIFFERENT_INTERVALS, 'subtract'): shifted + jobs.subtract(count, 0) + end,
        (DIFFERENT_INTERVALS, 'multiply'): shifted + jobs.multiply(0, count, 0) + end,
        (DIFFERENT_INTERVALS, 'quotient'): shifted + jobs.quotient(count, 0, ONE, QUARTER) + end,
    }


def job_inputs(entry):
    """Each of them, before any test and behind three that pass."""
    for tests, count in ((b'', 1), (TESTS, 4)):
        for ending in endings(count).values():
            yield Case(entry, (jobs.EDITION_1 + jobs.load(FOUR) + tests + ending,))


# ---- Cases --------------------------------------------------------------------------------------------------------------

def inputs(entry):
    """A call for each answer that the entry has where every area is long enough."""
    if entry in CHECKS:
        return list(job_inputs(entry))
    if entry == 'quotient_of_two':
        return [Case(entry, (DIVIDEND, DIVISOR, TESTED[a][0], TESTED[b][-1])) for a, b in product(NUMBERS, NUMBERS)]
    return [witness(entry, number) for number in WITNESSES[entry]]


def scratch_cases(entry):
    if entry not in PLACES:
        return
    place, calls = PLACES[entry], inputs(entry)
    others = [(i, size - 1) for i, size in sized(entry) if i != place]
    for length in LENGTHS:
        for call in calls:
            yield call._replace(lengths=((place, length),))
        for short in others:
            yield calls[0]._replace(lengths=((place, length), short))


# ---- What is counted ----------------------------------------------------------------------------------------------------

def own_answer(case):
    """What a call is answered with where every area is long enough: a number; the numbers of both proposals; of a job the number,
    the operation refused and whether a test passed before."""
    if case.entry == 'quotient_of_two':
        f, g, *proposals = case.inputs
        return tuple(o.proposal_test(f, g, one)[0] for one in proposals)
    if case.entry not in CHECKS:
        return getattr(o, case.entry)(*case.inputs)[0]
    verdict, *answer = o.check_job(*case.inputs)
    read = [byte for byte, _ in jobs.read_commands(*case.inputs)]
    number, command = (ACCEPTED, len(read)) if verdict == 'accepted' else answer
    at = '' if number in (ACCEPTED, *READING) else OPERATIONS[read[command]]
    return number, at, bool(set(o.TESTS) & set(read[:command]))


def kinds(case, lengths, number):
    """What is counted of a call: its scratch with its answer and, where the case says how long it is, with its own answer."""
    place = PLACES[case.entry]
    length = lengths[place]
    if length not in LENGTHS:
        return []
    if place not in dict(case.lengths):
        return [(length, number)]
    short = any(lengths[i] < size for i, size in sized(case.entry) if i != place)
    return [(length, number), (length, 'own', OTHER if short else own_answer(case))]


def demanded(entry):
    own = {**dict.fromkeys(CHECKS, [(*answer, tested) for answer in endings(1) for tested in (False, True)]),
           'quotient_of_two': list(product(NUMBERS, NUMBERS))}.get(entry, WITNESSES[entry])
    for length in LENGTHS:
        yield from ((length, 'own', answer) for answer in (OTHER, *own))
        numbers = {SHORT_AREA} if length < SCRATCH_SIZE else {SHORT_AREA, *WITNESSES[entry]}
        yield from ((length, number) for number in numbers)


def counted(entry, found):
    """The counts of an entry in words: each length with each answer must be there, and below 16 none but 1."""
    missing = [kind for kind in demanded(entry) if not found[kind]]
    assert not missing, f'{entry}: no call with a scratch of {missing}'
    pairs = {length: sorted((kind[1], calls) for kind, calls in found.items() if len(kind) == 2 and kind[0] == length)
             for length in LENGTHS}
    assert all([number for number, _ in pairs[length]] == [SHORT_AREA] for length in LENGTHS if length < SCRATCH_SIZE), pairs
    rows = '; '.join(f'{length} ' + ' '.join(f'{number}:{calls}' for number, calls in pairs[length]) for length in LENGTHS)
    own = len({kind[2] for kind in demanded(entry) if len(kind) == 3})
    return f'{entry} ({own} answers of its own with each length; length answer:calls) {rows}'
