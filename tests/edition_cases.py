"""Cases for the converter between editions, document 02's S-27: each refusal of reading at each kind of command, outputs and
answers of every length, 0xFF wherever it is no kept degree, degrees from every kind of command; and products with 255.
"""

from functools import lru_cache

import edition_jobs
import edition_oracle as e
import jobs
import oracle as o
from cases import Case
from edition_jobs import FOUR, FEW, ONE, PAIRS, QUARTER, TWO, polynomial, product_job
from header import (ACCEPTED, ANSWER_SIZE, BAD_ENDS, BAD_MODEL, BAD_VALUE, BLOCK_BYTES, BYTES_AFTER_END, DEFAULT_KEPT,
                    DIFFERENT_INTERVALS, HELPER_NOT_POSITIVE, JOB_ENDS, LARGE_RESIDUAL, LARGE_RESULT, MAX_DEGREE, MAX_JOB_BYTES,
                    MAX_RESULTS, NEGATIVE_DISCRIMINANT, NO_RADIUS, NOT_A_RESULT, NOT_CONTRACTING, SHORT_AREA, SHORT_OUTPUT,
                    TOO_MANY_RESULTS)
from interval_jobs import longest_job
from job_cases import RandomJobs
from oracle import END, EDITION, LOAD, LOAD_ON, MULTIPLY, OPERAND_WIDTH, RESULT_BYTES, constant

FILLED = bytes([0xFF] * BLOCK_BYTES)
ANSWER = 2                  # the number of that area
LONGER = (-10**6, -9, -2, -1, 0, 1, 2, 40)         # by how many bytes the output is longer than the job; the first: it has none
HIGH_DEGREES = (31, 32, 33, 34, 40, 64, 128, 200, 254, 255)
READING = (BAD_VALUE, JOB_ENDS, BYTES_AFTER_END, NOT_A_RESULT, TOO_MANY_RESULTS)
NAMING = [byte for byte, names in RESULT_BYTES.items() if names]


def conversion(job, longer=0, answer=None):
    return Case('convert_edition', (bytes(job),), longer, () if answer is None else ((ANSWER, answer),))


# ---- Fixed -------------------------------------------------------------------------------------------------------------------

def each_command():
    """One command of each kind that makes a result, where 0 and 1 are results."""
    return {LOAD: jobs.load(FOUR), o.ADD: jobs.add(0, 1), o.SUBTRACT: jobs.subtract(1, 0),
            MULTIPLY: jobs.multiply(0, 1, DEFAULT_KEPT), LOAD_ON: jobs.load_on(FOUR), o.QUOTIENT: jobs.quotient(0, 1, ONE, QUARTER), o.ROOT: jobs.root(1, TWO, QUARTER),
            o.TIGHT_ROOT: jobs.tight_root(0, TWO, QUARTER)}


def filled_blocks():
    """Loads and tests with 0xFF in every byte that is no name, and in one of them alone."""
    yield from (bytes([LOAD]) + FILLED + FILLED[:4], bytes([LOAD_ON]) + FILLED + FILLED[:12])
    yield from (bytes([byte, *[0] * RESULT_BYTES[byte]]) + FILLED + FILLED for byte in o.TESTS)
    for byte, command in each_command().items():
        for at in range(1 + RESULT_BYTES[byte], len(command)) if byte in (*o.LOADS, *o.TESTS) else ():
            yield command[:at] + bytes([0xFF]) + command[at + 1:]


def with_degree(byte, degree):
    """A load with this degree byte, or a test of result 0 whose h has it."""
    command = bytearray(each_command()[byte])
    command[1 + RESULT_BYTES[byte]] = degree
    command[1:1 + RESULT_BYTES[byte]] = bytes(RESULT_BYTES[byte])
    return bytes(command)


def degree_jobs(edition):
    """A degree byte around 32 and far above, of each kind of command that has one, in open multiplies on both sides."""
    for byte in (*o.LOADS, *o.TESTS):
        for degree in (0, 7, *HIGH_DEGREES):
            for tail in (jobs.multiply(0, 1, DEFAULT_KEPT), jobs.multiply(1, 0, DEFAULT_KEPT) + jobs.multiply(2, 0, DEFAULT_KEPT),
                         jobs.multiply(1, 0, 1) + jobs.multiply(2, 0, DEFAULT_KEPT),
                         jobs.add(1, 0) + jobs.multiply(2, 0, DEFAULT_KEPT)):
                yield edition + jobs.load(polynomial(3)) + with_degree(byte, degree) + tail + jobs.END


def sum_jobs(edition):
    """Products whose degree is the kept degree, the sum, or neither, below open multiplies."""
    for n, m in ((0, 0), (0, 5), (5, 0), (2, 3), (16, 16), (16, 17), (32, 32), (32, 1), (31, 31)):
        for kept in (0, 1, 4, 5, 6, 31, 32, DEFAULT_KEPT):
            yield (edition + jobs.load(polynomial(n)) + jobs.load(polynomial(m)) + jobs.multiply(0, 1, kept)
                   + jobs.multiply(2, 0, DEFAULT_KEPT) + jobs.multiply(1, 2, DEFAULT_KEPT) + jobs.END)


def unread_jobs(head, count):
    """What does not read well behind so many results, two at least: each refusal at each kind of command."""
    missing, commands = count, each_command()
    for byte, command in commands.items():
        for at in range(1, 1 + RESULT_BYTES[byte]):                         # 12, by each name
            for name in (missing, MAX_RESULTS, 0xFF):
                if name >= count:
                    yield head + command[:at] + bytes([name]) + command[at + 1:] + jobs.END
        for length in {1, 2, len(command) // 2, len(command) - 1}:
            yield head + command[:length]                                   # 10
        yield head + command * (MAX_RESULTS - count + 1) + jobs.END         # 13
        yield head + command + jobs.END + jobs.END                          # 11
    for kept in (MAX_DEGREE + 1, 100, DEFAULT_KEPT - 1):
        yield head + jobs.multiply(0, 1, kept) + jobs.END
        yield head + jobs.multiply(missing, 0xFF, kept) + jobs.END          # 9 before 12
        yield head + jobs.multiply(0, 1, kept)[:-1]                         # 10
    yield from (head + bytes([byte]) + jobs.END for byte in (0x02, 0x0F, 0x15, 0x1F, 0x23, 0x7F, 0xFF))
    yield from (head + again + jobs.END for again in (*jobs.EDITIONS, bytes([EDITION]), bytes([EDITION, 3])))
    yield from (head, head + jobs.END + bytes([0xFF]), head + jobs.END + head)


def heads(edition):
    """Behind good commands, behind a load that the check refuses, and behind 32 results."""
    good = jobs.load(FOUR) + jobs.load(polynomial(5))
    yield edition + good, 2
    yield edition + jobs.load(FOUR._replace(degree=33)) + good, 3
    yield edition + good + jobs.load_on(FOUR._replace(lower=1, upper=0)) + jobs.multiply(1, 2, DEFAULT_KEPT), 4
    yield edition + good + jobs.add(0, 0) * (MAX_RESULTS - 2), MAX_RESULTS


def first_commands():
    """No edition first, no edition that there is, and nothing."""
    yield from (command + jobs.END for command in each_command().values())
    yield from (bytes([EDITION, edition]) + jobs.load(ONE) + jobs.END for edition in range(256))
    yield from (b'', bytes([EDITION]), jobs.END, bytes([0xFF]), bytes([0xFF, 1, 0]), *jobs.EDITIONS)


def whole_job(edition):
    return (edition + jobs.load_on(FOUR) + jobs.load(polynomial(4)) + jobs.multiply(0, 1, DEFAULT_KEPT) + jobs.add(0, 1)
            + jobs.quotient(0, 0, ONE, QUARTER) + jobs.root(0, TWO, QUARTER) + jobs.tight_root(0, TWO, QUARTER)
            + jobs.subtract(3, 1) + jobs.multiply(3, 7, DEFAULT_KEPT) + jobs.END)


def well_read(edition):
    """Jobs that read well, of which the check refuses many."""
    yield from edition_jobs.made_factors(edition)
    yield from edition_jobs.refused_jobs(edition)
    yield from list(edition_jobs.full_jobs(edition))[:2]
    yield from degree_jobs(edition)
    yield from sum_jobs(edition)
    head = edition + jobs.load(polynomial(2)) + jobs.load(FOUR)
    for command in filled_blocks():
        yield head + command + jobs.multiply(2, 0, DEFAULT_KEPT) + jobs.END
    yield edition + longest_job()[2:]


def fixed_conversions():
    for edition in jobs.EDITIONS:
        whole = whole_job(edition)
        for job in (whole, edition + jobs.END, product_job(edition, 3, 5)):
            for longer in LONGER:
                yield from (conversion(job, longer, answer) for answer in (0, 1, 2, 3, 11))
        yield from (conversion(whole[:length], (-1, 3)[length % 2]) for length in range(len(whole)))
        for head, count in heads(edition):
            for i, job in enumerate(unread_jobs(head, count)):
                yield conversion(job, LONGER[i % len(LONGER)])
                yield from [conversion(job, LONGER[-1 - i % len(LONGER)], i % 4)] * (i % 5 == 0)
        for i, job in enumerate(well_read(edition)):
            yield conversion(job, (0, 0, 1, 7)[i % 4])
            yield from [conversion(job, LONGER[i % 4])] * (i % 6 == 0)
    for job in first_commands():
        yield from (conversion(job, longer) for longer in (-1, 0, 2))
    for n, m in PAIRS:
        yield conversion(product_job(jobs.EDITION_2, n, m), (n + m) % 3)
    for n, m in FEW:
        yield conversion(product_job(jobs.EDITION_1, n, m))


def products(entry):
    """The kept degree 255 with factors of every pair of degrees, and the degree that it stands for."""
    if entry == 'multiply':
        for n, m in PAIRS:
            factors = polynomial(n), polynomial(m)._replace(radius=m)
            yield Case('multiply', factors, DEFAULT_KEPT)
            yield Case('multiply', factors, max(n, m))


FIXED = {'convert_edition': fixed_conversions}


# ---- Random ------------------------------------------------------------------------------------------------------------------

class RandomConversions:
    """Random jobs of either edition, good, altered and cut; more of their kept degrees open."""

    def __init__(self):
        self.draw = RandomJobs()

    def __call__(self, rng):
        job = edition_jobs.random_job(rng) if rng.random() < 0.2 else self.draw(rng).inputs[0]
        if job[:2] in jobs.EDITIONS:
            job = rng.choice(jobs.EDITIONS) + job[2:]
        return conversion(edition_jobs.opened(rng, job, rng.choice((0, 0.5, 1))), rng.choice((0, 0, 1, 9, *LONGER)))


def behind(case):
    """The checks of a job and of what it is converted to, and the conversion back."""
    job, = case.inputs
    try:
        converted = e.converted(job)
    except o.Unread:
        return
    if case.scalar >= 0:
        yield from (Case('check', (one,)) for one in (job, converted))
        yield conversion(converted, case.scalar)


# ---- What the cases are ------------------------------------------------------------------------------------------------------

def filled_parts(byte, operands):
    """Where a command has 0xFF that is no kept degree."""
    names = RESULT_BYTES.get(byte, 0)
    parts = ['degree', *['coefficients'] * (BLOCK_BYTES - 1)]
    if byte in o.LOADS:
        parts += [what for what in ('radius', 'lower', 'upper') for _ in range(4)]
    elif byte in o.TESTS:
        parts += ['degree of w', *['coefficients of w'] * (BLOCK_BYTES - 1)]
    return {part for part, value in zip(parts, operands[names:]) if value == 0xFF} if byte in (*o.LOADS, *o.TESTS) else set()


def commands_kinds(job, commands):
    """What is said of the commands of a job that reads well."""
    degrees, made = [], []
    for byte, operands in commands:
        names = operands[:RESULT_BYTES.get(byte, 0)]
        named = [degrees[name] for name in names]
        yield from (('0xFF in', byte, part) for part in filled_parts(byte, operands))
        if byte in (*o.LOADS, *o.TESTS):
            degree = operands[RESULT_BYTES[byte]]
            yield from [('above 32', byte)] * (degree > MAX_DEGREE) + [('degree 40', byte)] * (degree == 40)
        if byte == MULTIPLY and operands[2] == DEFAULT_KEPT:
            yield from (('open factor', job[1], made[name], place) for place, name in enumerate(names))
            yield ('open', job[1], 'first larger' if named[0] > named[1] else 'equal' if named[0] == named[1] else 'second larger')
            yield from [('open', job[1], 'both 32')] * (min(named) == MAX_DEGREE)
            yield from [('open', job[1], 'sum above 32')] * (sum(named) > MAX_DEGREE)
        if byte in RESULT_BYTES:
            degrees.append(e.static_degree(job[1], byte, operands, named))
            made.append(byte)


outcome = lru_cache(maxsize=4)(o.check_job)         # the conversion back asks again


def checked_kinds(job, converted):
    """Both checks answer the same, and converting back changes the edition alone."""
    checked = outcome(job)
    assert checked == outcome(converted), 'a converted job with another outcome'
    assert e.converted(converted) == converted[:1] + job[1:2] + converted[2:], 'converted twice, and more than the edition differs'
    return ['converted twice', ('checked', ACCEPTED if checked[0] == 'accepted' else checked[1])]


def kinds(case, lengths, number):
    """What is said of one product or conversion."""
    if case.entry == 'multiply':
        return [('255', *(m.degree for m in case.inputs))] if case.scalar == DEFAULT_KEPT and number == ACCEPTED else []
    job, = case.inputs
    _, room, answer = lengths
    if number == SHORT_AREA:
        return [('1 by', answer), '1 and no output' if room == 0 else '1 and an output', *['1 before 20'] * (room < len(job))]
    found = ['conversions', ('answer', min(answer, ANSWER_SIZE + 1), number == ACCEPTED)]
    found += [('edition', job[1], number == ACCEPTED)] if len(job) > 1 else []
    found += [f'{number} in all'] + ['the output empty'] * (room == 0)
    try:
        commands = list(o.reading(job))
    except o.Unread as unread:
        assert number == unread.args[0]
        position = list(jobs.read_commands(job))
        at = position[unread.args[1]][0] if unread.args[1] < len(position) else None
        found += [(number, 'at', at if at in OPERAND_WIDTH or at is None else 'unknown')]
        found += ['the output longer, refused'] * (room > len(job)) + ['before 20'] * (room < len(job))
        checked = o.check_job(job)
        return found + ['another refusal of the check'] * (checked[1:] != (number, unread.args[1]))
    if number == SHORT_OUTPUT:
        return found + ['20 by 1' if room == len(job) - 1 else '20 by more']
    found += ['exactly long enough' if room == len(job) else 'longer by 1' if room == len(job) + 1 else 'longer by more']
    found += ['the longest'] * (len(job) == MAX_JOB_BYTES) + ['no command'] * (len(commands) == 2)
    return found + list(commands_kinds(job, commands)) + checked_kinds(job, e.converted(job))


PARTS = {**{byte: ['degree', 'coefficients', 'radius'] + ['lower', 'upper'] * (byte == LOAD_ON) for byte in o.LOADS},
         **{byte: ['degree', 'coefficients', 'degree of w', 'coefficients of w'] for byte in o.TESTS}}
DEMANDED = [
    *(f'{number} in all' for number in (ACCEPTED, *READING, SHORT_OUTPUT)), '20 by 1', '20 by more', 'the output empty',
    'exactly long enough', 'longer by 1', 'longer by more', 'the output longer, refused', 'before 20', 'another refusal of the check',
    '1 and no output', '1 and an output', '1 before 20', 'converted twice', 'the longest', 'no command',
    *((BAD_VALUE, 'at', byte) for byte in (*OPERAND_WIDTH, 'unknown')),
    *((JOB_ENDS, 'at', byte) for byte in (*RESULT_BYTES, EDITION, None)),
    (BYTES_AFTER_END, 'at', END), *((NOT_A_RESULT, 'at', byte) for byte in NAMING),
    *((TOO_MANY_RESULTS, 'at', byte) for byte in RESULT_BYTES),
    *(('1 by', length) for length in range(ANSWER_SIZE)),
    *(('answer', length, accepted) for length in (ANSWER_SIZE, ANSWER_SIZE + 1) for accepted in (True, False)),
    *(('edition', edition, accepted) for edition in o.EDITIONS for accepted in (True, False)),
    *(('edition', edition, False) for edition in range(256)),
    *(('0xFF in', byte, part) for byte, parts in PARTS.items() for part in parts),
    *((what, byte) for what in ('above 32', 'degree 40') for byte in PARTS),
    *(('open factor', edition, byte, place) for edition in o.EDITIONS for byte in RESULT_BYTES for place in range(2)),
    *(('open', edition, what) for edition in o.EDITIONS
      for what in ('first larger', 'equal', 'second larger', 'both 32', 'sum above 32')),
    *(('checked', number) for number in (ACCEPTED, BAD_MODEL, LARGE_RESULT, NOT_CONTRACTING, LARGE_RESIDUAL, HELPER_NOT_POSITIVE,
                                         NEGATIVE_DISCRIMINANT, NO_RADIUS, BAD_ENDS, DIFFERENT_INTERVALS)),
]


def counted(found):
    """The counts of conversions in words; each kind must be there."""
    missing = [kind for kind in DEMANDED if not found[kind]]
    assert not missing, f'no conversion: {missing}'
    rest = ', '.join(f'{kind}: {found[kind]}' for kind in DEMANDED if isinstance(kind, str))
    checked = ', '.join(f'{number}: {found["checked", number]}' for _, number in (k for k in DEMANDED if k[0] == 'checked'))
    return f'{found["conversions"]} conversions; {rest}; equal checks of source and converted job, by number {checked}'


def counted_products(found):
    """The products with 255 in words; each pair of degrees must be there."""
    missing = [pair for pair in PAIRS if not found[('255', *pair)]]
    assert not missing, f'no product with 255: {missing}'
    return f'products with 255: {sum(found[("255", *pair)] for pair in PAIRS)}, of every pair of degrees'


# ---- What the converter says, by hand ----------------------------------------------------------------------------------------

def check_conversions():
    """Of the request: written out, not the oracle's; and 255 gives what stating the larger degree gives."""
    one, two = jobs.EDITIONS
    loads = jobs.load(polynomial(3)) + jobs.load(polynomial(7))
    open_product = jobs.multiply(0, 1, DEFAULT_KEPT)
    assert e.converted(one + loads + open_product + jobs.END) == two + loads + bytes([0x13, 0, 1, 32]) + jobs.END
    assert e.converted(two + loads + open_product + jobs.END) == one + loads + bytes([0x13, 0, 1, 7]) + jobs.END
    high = two + jobs.load(constant(0)._replace(degree=33)) + bytes([0x7F])
    assert e.convert_edition(high, 500) == (BAD_VALUE, [0, 2], bytes(500)) and o.check_job(high) == ('refused', BAD_MODEL, 1)
    for n, m in PAIRS:
        factors = polynomial(n), polynomial(m)
        assert o.multiply(*factors, DEFAULT_KEPT) == o.multiply(*factors, max(n, m))

