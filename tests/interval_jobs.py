"""Jobs with command 0x14, document 02's S-24: models on their own intervals in every command, 18 and 19 at each command, results on
different intervals side by side, cut-off loads; and what compare.py demands of them.
"""

from functools import partial
from itertools import product

import jobs
import oracle as o
from cases import BORDER_MODELS, HIGHEST, LOWEST, on, random_interval, random_model
from header import (ACCEPTED, BAD_ENDS, BAD_MODEL, BAD_VALUE, BYTES_AFTER_END, DIFFERENT_INTERVALS, JOB_ENDS, MAX_DEGREE,
                    MAX_JOB_BYTES, MAX_RESULTS, S, TOO_MANY_RESULTS)
from interval_cases import (DIFFERENT, GREATEST, INTERVALS, LEAST, MODELS, WRONG_ENDS, beside, fixed_moved, fixed_orders,
                            fixed_placed)
from oracle import LIMIT, LOAD_ON, STANDARD, constant

FOUR, TWO, ONE, QUARTER = constant(4 * S), constant(2 * S), constant(S), constant(S // 4)
COMMANDS = ('add', 'subtract', 'multiply', 'quotient', 'root', 'tight_root')
SHIFTED = on(FOUR, 0, 2 * S)
# Bytes of the command beside it that mean nothing.
UNKNOWN = (0x0F, 0x15, 0x16, 0x1F)


# ---- Fixed -------------------------------------------------------------------------------------------------------------------

def start(count, first=SHIFTED):
    """A job of so many results, the first of which is 4 on its interval."""
    return jobs.EDITION_1 + jobs.load_on(first) + jobs.add(0, 0) * (count - 1)


def fits_block(m):
    return 0 <= m.degree < 256


def in_job(call, load=jobs.load_on):
    """A call of an entry as a job: its models loaded, then the command; None where a degree or a kept degree has no byte."""
    count = MODELS[call.entry]
    models, rest = call.inputs[:count], call.inputs[count:]
    if not all(map(fits_block, call.inputs)) or not 0 <= call.scalar < 256:
        return None
    operands = (*range(count), *rest, *[call.scalar] * (call.entry == 'multiply'))
    return jobs.EDITION_1 + b''.join(map(load, models)) + getattr(jobs, call.entry)(*operands) + jobs.END


def calls_in_jobs():
    """The fixed calls of interval_cases.py; those on the standard interval by 0x10 too."""
    for entry in COMMANDS:
        for call in (*fixed_placed(entry), *fixed_orders(entry), *fixed_moved(entry)):
            yield in_job(call)
            if STANDARD in map(o.interval, call.inputs[:MODELS[entry]]):
                yield in_job(call, jobs.any_load)


def uses():
    """A result of 0x14 as each operand of each command, beside another such; both are 4 on one interval."""
    for one in (jobs.add, jobs.subtract, partial(jobs.multiply, kept=4)):
        yield from (one(0, 1), one(1, 0), one(1, 1))
    yield from (jobs.quotient(i, j, ONE, QUARTER) for i, j in ((0, 1), (1, 0), (1, 1)))
    yield from (jobs.root(1, TWO, QUARTER), jobs.tight_root(1, TWO, QUARTER))


def loads():
    """Loads with every end around the limits, beside a model that is within its own or not."""
    ends = (LOWEST, LEAST - 1, LEAST, LEAST + 1, -S, -1, 0, 1, S, GREATEST - 1, GREATEST, GREATEST + 1, HIGHEST)
    for lower, upper in product(ends, ends):
        yield jobs.load_on(on(FOUR, lower, upper))
        yield jobs.load_on(on(constant(LIMIT + 1), lower, upper))
    for m, _ in BORDER_MODELS:
        if fits_block(m):
            yield from (jobs.load_on(on(m, *pair)) for pair in ((0, 1), (1, 0), STANDARD))
    for radius in (LIMIT, LIMIT + 1, 1 << 31, (1 << 32) - 1):
        yield from (jobs.load_on(on(constant(S, radius), *pair)) for pair in ((0, 1), (5, 5)))


def side_by_side():
    """Results on as many intervals as there can be, then commands within one of them and across two."""
    pairs = [*INTERVALS, STANDARD, (5, 6), (5, 7), (-9, 9)]
    assert len(set(pairs)) == MAX_RESULTS
    whole = jobs.EDITION_1 + b''.join(jobs.any_load(on(FOUR, *pair)) for pair in pairs)
    yield whole + jobs.END
    few = jobs.EDITION_1 + b''.join(jobs.any_load(on(FOUR, *pair)) for pair in pairs[:8])
    for i in range(8):
        for tail in (jobs.add(i, i), jobs.multiply(i, i, 3), jobs.quotient(i, i, ONE, QUARTER), jobs.root(i, TWO, QUARTER)):
            yield few + tail + jobs.add(8, 8) + jobs.END
        for j in range(8):
            yield few + jobs.subtract(i, j) + jobs.END
    for pair in DIFFERENT:
        for first, second in (pair, pair[::-1]):
            head = jobs.EDITION_1 + jobs.any_load(on(FOUR, *first)) + jobs.any_load(on(FOUR, *second))
            for kept in (0, 5, MAX_DEGREE + 1):     # 9 of a job's own byte comes first
                yield head + jobs.multiply(0, 1, kept) + jobs.END
            for h, w in ((ONE, QUARTER), (constant(LIMIT + 1), QUARTER), (ONE, constant(0)), (constant(LIMIT), QUARTER)):
                yield head + jobs.quotient(1, 0, h, w) + jobs.END


def at_commands():
    """As every result, as the 33rd, refused with 18 and with 19 at every command, cut off there."""
    good, wrong = jobs.load_on(on(FOUR, 5, 6)), jobs.load_on(on(FOUR, 6, 6))
    for count in range(1, MAX_RESULTS + 1):
        for command in (good, wrong, wrong[:-1], good[:-1], jobs.load(FOUR) + jobs.add(count, 0), good + jobs.add(0, count),
                        jobs.load_on(on(constant(LIMIT + 1), 6, 6)), bytes([0x15]) + good[1:]):
            yield start(count) + command + jobs.END
        yield start(count) + good * (MAX_RESULTS - count) + jobs.END
        yield start(count) + good * (MAX_RESULTS - count + 1) + jobs.END


def whole_job():
    """0x14, a quotient and both roots, 0x10 beside them."""
    return (jobs.EDITION_1 + jobs.load_on(SHIFTED) + jobs.load(FOUR) + jobs.load_on(on(TWO, 0, 2 * S))
            + jobs.quotient(0, 2, TWO, constant(S // 2)) + jobs.root(0, TWO, QUARTER) + jobs.tight_root(0, TWO, QUARTER)
            + jobs.multiply(4, 5, 32) + jobs.END)


def longest_job():
    """The longest job that is accepted: a load by 0x14 and 31 quotients."""
    return start(1) + jobs.quotient(0, 0, ONE, QUARTER) * (MAX_RESULTS - 1) + jobs.END


def fixed_jobs():
    yield from filter(None, calls_in_jobs())
    yield from (jobs.EDITION_1 + load + jobs.END for load in loads())
    yield from side_by_side()
    yield from at_commands()
    for use in uses():
        yield start(2) + use + jobs.END
        yield start(2) + use + use + jobs.END
    whole, longest = whole_job(), longest_job()
    yield from (whole[:length] for length in range(len(whole)))
    yield from (whole, whole + b'\0', whole + whole, longest, longest + b'\0', longest[:-1], longest[:-1] + jobs.load(FOUR))
    for byte in UNKNOWN:
        yield start(1) + bytes([byte]) + jobs.load_on(SHIFTED)[1:] + jobs.END
        yield jobs.EDITION_1 + bytes([byte]) + jobs.load_on(SHIFTED)[1:] + jobs.END


# ---- Random ------------------------------------------------------------------------------------------------------------------

def faulty_load(rng):
    m = random_model(rng, rng.choice((S, 4 * S, None)))
    lower, upper = random_interval(rng)
    return jobs.load_on(on(m, *rng.choice(((upper, lower), (lower, lower), (lower, upper), rng.choice(WRONG_ENDS)))))


def random_job(rng):
    """Some results, at times on several intervals; then a load with wrong ends, a command across two intervals, or the end."""
    builder = jobs.Builder([random_interval(rng) for _ in range(rng.choice((1, 2, 4)))])
    jobs.grow(rng, builder, rng.choice((1, 2, 4, 7)))
    kind, count = rng.random(), len(builder.results)
    if kind < 0.35:
        return builder.job()
    if kind < 0.5:
        return builder.prefix() + faulty_load(rng) + jobs.END
    i = rng.randrange(count)
    m = builder.results[i]
    other = on(m, *rng.choice((beside(rng, *o.interval(m)), STANDARD)))
    command = rng.choice((jobs.add, jobs.subtract, partial(jobs.multiply, kept=rng.randrange(256)),
                          partial(jobs.quotient, h=rng.choice((ONE, m._replace(degree=m.degree + 32 & 255))), w=QUARTER)))
    names = rng.sample((i, count), 2)
    tail = jobs.load_on(other) + command(*names) + jobs.END
    return builder.prefix() + (tail[:rng.randrange(len(tail))] if kind < 0.6 else tail)


# ---- What the jobs are -------------------------------------------------------------------------------------------------------

def job_kinds(job, number, command, results):
    """What is said of one job, which is accepted with these results, or refused at this command."""
    read = list(jobs.read_commands(job))
    passed = read if number == ACCEPTED else read[:command]
    at, operands = read[command] if number and command < len(read) else (None, b'')
    if at in UNKNOWN and number == BAD_VALUE:
        return [('unknown', at)]
    if at != LOAD_ON and not any(byte == LOAD_ON for byte, _ in passed):
        return []
    found = ['jobs', f'{number} in all']
    loaded = {i - 1 for i, (byte, _) in enumerate(passed) if byte == LOAD_ON}       # results, the edition being command 0
    found += [('result', i) for i in loaded] + ['beside 0x10'] * any(byte == o.LOAD for byte, _ in passed)
    for byte, names in ((byte, operands[:o.RESULT_BYTES.get(byte, 0)]) for byte, operands in passed):
        found += [('used by', byte, place) for place, name in enumerate(names) if name in loaded]
    if number == ACCEPTED:
        intervals = len(set(map(o.interval, results)))
        found += ['accepted', '2 or more intervals' if intervals > 1 else '1 interval']
        found += [f'{MAX_RESULTS} intervals'] * (intervals == MAX_RESULTS) + ['the longest'] * (len(job) == MAX_JOB_BYTES)
    found += ['11 behind 0x14'] * (number == BYTES_AFTER_END)
    if number == DIFFERENT_INTERVALS:
        found += [('19 at', at), ('19 at command', command)]
    if at == LOAD_ON:
        found += [f'{number} at 0x14', (f'{number} at command', command)] + [('cut to', 1 + len(operands))] * (number == JOB_ENDS)
        m = o.read_load(LOAD_ON, operands) if number in (BAD_MODEL, BAD_ENDS) else None
        found += ['2 before 18'] * (number == BAD_MODEL and not o.good_ends(m))
        if number == BAD_ENDS:
            found += ['18, l = u'] * (m.lower == m.upper) + ['18, l > u'] * (m.lower > m.upper)
            found += ['18, l = -2^28 - 1'] * (m.lower == LEAST - 1) + ['18, u = 2^28 + 1'] * (m.upper == GREATEST + 1)
    if at == o.QUOTIENT and number == BAD_MODEL:
        one, other = (passed[1 + name] for name in operands[:2])
        apart = {o.read_ends(*load) for load in (one, other) if load[0] in o.LOADS}
        found += ['2 of a candidate, different intervals'] * (len(apart) == 2)
    return found


JOBS_DEMANDED = [
    'accepted', 'checked for soundness', '1 interval', '2 or more intervals', f'{MAX_RESULTS} intervals', 'the longest',
    'beside 0x10', '11 behind 0x14', '2 before 18', '18, l = u', '18, l > u', '18, l = -2^28 - 1', '18, u = 2^28 + 1',
    '2 of a candidate, different intervals',
    *(f'{number} at 0x14' for number in (BAD_MODEL, BAD_ENDS, JOB_ENDS, TOO_MANY_RESULTS)),
    *(f'{number} in all' for number in (BAD_MODEL, BAD_VALUE, BAD_ENDS, DIFFERENT_INTERVALS)),
    *(('18 at command', command) for command in range(1, MAX_RESULTS + 1)),
    *(('19 at command', command) for command in range(3, MAX_RESULTS + 1)),
    *(('19 at', byte) for byte in (o.ADD, o.SUBTRACT, o.MULTIPLY, o.QUOTIENT)),
    *(('result', i) for i in range(MAX_RESULTS)), *(('unknown', byte) for byte in UNKNOWN),
    *(('cut to', length) for length in range(1, 1 + o.OPERAND_WIDTH[LOAD_ON])),
    *(('used by', byte, place) for byte, names in o.RESULT_BYTES.items() for place in range(names)),
]


def counted_jobs(found):
    """The counts in words; each kind must be there."""
    missing = [kind for kind in JOBS_DEMANDED if not found[kind]]
    assert not missing, f'no job with 0x14: {missing}'
    rest = ', '.join(f'{kind}: {found[kind]}' for kind in JOBS_DEMANDED if isinstance(kind, str))
    used = ', '.join(f'{count} at 0x{kind[1]:02x}' for kind, count in found.items() if kind[0] == '19 at')
    return (f'{found["jobs"]} jobs with 0x14; {rest}; 19: {used}; as each result, 18 at each command from 1 to {MAX_RESULTS}, '
            f'19 from 3 to {MAX_RESULTS}, cut off at every byte, its result used by every command, bytes 0x15 and others unknown')
