"""Jobs with command 0x22, document 02's S-22: each test of tight_root_cases.py in a job, alone and behind 0x21 on the same
candidates, each refusal at each command, its result used by every command; and what compare.py demands of them.
"""

from functools import partial

import jobs
import oracle as o
from candidates import root_candidates
from cases import BORDER_MODELS, on, random_degree
from header import (ACCEPTED, BAD_MODEL, BAD_VALUE, BYTES_AFTER_END, HELPER_NOT_POSITIVE, JOB_ENDS, LARGE_RESIDUAL, MAX_RESULTS,
                    NO_RADIUS, NOT_A_RESULT, NOT_CONTRACTING, S, TOO_MANY_RESULTS)
from oracle import LIMIT, TIGHT_ROOT, constant
from tight_root_cases import ACCEPTED_KINDS, fixed_tight, radius_kinds, tight_inputs

FOUR, TWO, QUARTER = constant(4 * S), constant(2 * S), constant(S // 4)


# ---- Fixed and random -----------------------------------------------------------------------------------------

def start(count):
    """A job of so many results, the first of which is 4."""
    return jobs.EDITION_1 + jobs.load(FOUR) + jobs.add(0, 0) * (count - 1)


def tests_in_jobs():
    """Each fixed test in a job by itself, and behind the root test of the same candidates."""
    for f, h, w in (one.inputs for one in fixed_tight()):
        if 0 <= min(f.degree, h.degree, w.degree) and max(f.degree, h.degree, w.degree) < 256:
            head, test = jobs.EDITION_1 + jobs.load(f), jobs.tight_root(0, h, w)
            yield head + test + jobs.END
            yield head + jobs.root(0, h, w) + test + jobs.END


def faulty_tests(count):
    """One test for each refusal that 0x22 can meet after count results, and for each pair of them that can compete."""
    bad = constant(LIMIT + 1)
    for name in (count, count + 1, MAX_RESULTS - 1, MAX_RESULTS, 255):
        if name >= count:
            yield jobs.tight_root(name, TWO, QUARTER)                       # 12
            yield jobs.tight_root(name, bad, constant(-1))                  # 12 before 2 and 7
            yield jobs.tight_root(name, TWO, QUARTER)[:-1]                  # 10 before 12
    for m, _ in BORDER_MODELS:
        if 0 <= m.degree <= 255:
            candidate = m._replace(radius=0)
            yield jobs.tight_root(0, candidate, QUARTER)                    # 2, or good
            yield jobs.tight_root(0, TWO, candidate)
            yield jobs.tight_root(0, candidate, constant(-S))               # 2 before 7
    for h, w in ((-2 * S, -S // 4), (0, 0), (2 * S, 0)):
        yield jobs.tight_root(0, constant(h), constant(w))                  # 7, also before 5
    for h, w in ((0, 1), (LIMIT, LIMIT), (2 * S, S)):
        yield jobs.tight_root(0, constant(h), constant(w))                  # 5, also before 6
    yield jobs.tight_root(0, constant(LIMIT), constant((1 << 39) // LIMIT))  # 6
    for h, w in ((4 * S, S // 8), (1 << 11, LIMIT), (S, S // 2), (3 * S, S // 6)):
        yield jobs.tight_root(0, constant(h), constant(w))                  # 17
    for byte in range(TIGHT_ROOT + 1, 256):
        yield bytes([byte]) + jobs.tight_root(0, TWO, QUARTER)[1:]          # 9


def uses():
    """A result of 0x22 as each operand of each command."""
    for one in (jobs.add, jobs.subtract, partial(jobs.multiply, kept=4)):
        yield from (one(0, 1), one(1, 0), one(1, 1))
    for i, j, h, w in ((1, 0, S // 2, S // 4), (0, 1, 2 * S, S // 2), (1, 1, S, S // 2)):
        yield jobs.quotient(i, j, constant(h), constant(w))
    h, w = root_candidates(TWO, 0)
    yield from (jobs.root(1, h, w), jobs.tight_root(1, h, w))


def fixed_jobs():
    passes = jobs.tight_root(0, TWO, QUARTER)
    fails = jobs.tight_root(0, constant(3 * S), constant(S // 6))
    yield from tests_in_jobs()
    for count in range(1, MAX_RESULTS + 1):         # as every result, as the 33rd, and refused at every command
        for command in (passes, fails, passes[:-1], jobs.tight_root(count, TWO, QUARTER)):
            yield start(count) + command + jobs.END
        yield start(count) + passes * (MAX_RESULTS - count) + jobs.END
        yield start(count) + passes * (MAX_RESULTS - count + 1) + jobs.END
    for count in (1, 7, MAX_RESULTS - 1, MAX_RESULTS):
        for command in faulty_tests(count):
            yield start(count) + command + jobs.END
    for use in uses():
        yield start(1) + passes + use + jobs.END
        yield start(1) + passes + use + use + jobs.END
    whole = start(2) + passes + jobs.root(0, TWO, QUARTER) + passes + jobs.END
    for length in range(len(whole)):                # cut at every byte
        yield whole[:length]
    yield from (whole + b'\0', whole + whole)


def tight_builder(rng):
    """A job with 0x22 and the commands that use its result; at times 0x21 with the same candidates."""
    builder = jobs.drawn_builder(rng)
    jobs.grow(rng, builder, rng.choice((0, 0, 1, 3)))
    for _ in range(rng.choice((1, 1, 2, 4))):
        f, h, w = tight_inputs(rng)
        if not builder.load(on(f, *rng.choice(builder.intervals))):
            continue
        i = len(builder.results) - 1
        if rng.random() < 0.4:
            builder.root(i, found=(h, w))
        if not builder.tight_root(i, found=(h, w)):
            builder.tight_root(i, random_degree(rng))
    jobs.grow(rng, builder, len(builder.results) + rng.choice((0, 0, 1, 2, 5)))
    return builder


def random_job(rng):
    """Mostly accepted; else a last test that may be refused, 17 above all."""
    builder = tight_builder(rng)
    if rng.random() < 0.7:
        return builder.job()
    f, h, w = tight_inputs(rng)
    if not (builder.load(f) and len(builder.results) < MAX_RESULTS):
        return builder.job()
    return builder.prefix() + jobs.tight_root(len(builder.results) - 1, h, w) + jobs.END


# ---- What the jobs are ------------------------------------------------------------------------------------------

def radii_in_job(commands, results):
    """What is said of the roots by 0x22 among these commands, which made these results."""
    for (byte, operands), result in zip(commands, results, strict=True):
        if byte == TIGHT_ROOT:
            h, w = (o.read_block(operands, at) for at in (1, 1 + o.BLOCK_BYTES))
            _, (big_m, m, _, b) = o.root_numbers(results[operands[0]], h, w)
            yield from (f'{kind}, in a job' for kind in radius_kinds(big_m, m, b, result.radius))


def job_kinds(job, number, command, results):
    """What is said of one job, which is accepted with these results, or refused at this command."""
    read = list(jobs.read_commands(job))
    passed = read if number == ACCEPTED else read[:command]
    at, operands = read[command] if number and command < len(read) else (None, b'')
    found = [('unknown', at)] * (number == BAD_VALUE and at is not None and at > TIGHT_ROOT)
    if at != TIGHT_ROOT and not any(byte == TIGHT_ROOT for byte, _ in passed):
        return found
    found += ['jobs'] + ['accepted'] * (number == ACCEPTED)
    by_21, by_22 = ({operands for byte, operands in passed if byte == root} for root in (o.ROOT, TIGHT_ROOT))
    found += ['0x21 with the same operands'] * bool(by_21 & by_22) + ['11 behind 0x22'] * (number == BYTES_AFTER_END)
    if number == ACCEPTED:
        found += radii_in_job(read[1:-1], results)      # between edition and end
    if at == TIGHT_ROOT:
        found += [f'{number} at 0x22'] + [('17 at command', command)] * (number == NO_RADIUS)
        found += [('cut to', 1 + len(operands))] * (number == JOB_ENDS)
        if number == BAD_MODEL:
            bad = [name for name, at in (('h', 1), ('w', 1 + o.BLOCK_BYTES)) if not o.good(o.read_block(operands, at))]
            found += [f'2 of {bad[0]} at 0x22'] * (len(bad) == 1)
    tight = {i - 1 for i, (byte, _) in enumerate(passed) if byte == TIGHT_ROOT}     # results, the edition being command 0
    found += [('result', i) for i in tight]
    for byte, operands in passed:
        names = operands[:o.RESULT_BYTES.get(byte, 0)]
        found += [('used by', byte, place) for place, name in enumerate(names) if name in tight]
    return found


JOBS_DEMANDED = [
    'accepted', 'checked for soundness', *(f'{kind}, in a job' for kind in ACCEPTED_KINDS), '0x21 with the same operands',
    '2 of h at 0x22', '2 of w at 0x22',
    *(f'{number} at 0x22' for number in (BAD_MODEL, HELPER_NOT_POSITIVE, NOT_CONTRACTING, LARGE_RESIDUAL, NO_RADIUS, JOB_ENDS,
                                         NOT_A_RESULT, TOO_MANY_RESULTS)), '11 behind 0x22',
    *(('17 at command', command) for command in range(2, MAX_RESULTS + 1)), *(('result', i) for i in range(1, MAX_RESULTS)),
    *(('cut to', length) for length in range(1, 1 + o.OPERAND_WIDTH[TIGHT_ROOT])),
    *(('used by', byte, place) for byte, names in o.RESULT_BYTES.items() for place in range(names)),
    *(('unknown', byte) for byte in range(TIGHT_ROOT + 1, 256)),
]


def counted_jobs(found):
    """The counts in words; each kind must be there."""
    missing = [kind for kind in JOBS_DEMANDED if not found[kind]]
    assert not missing, f'no job with 0x22: {missing}'
    rest = ', '.join(f'{kind}: {found[kind]}' for kind in JOBS_DEMANDED if isinstance(kind, str))
    return (f'{found["jobs"]} jobs with 0x22; {rest}; as each result from the second to the {MAX_RESULTS}nd, 17 at each command '
            f'from 2 to {MAX_RESULTS}, cut off at every byte, its result used by every command, bytes 0x23 to 0xff unknown')
