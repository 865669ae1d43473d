"""Jobs of edition 2, document 02's S-27: the multiply byte 0xFF in both editions, with factors of every kind and degree; and what
compare.py demands of them.
"""

import jobs
import oracle as o
from cases import spread
from header import (ACCEPTED, BAD_MODEL, BAD_VALUE, BYTES_AFTER_END, DEFAULT_KEPT, DIFFERENT_INTERVALS, JOB_ENDS, LARGE_RESULT,
                    MAX_DEGREE, MAX_RESULTS, NOT_A_RESULT, S, TOO_MANY_RESULTS)
from oracle import LIMIT, constant, model

FOUR, TWO, ONE, QUARTER = (constant(c) for c in (4 * S, 2 * S, S, S // 4))
PAIRS = [(n, m) for n in range(MAX_DEGREE + 1) for m in range(MAX_DEGREE + 1)]
FEW = [(n, m) for n, m in PAIRS if {n, m} <= {0, 1, 2, 5, 16, 31, 32}]


def polynomial(degree):
    """4 and a little of every T_k up to the degree."""
    return model([4 * S] + [(S // 16 >> k) + 1 for k in range(degree)])


def tall(m, degree):
    """The model with a higher degree, its coefficients there being zero."""
    return m._replace(degree=degree)


# ---- Fixed -------------------------------------------------------------------------------------------------------------------

def product_job(edition, n, m):
    """Two open multiplies, the second naming the first, of factors of these degrees."""
    return (edition + jobs.load(polynomial(n)) + jobs.load(polynomial(m)) + jobs.multiply(0, 1, DEFAULT_KEPT)
            + jobs.multiply(2, 1, DEFAULT_KEPT) + jobs.END)


def makers():
    """Commands that make a result of degree 6 of the results 0 and 1, which are 4 with the degrees 2 and 4: every kind of command,
    every way in which a product gets its degree."""
    h, w = tall(ONE, 6), QUARTER
    two = tall(TWO, 6)
    yield from (jobs.load(tall(FOUR, 6)), jobs.load_on(tall(FOUR, 6)))
    yield from (jobs.load(tall(FOUR, 6)) + add(i, j) for add in (jobs.add, jobs.subtract) for i, j in ((2, 0), (0, 2)))
    yield from (jobs.quotient(0, 1, h, w), jobs.root(0, two, w), jobs.tight_root(0, two, w))
    for kept in (6, 7, MAX_DEGREE):                 # by the kept degree and the sum; by the sum
        yield jobs.multiply(0, 1, kept)
    yield jobs.multiply(1, 1, 6)                    # by the kept degree
    yield jobs.load(tall(FOUR, 6)) + jobs.multiply(0, 2, DEFAULT_KEPT)


def made_factors(edition):
    """An open multiply of each such result with results of smaller and larger degrees, and with itself; more of them behind."""
    head = edition + jobs.load(tall(FOUR, 2)) + jobs.load(tall(FOUR, 4))
    for maker in makers():
        made = 2 + len(list(jobs.read_commands(maker))) - 1
        for tail in (jobs.multiply(made, 0, DEFAULT_KEPT), jobs.multiply(1, made, DEFAULT_KEPT),
                     jobs.multiply(made, made, DEFAULT_KEPT),
                     jobs.load(tall(ONE, 9)) + jobs.multiply(made, made + 1, DEFAULT_KEPT),
                     jobs.load(tall(ONE, 9)) + jobs.multiply(made + 1, made, DEFAULT_KEPT),
                     jobs.multiply(made, 0, DEFAULT_KEPT) + jobs.subtract(made + 1, 0) + jobs.multiply(made + 2, 1, DEFAULT_KEPT)):
            yield head + maker + tail + jobs.END


def refused_jobs(edition):
    """Open multiplies before and behind a command that the check refuses, with each number."""
    first = edition + jobs.load(FOUR) + jobs.load(tall(FOUR, 5)) + jobs.multiply(0, 1, DEFAULT_KEPT)
    last = jobs.multiply(1, 3, DEFAULT_KEPT) + jobs.END
    bad, off = constant(LIMIT + 1), model([S], 0)._replace(lower=0, upper=S)
    for command in (jobs.load(bad), jobs.load_on(FOUR._replace(lower=S)), jobs.quotient(0, 1, bad, QUARTER), jobs.root(0, TWO, bad),
                    jobs.quotient(0, 0, ONE, constant(0)), jobs.quotient(0, 0, constant(LIMIT), QUARTER),
                    jobs.root(0, TWO, constant(-1)), jobs.root(0, constant(3 * S), constant(S // 6)),
                    jobs.tight_root(0, constant(3 * S), constant(S // 6))):
        yield first + command + last
    most = jobs.load(constant(LIMIT))
    yield first + most + jobs.multiply(3, 3, DEFAULT_KEPT) + last
    yield first + most + jobs.add(3, 3) + last
    yield first + jobs.load_on(off) + jobs.multiply(0, 3, DEFAULT_KEPT) + last
    yield first + jobs.load_on(off) + jobs.add(3, 0) + last


def full_jobs(edition):
    """Nothing at all; as many open multiplies as there can be, and one more."""
    head = edition + jobs.load(polynomial(3))
    products = b''.join(jobs.multiply(i, 0, DEFAULT_KEPT) for i in (0, 0, 1, 0, 2, 0, 1)) + jobs.multiply(0, 0, DEFAULT_KEPT) * 24
    yield edition + jobs.END
    yield head + products + jobs.END
    yield head + products + jobs.multiply(0, 0, DEFAULT_KEPT) + jobs.END


def fixed_jobs():
    for edition in jobs.EDITIONS:
        yield from (product_job(edition, n, m) for n, m in FEW)
        yield from made_factors(edition)
        yield from refused_jobs(edition)
        yield from full_jobs(edition)
    for d in range(256):                            # every kept degree
        yield jobs.EDITION_2 + jobs.load(model([S // 2] * 20, 3)) + jobs.load(ONE) + jobs.multiply(1, 0, d) + jobs.END
    yield from (jobs.EDITION_2 + edition + jobs.END for edition in jobs.EDITIONS)
    whole = product_job(jobs.EDITION_2, 4, 9)
    yield from (whole[:length] for length in (*range(5), *range(len(whole) - 9, len(whole))))
    yield from (whole + jobs.END, whole[:-2] + bytes([9]) + jobs.END, whole[:-4] + bytes([3, 1, DEFAULT_KEPT]) + jobs.END)


# ---- Random ------------------------------------------------------------------------------------------------------------------

def opened(rng, job, share):
    """The job with 0xFF as the kept degree of so many of its multiply commands."""
    changed = b''
    for byte, operands in jobs.read_commands(job):
        if byte == o.MULTIPLY and len(operands) == 3 and rng.random() < share:
            operands = operands[:2] + bytes([DEFAULT_KEPT])
        changed += bytes([byte]) + operands
    return changed + job[len(changed):]


def random_job(rng):
    """Edition 2: loads of drawn degrees, open multiplies, sums of these, and a few other commands."""
    builder = jobs.Builder(edition=2)
    for _ in range(rng.randint(1, 3)):
        builder.load(model(spread(rng, rng.randint(0, MAX_DEGREE), 3 * S), rng.choice((0, 0, 5))))
    for _ in range(rng.randint(1, 4)):
        i, j = (rng.randrange(len(builder.results)) for _ in range(2))
        rng.choice((builder.add, builder.multiply, *[lambda i, j: builder.multiply(i, j, DEFAULT_KEPT)] * 3))(i, j)
    jobs.grow(rng, builder, min(MAX_RESULTS, len(builder.results) + rng.choice((0, 0, 0, 2))))
    return builder.job()


# ---- What the jobs are -------------------------------------------------------------------------------------------------------

def job_kinds(job, number, command, results):
    """What is said of one job, which is accepted with these results, or refused at this command."""
    if job[:1] != bytes([o.EDITION]) or len(job) < 2:
        return []
    read = list(jobs.read_commands(job))
    if job[1] not in o.EDITIONS:
        return [('edition refused', job[1])]
    passed = read if number == ACCEPTED else read[:command]
    named = [operands[:2] for byte, operands in passed if byte == o.MULTIPLY and operands[2] == DEFAULT_KEPT]
    pairs = [tuple(results[name].degree for name in names) for names in named] if number == ACCEPTED else []
    if job[1] == 1:
        return ['edition 1 with 0xFF'] * bool(named) + [('edition 1', *pair) for pair in pairs]
    at, operands = read[command] if number and command < len(read) else (None, b'')
    kept = operands[2] if at == o.MULTIPLY and number != JOB_ENDS else None
    found = ['jobs', f'{number} in all'] + ['accepted'] * (number == ACCEPTED) + ['with 0xFF'] * bool(named)
    found += [('kept refused', kept)] * (number == BAD_VALUE and kept is not None)
    found += ['edition again'] * (number == BAD_VALUE and at == o.EDITION and command > 0)
    found += ['3 of an open product'] * (number == LARGE_RESULT and kept == DEFAULT_KEPT)
    found += [f'{MAX_RESULTS - 1} open products'] * (number == ACCEPTED and len(named) == MAX_RESULTS - 1)
    return found + [('open', *pair) for pair in pairs] + ['no result'] * (number == ACCEPTED and len(read) == 2)


JOBS_DEMANDED = [
    'accepted', 'with 0xFF', 'edition 1 with 0xFF', 'checked for soundness', 'no result', '3 of an open product', 'edition again',
    f'{MAX_RESULTS - 1} open products',
    *(f'{number} in all' for number in (BAD_MODEL, BAD_VALUE, JOB_ENDS, BYTES_AFTER_END, NOT_A_RESULT, TOO_MANY_RESULTS,
                                        DIFFERENT_INTERVALS)),
    *(('edition refused', edition) for edition in range(256) if edition not in o.EDITIONS),
    *(('kept refused', kept) for kept in range(MAX_DEGREE + 1, DEFAULT_KEPT)),
    *(('edition 1', *pair) for pair in FEW),
]


def counted_jobs(found, every_pair):
    """The counts in words; each kind must be there, with the jobs behind conversions open products of every pair of degrees."""
    missing = [kind for kind in (*JOBS_DEMANDED, *(('open', *pair) for pair in (PAIRS if every_pair else FEW))) if not found[kind]]
    assert not missing, f'no job of edition 2: {missing}'
    rest = ', '.join(f'{kind}: {found[kind]}' for kind in JOBS_DEMANDED if isinstance(kind, str))
    pairs = sum(1 for kind in found if kind[0] == 'open')
    return (f'{found["jobs"]} jobs of edition 2; {rest}; open products of {pairs} pairs of degrees; editions 0 and 3 to 255 refused, '
            f'kept degrees 33 to 254 refused')
