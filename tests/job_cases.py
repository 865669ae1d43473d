"""Cases for the job checker: accepted jobs, every refusal at several commands,
competing refusals, cut and altered jobs, and bytes that mean nothing."""

from random import Random

import edition_jobs
import interval_jobs
import jobs
import oracle as o
import tight_root_jobs
from candidates import clipped
from cases import BORDER_MODELS, LOWEST, ODD, Case, random_model, spoiled
from examples_of_01 import example_job
from header import DEFAULT_KEPT, MAX_DEGREE, MAX_RESULTS, S
from jobs import EDITION_1, END, Builder, full_builder, random_builder, tied_builder
from oracle import LIMIT, constant, model

KNOWN = sorted(o.OPERAND_WIDTH)
TWO, QUARTER = constant(2 * S), constant(S // 4)
BAD = constant(LIMIT + 1)
UNSET_RADIUS = (LIMIT, LIMIT + 1, 1 << 31, (1 << 32) - 1, (1 << 31) + LIMIT)


def case(job):
    return Case('check', (bytes(job),))


def loaded_radius(radius):
    """A load whose radius bytes hold any unsigned 32-bit number."""
    return jobs.load(constant(S, radius))


# ---- Faulty commands ----------------------------------------------------------------

def faulty_commands(count):
    """One command for each refusal a command can meet after count results, and
    for each pair of them that can compete; result 0 is the constant 4S."""
    last, missing = max(count - 1, 0), count
    yield from (bytes([b]) for b in range(256) if b not in o.OPERAND_WIDTH)  # 9
    yield from jobs.EDITIONS                                            # 9, again
    yield bytes([o.EDITION, 3])
    yield bytes([o.EDITION])                                            # 9 before 10
    for d in (MAX_DEGREE + 1, MAX_DEGREE + 2, 100, DEFAULT_KEPT - 2, DEFAULT_KEPT - 1):
        yield jobs.multiply(0, last, d)                                 # 9, values
        yield jobs.multiply(missing, 255, d)                            # 9 before 12
        yield jobs.multiply(0, 0, d)[:-1]                               # 10
    for name in (missing, missing + 1, MAX_RESULTS - 1, MAX_RESULTS, MAX_RESULTS + 1, 128, 255):
        yield jobs.add(name, last)                                      # 12
        yield jobs.subtract(last, name)
        yield jobs.multiply(last, name, DEFAULT_KEPT)
        yield jobs.multiply(name, last, 3)
        yield jobs.quotient(last, name, TWO, QUARTER)
        yield jobs.quotient(name, last, BAD, BAD)                       # 12 before 2
        yield jobs.root(name, BAD, BAD)
        yield jobs.root(name, TWO, constant(-1))                        # 12 before 7
        yield jobs.root(name, TWO, QUARTER)[:-1]                        # 10 before 12
        yield jobs.tight_root(name, TWO, QUARTER)
    for m, _ in BORDER_MODELS:                                          # 2, or good
        if 0 <= m.degree <= 255:
            candidate = m._replace(radius=0)
            yield jobs.load(m)
            yield jobs.quotient(0, 0, candidate, QUARTER)
            yield jobs.quotient(0, 0, TWO, candidate)
            yield jobs.root(0, candidate, QUARTER)
            yield jobs.root(0, TWO, candidate)
            yield jobs.root(0, candidate, constant(-S))                 # 2 before 7
    yield from map(loaded_radius, UNSET_RADIUS)
    yield jobs.root(0, BAD, constant(0))
    yield jobs.root(0, constant(-2 * S), constant(-S // 4))             # 7, slip 1
    yield jobs.root(0, constant(0), constant(0))                        # 7 before 5
    yield jobs.root(0, constant(0), constant(1))                        # 5
    yield jobs.root(0, constant(LIMIT), constant(LIMIT))                # 5 before 6
    yield jobs.root(0, constant(LIMIT), constant((1 << 39) // LIMIT))   # 6
    for root in (jobs.root, jobs.tight_root):
        yield root(0, constant(4 * S), constant(S // 8))                # 8 or 17
        yield root(0, constant(1 << 11), constant(LIMIT))
    yield jobs.quotient(0, 0, constant(S), constant(0))                 # 5
    yield jobs.quotient(0, 0, constant(LIMIT), constant(0))             # 5 before 6
    yield jobs.quotient(0, 0, constant(LIMIT), QUARTER)                 # 6
    yield jobs.quotient(0, 0, constant(LIMIT // 8), constant(S // 4 + S // 5))  # 3
    # 3 at the second of two commands: the radius of a quotient, a sum, a product.
    most = jobs.load(constant(LIMIT))
    yield most + jobs.add(count, count)
    yield most + jobs.multiply(count, count, 0)
    yield most + jobs.quotient(count, 0, constant(0), constant(S // 4 + S // 8))
    yield jobs.load(constant(0, LIMIT)) + jobs.subtract(count, count)


def too_large_commands():
    """Jobs whose last operation gives 3: weight, radius, or both."""
    most = constant(LIMIT)
    for m, other in ((most, constant(1)), (constant(0, LIMIT), constant(0, 1)),
                     (most, most), (constant(S, LIMIT), constant(-LIMIT, LIMIT))):
        head = EDITION_1 + jobs.load(m) + jobs.load(other)
        for command in (jobs.add(0, 1), jobs.subtract(0, 1), jobs.multiply(0, 0, MAX_DEGREE),
                        jobs.multiply(0, 1, 0)):
            yield head + command + END
    # A quotient whose test passes and whose radius is above the limit.
    yield (EDITION_1 + jobs.load(most) + jobs.load(constant(S))
           + jobs.quotient(0, 1, constant(0), constant(S + 1)) + END)
    yield (EDITION_1 + jobs.load(most) + jobs.load(constant(S))
           + jobs.quotient(0, 1, constant(0), constant(S)) + END)


# ---- Fixed cases ----------------------------------------------------------------------

def fixed_check():
    example = example_job()
    yield case(example)                                                 # 01's example
    yield case(b'')                                                     # P11
    rng = Random(1)
    mixed = Builder()
    mixed.load(constant(4 * S))
    mixed.load(model([3 * S, S, -S // 2], 7))
    mixed.multiply(1, 1, 2)
    mixed.root(2, 8)
    mixed.quotient(0, 3, 8)
    mixed.tight_root(2, 8)
    mixed.subtract(4, 0)
    for job in (example, mixed.job()):              # cut at every byte, and longer
        for length in range(len(job)):
            yield case(job[:length])
        yield case(job + b'\0')
        yield case(job + b'\x01')
        yield case(job + job)
        yield case(job[:-1])
        yield case(job + bytes(70000))
    for first in range(256):                        # every byte as the first, and later
        yield case(bytes([first]))
        yield case(bytes([first]) + bytes(300))
        yield case(bytes([1, first]) + bytes(300))
        yield case(EDITION_1 + bytes([first]))
        yield case(EDITION_1 + bytes([first]) + bytes(300))
        yield case(EDITION_1 + jobs.load(constant(S)) + bytes([first]) + bytes(300))
    yield case(EDITION_1 + END)                     # no results at all
    yield case(EDITION_1)
    yield case(END)
    yield case(EDITION_1 + EDITION_1 + END)
    yield case(jobs.load(constant(S)) + END)
    for d in range(256):                            # every kept degree
        yield case(EDITION_1 + jobs.load(model([S // 2] * 20, 3)) + jobs.multiply(0, 0, d) + END)
    for odd in ODD:                                 # a tie, alone and doubled
        yield case(EDITION_1 + jobs.load(constant(odd)) + jobs.load(constant(S // 2))
                   + jobs.multiply(0, 1, MAX_DEGREE) + jobs.add(2, 2) + END)
    # Every fault after 1, 3 and 32 results, with and without more behind.
    few = EDITION_1 + jobs.load(constant(4 * S))
    more = few + jobs.multiply(0, 0, 4) + jobs.root(0, TWO, QUARTER)
    full = full_builder(rng)
    full.commands[1] = jobs.load(constant(4 * S))   # result 0 as the faults expect it
    heads = ((few, 1), (more, 3), (full.prefix(), MAX_RESULTS))
    for head, count in heads:
        for command in faulty_commands(count):
            yield case(head + command + END)
        for command in (jobs.load(constant(S)), jobs.load(BAD), jobs.add(0, 0),
                        jobs.multiply(0, 0, 40), jobs.add(count, 0), jobs.root(0, TWO, QUARTER),
                        jobs.root(0, BAD, QUARTER), jobs.root(0, TWO, constant(-1)),
                        jobs.load(constant(S))[:-1], b'', EDITION_1, b'\x7f', jobs.root(count, BAD, BAD)):
            yield case(head + command + END)        # 13 and what competes with it
            yield case(head + command)
            yield case(head + command + END + b'\0')
    yield from map(case, too_large_commands())
    yield case(full_builder(rng).job())             # 32 results
    work = Builder()                                # 32 results of full degree
    work.load(model([4 * S] + [S // 40] * MAX_DEGREE, 2))
    while work.root(0):
        pass
    yield case(work.job())
    yield case(work.prefix() + jobs.root(0, TWO, QUARTER) + END)
    yield from map(case, tight_root_jobs.fixed_jobs())
    yield from map(case, interval_jobs.fixed_jobs())
    yield from map(case, edition_jobs.fixed_jobs())


# ---- Random cases ---------------------------------------------------------------------

def mutated(rng, job):
    """A job with a few bytes altered, inserted, removed or swapped."""
    data = bytearray(job)
    for _ in range(rng.choice((1, 1, 1, 2, 4))):
        at = rng.randrange(len(data)) if data else 0
        kind = rng.randrange(5)
        if kind == 0 and data:
            data[at] = rng.randrange(256)
        elif kind == 1 and data:
            data[at] ^= 1 << rng.randrange(8)
        elif kind == 2:
            data.insert(at, rng.randrange(256))
        elif kind == 3 and data:
            del data[at]
        elif data:
            data[at] = rng.choice(KNOWN + [MAX_DEGREE, MAX_DEGREE + 1, DEFAULT_KEPT - 1, DEFAULT_KEPT])
    return bytes(data)


def mutated_command_bytes(rng, builder):
    """Alters only command bytes and the bytes next to them."""
    commands = [bytearray(c) for c in builder.commands] + [bytearray(END)]
    command = rng.choice(commands)
    at = rng.randrange(min(4, len(command)))
    command[at] = rng.choice((rng.randrange(256), rng.choice(KNOWN), rng.randrange(MAX_DEGREE + 2)))
    if rng.random() < 0.3:
        rng.shuffle(commands)
    return b''.join(map(bytes, commands))


def faulty(rng, builder):
    """A fault behind some good commands; at times one more fault behind it."""
    count = len(builder.results)
    name = rng.choice((rng.randrange(max(count, 1)), rng.randrange(max(count, 1)), count, 255))
    other = rng.randrange(max(count, 1))
    good = random_model(rng, rng.choice((S, 4 * S, None)), 0)
    h = spoiled(rng, good, True) if rng.random() < 0.3 else good
    w = rng.choice((good, QUARTER, constant(-S // 4), constant(1)))
    h, w = (m._replace(degree=m.degree & 255) for m in (h, w))
    command = rng.choice((
        jobs.add(name, other), jobs.subtract(other, name),
        jobs.multiply(name, other, rng.randrange(256)), jobs.quotient(name, other, h, w),
        jobs.quotient(other, name, TWO, w), jobs.root(name, h, w), jobs.root(name, TWO, w),
        jobs.tight_root(name, h, w), jobs.tight_root(name, TWO, w),
        jobs.load(h._replace(radius=rng.choice((*UNSET_RADIUS, 0)))), interval_jobs.faulty_load(rng),
        jobs.load(constant(LOWEST)), bytes([rng.randrange(256)]), EDITION_1, END,
        jobs.load(constant(LIMIT)) + jobs.add(count, count),
        jobs.load(constant(1, LIMIT)) + jobs.multiply(count, count, MAX_DEGREE)))
    if rng.random() < 0.15:
        command = command[:rng.randrange(len(command) + 1)]
    return builder.prefix() + command + rng.choice((END, END, b'', END + END, EDITION_1))


def tampered(rng, builder):
    """One test's candidate or helper altered so that it no longer fits: all
    else in the job is as it was."""
    commands = list(builder.commands)
    tests = [i for i, c in enumerate(commands) if c[0] in o.TESTS]
    if not tests:
        return faulty(rng, builder)
    i = rng.choice(tests)
    command = commands[i]
    start = 1 + o.RESULT_BYTES[command[0]]
    h, w = (o.read_block(command, at) for at in (start, start + o.BLOCK_BYTES))
    place = rng.randint(0, h.degree)
    h_factor, w_factor, extra = rng.choice((
        (-1, -1, 0), (1, -1, 0), (2, 1, 0), (1, 2, 0), (1, 0, 0), (0, 1, 0), (1, 0.1, 0),
        (2, 0.5, 0), (0.5, 2, 0), (16, 1 / 16, 0), (64, 1 / 64, 0), (20, 1, 0), (99, 1, 0),
        (1, 1, int(2 ** rng.uniform(10, 28))), (1, 1, -int(2 ** rng.uniform(10, 28)))))
    h_row = [int(c * h_factor) + (extra if k == place else 0) for k, c in enumerate(h.coefficients)]
    w_row = [int(c * w_factor) for c in w.coefficients]
    commands[i] = (command[:start] + jobs.block(model(clipped(h_row), 0, h.degree))
                   + jobs.block(model(clipped(w_row), 0, w.degree)))
    return b''.join(commands) + END


class RandomJobs:
    """Keeps the last accepted jobs, so that most altered jobs start from one."""

    def __init__(self):
        self.kept = []

    def __call__(self, rng):
        kind = rng.random()
        if kind < 0.35 or len(self.kept) < 5:
            draw, = rng.choices((tied_builder, random_builder, tight_root_jobs.tight_builder), (3, 5, 2))
            builder = draw(rng)
            self.kept = (self.kept + [builder])[-40:]
            return case(builder.job())
        builder = rng.choice(self.kept)
        if kind < 0.4:
            return case(rng.choice((tight_root_jobs, interval_jobs, edition_jobs)).random_job(rng))
        if kind < 0.53:
            return case(mutated(rng, builder.job()))
        if kind < 0.65:
            return case(mutated_command_bytes(rng, builder))
        if kind < 0.75:
            return case(tampered(rng, builder))
        if kind < 0.85:
            return case(faulty(rng, builder))
        if kind < 0.88:
            return case(faulty(rng, full_builder(rng)))
        if kind < 0.94:
            job = builder.job()
            return case(job[:rng.randrange(len(job))])
        random_bytes = rng.randbytes(rng.choice((1, 5, 40, 400)))
        return case(rng.choice((b'', EDITION_1, EDITION_1 + jobs.load(TWO))) + random_bytes)


FIXED = {'check': fixed_check}
