"""Jobs for the report records, document 02's S-30: every kind of command at the first and the last of 32 results, in both editions, with
every byte of each field; jobs that agree in some of the fields and differ in others, in pairs; refusals behind and before results."""

from typing import NamedTuple

import jobs
import oracle as o
from cases import on
from edition_jobs import tall
from header import DEFAULT_KEPT, MAX_DEGREE, MAX_RESULTS, S
from oracle import LIMIT, constant, model
from scratch_cases import endings

ZERO, ONE, TWO, FOUR, QUARTER = (constant(c) for c in (0, S, 2 * S, 4 * S, S // 4))
SIXTEEN, SIXTEENTH = constant(16 * S), constant(S // 16)
OTHER = 0, 3 * S            # another interval than the standard one


# ---- Every kind of command, every byte of a field -----------------------------------------------------------------------------------

HEAD = jobs.load(tall(constant(4 * S, 3), 2)) + jobs.load_on(tall(constant(4 * S, 5), 4))


def commands():
    """Each kind, where results 0 and 1 are those of HEAD: the degrees of h, of w and of what is named all differ, and the tests have an
    m, an N and a b."""
    h, w = tall(constant(S + 5), 6), tall(constant(S // 4 + 77), 9)
    root, inverse = tall(constant(2 * S + 3), 5), tall(constant(S // 4 + 11), 8)
    return {o.LOAD: jobs.load(tall(constant(S, 0x0FEDCBA9), 7)), o.ADD: jobs.add(0, 1), o.SUBTRACT: jobs.subtract(1, 0),
            o.MULTIPLY: jobs.multiply(0, 1, DEFAULT_KEPT), o.LOAD_ON: jobs.load_on(on(constant(S, 0x01020304), *OTHER)),
            o.QUOTIENT: jobs.quotient(0, 1, h, w), o.ROOT: jobs.root(1, root, inverse), o.TIGHT_ROOT: jobs.tight_root(0, root, inverse)}


def full_job(edition, last):
    """32 results, all kinds in turn and this kind last; behind a test always a command without one, and at the end a test before."""
    order = [o.QUOTIENT, o.LOAD, o.ROOT, o.ADD, o.TIGHT_ROOT, o.MULTIPLY, o.SUBTRACT, o.LOAD_ON]
    made = [commands()[order[i % len(order)]] for i in range(MAX_RESULTS - 4)]
    return edition + HEAD + b''.join(made) + commands()[o.ROOT] + commands()[last] + jobs.END


def counted_job(edition, count):
    """So many results, sums of the first, whose radius grows."""
    first = [jobs.load(tall(constant(S, 7), 1))] * (count > 0)
    return edition + b''.join(first + [jobs.add(0, i) for i in range(count - 1)]) + jobs.END


def limit_jobs():
    """Numbers at their limits, and with every byte of the field nonzero."""
    widest = jobs.load(constant(0, LIMIT)) + jobs.load(ONE)
    yield widest + jobs.quotient(0, 1, ZERO, ONE)                       # N, b and radius 2^28
    yield widest + jobs.quotient(0, 1, ZERO, constant(1))               # m = S - 1, N 2^28, b 256, radius 2^28
    for root in (jobs.root, jobs.tight_root):
        yield jobs.load(constant(S // 4)) + root(0, constant(S // 2), constant(1))      # m = S - 1, an exact root
        yield jobs.load(constant(LIMIT, 0x07654321)) + root(0, constant(1 << 24), constant(0x6789))    # 0x22 has no radius
        yield jobs.load(constant(4 * S, 0x12345)) + root(0, constant(2 * S + 3), constant(S // 4 - 0x2345))
    yield (jobs.load(constant(0, 0x0FEDCBA9)) + jobs.load(ONE)
           + jobs.quotient(0, 1, tall(ZERO, MAX_DEGREE), constant(S - 0x12345)))
    yield jobs.load(model([1] * (MAX_DEGREE + 1), LIMIT)) + jobs.load(tall(constant(S, LIMIT), MAX_DEGREE))


def refused_jobs(edition):
    """Each refusal at each operation, behind one result and behind a test of each kind; and before any result."""
    tests = b''.join(commands()[byte] for byte in (o.QUOTIENT, o.ROOT, o.TIGHT_ROOT))
    for head, count in ((jobs.load(FOUR), 1), (HEAD + tests, 5)):
        yield from (edition + head + ending for ending in endings(count).values())
    for first in (jobs.load(constant(LIMIT + 1)), jobs.load_on(on(ONE, S, S)), jobs.add(0, 0), bytes([0x7F]), jobs.root(0, TWO, QUARTER),
                  jobs.load(ONE)[:-1], jobs.multiply(0, 0, 40), edition):
        yield edition + first + jobs.END
    yield from (edition, edition + jobs.END + jobs.END)
    yield full_job(edition, o.QUOTIENT)[:-1] + commands()[o.ROOT] + jobs.END        # a 33rd result
    yield from (full_job(edition, o.ROOT)[:-1], full_job(edition, o.ROOT) + jobs.END)


# ---- Pairs of accepted jobs of equal count ---------------------------------------------------------------------------------------------

class Pair(NamedTuple):
    one: bytes
    other: bytes
    workshop: bool          # whether the rooms of the workshop are equal
    service: bool


def of_commands(*made, edition=jobs.EDITION_1):
    return edition + b''.join(made) + jobs.END


def loads(changed=None, at=0):
    """32 loads of different degrees and radii; at one place another."""
    made = [tall(constant(S, 0x01000100 + i), i) for i in range(MAX_RESULTS)]
    if changed:
        made[at] = changed(made[at])
    return of_commands(*map(jobs.load, made))


def pairs():
    """By name."""
    exact = jobs.load(FOUR) + jobs.load(FOUR)
    divided = jobs.load(constant(16 * S + 3)) + jobs.load(SIXTEEN)
    halved = jobs.load(constant(16 * S + 8)) + jobs.load(SIXTEEN)
    whole = jobs.load(SIXTEEN) + jobs.load(SIXTEEN)
    most = jobs.load(tall(ONE, 2)) + jobs.load(ONE)
    roots = [of_commands(jobs.load(FOUR), root(0, TWO, constant(S // 4 + 5))) for root in (jobs.root, jobs.tight_root)]
    rough = [of_commands(jobs.load(FOUR), root(0, constant(2 * S + 3), QUARTER)) for root in (jobs.root, jobs.tight_root)]
    quotient = jobs.quotient
    made = {
        'm alone': (exact + quotient(0, 1, ONE, QUARTER), exact + quotient(0, 1, ONE, constant(S // 4 + 1)), True, False),
        'N alone': (divided + quotient(0, 1, ONE, SIXTEENTH), divided + quotient(0, 1, constant(S + 1), SIXTEENTH), True, False),
        'm and b': (whole + quotient(0, 1, constant(S + 1), constant(S // 16 + 1)),
                    whole + quotient(0, 1, constant(S + 1), constant(S // 40)), True, False),
        'm, N and b': (divided + quotient(0, 1, ONE, constant(S // 16 + 1)), divided + quotient(0, 1, constant(S + 2), SIXTEENTH),
                       True, False),
        'a load for a quotient': (divided + quotient(0, 1, ONE, SIXTEENTH), divided + jobs.load(constant(7, 1)), True, False),
        'other candidates': (halved + quotient(0, 1, ONE, SIXTEENTH), halved + quotient(0, 1, constant(S + 1), SIXTEENTH), True, True),
        'a difference for a sum': (most + jobs.add(0, 1), most + jobs.subtract(0, 1), True, True),
        'other coefficients': (jobs.load(ONE), jobs.load(FOUR), True, True),
        'other intervals': (jobs.load(ONE), jobs.load_on(on(ONE, *OTHER)), True, True),
        'results exchanged': (jobs.load(tall(ONE, 1)) + jobs.load(ONE), jobs.load(ONE) + jobs.load(tall(ONE, 1)), False, False),
        'radii exchanged': (jobs.load(constant(S, 1)) + jobs.load(ONE), jobs.load(ONE) + jobs.load(constant(S, 1)), False, False),
    }
    found = {name: Pair(of_commands(one), of_commands(other), *equal) for name, (one, other, *equal) in made.items()}
    found['editions'] = Pair(loads(), jobs.EDITION_2 + loads()[2:], True, True)
    found['0x22 for 0x21, exact'] = Pair(*roots, True, True)
    found['0x22 for 0x21'] = Pair(*rough, False, False)
    for at in (0, 1, 16, MAX_RESULTS - 1):
        found[f'the degree of result {at}'] = Pair(loads(), loads(lambda m: m._replace(degree=m.degree + 1), at), False, False)
        for k in range(4):
            found[f'byte {k} of the radius of result {at}'] = Pair(
                loads(), loads(lambda m, k=k: m._replace(radius=m.radius ^ 1 << 8 * k + (k == 3)), at), False, False)
    for at in (2, MAX_RESULTS - 1):                 # m of a quotient whose radius is 0 whatever m is
        rest = b''.join([jobs.load(ONE)] * (at - 2))
        for name, more in (('0', 1), ('1', 1 << 8), ('2', 1 << 15)):
            found[f'byte {name} of m of result {at}'] = Pair(
                of_commands(exact + rest + quotient(0, 1, ONE, QUARTER)),
                of_commands(exact + rest + quotient(0, 1, ONE, constant(S // 4 + more))), True, False)
    return found


PAIRS = pairs()
# Of unequal count they leave the same: no result, and a load of degree 0 and radius 0.
UNEQUAL = of_commands(), of_commands(jobs.load(ZERO))


# ---- All of them -------------------------------------------------------------------------------------------------------------------------

def fixed_jobs():
    for edition in jobs.EDITIONS:
        yield from (full_job(edition, last) for last in commands())
        yield from (edition + HEAD + command + jobs.END for command in commands().values())
        yield from (counted_job(edition, count) for count in range(MAX_RESULTS + 1))
        yield from (edition + made + jobs.END for made in limit_jobs())
        yield from refused_jobs(edition)
    yield from UNEQUAL
    yield from (job for pair in PAIRS.values() for job in pair[:2])
