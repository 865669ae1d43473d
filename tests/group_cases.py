"""Cases for a list C that is formed in groups of 16 places, document 02's S-17: where C ends and where f does, each place of C as
the only one that counts, and the constant of m beside places 16, 32, 48 and 64.  Each is tested by itself, in a job and as both of
two proposals; each root by both tests."""

from collections import Counter

import jobs
import oracle as o
from cases import Case
from certificate_cases import quotient_case, root_case
from header import ACCEPTED, LARGE_RESIDUAL, MAX_DEGREE, S
from oracle import LIMIT, constant, model
from power_basis import PRODUCT_SIZE
from selection_cases import proposal

GROUP = 16
SUMS = (14, 15, 16, 17, 31, 32, 33, 47, 48, 49, 63, 64)     # of two degrees: the last place of C
F_ENDS = (15, 16, 31, 32)                                   # the last place of f, behind C's
ROOTS = ('root', 'tight_root')
ZERO, ONE, TWO, QUARTER = constant(0), constant(S), constant(2 * S), constant(S // 4)


def terms(*parts):
    """The sum of value T_place over (place, value); the degree is the highest place."""
    row = [0] * (1 + max(place for place, _ in parts))
    for place, value in parts:
        row[place] += value
    return model(row)


def all_to(place, value):
    """value (1 + 2 T_1 + .. + 2 T_place)."""
    return model([value] + [2 * value] * place)


def splits(total):
    """Two degrees with this sum: as far apart as can be, and as near."""
    far = min(total, MAX_DEGREE)
    return sorted({(far, total - far), (total - far, far), (total // 2, total - total // 2)})


# ---- The two lists of each test -----------------------------------------------------------------------------------------

def less(a, b, taken):
    row = o.product_list(a.coefficients, b.coefficients)
    return [c - t for c, t in zip(row, (*taken, *[0] * PRODUCT_SIZE))]


def lists(case):
    """What m and N weigh: C less its constant, and C less 2S f."""
    f, *divisor, h, w = case.inputs
    g = divisor[0] if divisor else h
    return less(w, g, [2 * S * S if divisor else S * S]), less(g, h, [2 * S * c for c in f.coefficients])


def on_border(case):
    """f with the radius that makes N 2^28, and one more: 3, 8 or 17, and 6, which each place of the list decides."""
    f, *rest = case.inputs
    edge = LIMIT - o.up(o.weight(lists(case)[1]), 2 * S)
    for radius in (edge, edge + 1):
        yield case._replace(inputs=(f._replace(radius=radius), *rest))


# ---- Cases ----------------------------------------------------------------------------------------------------------------

def ends():
    """C ends at a group's last place, at the first of the next, and around."""
    for total in SUMS:
        for i, j in splits(total):
            g, h = terms((0, S), (i, S // 4)), terms((0, S), (j, S // 4))
            case = quotient_case(ONE, g, h, h)
            yield from (case, *on_border(case))
            edge = (2 * S * (S - 1) - o.weight(lists(case)[0])) // (2 * o.weight(h.coefficients))
            for radius in (edge, edge + 1):                 # m is S - 1 at most, and S at least
                yield quotient_case(ONE, g._replace(radius=radius), h, h)
            h = terms((0, 2 * S), (j, S // 8))
            case = root_case(terms((0, 4 * S), (j, S // 2)), h, terms((0, S // 4), (i, S // 64)))
            yield from (case, *on_border(case))


def longer():
    """f is longer than C: its last coefficient counts in every group."""
    for total in (0, 1, *range(14, 18), 30, 31):
        for last in {total + 1, *F_ENDS} - {*range(total + 1)}:
            for value in (1, -S // 16):
                for i, j in splits(total):
                    case = quotient_case(terms((0, S), (last, value)), terms((0, S), (i, S // 4)), terms((0, S), (j, S // 4)), ONE)
                    yield from (case, *on_border(case))
                j = total // 2
                case = root_case(terms((0, 4 * S), (j, S // 2), (last, value)), terms((0, 2 * S), (j, S // 8)), QUARTER)
                yield from (case, *on_border(case))


def alone_in_m(k):
    """C less the constant is zero but at place k, which makes m little, S - 1, or S: 5 by that place alone."""
    if k <= MAX_DEGREE:
        for value in (1, S - 1, S):
            g = terms((0, S), (k, value))
            yield quotient_case(g, g, ONE, ONE)
        for value in (1, S // 2 - 1, S // 2):
            yield root_case(ONE, ONE, terms((0, S // 2), (k, value)))
    j = k // 2
    if k % 2:                                               # (1 + 2 T_1 + .. + 2 T_j) (T_j - T_(j+1)) = 1 - T_k
        yield quotient_case(ZERO, all_to(j, S), ZERO, terms((j, S), (j + 1, -S)))
        yield root_case(ONE, terms((j, S // 2), (j + 1, -S // 2)), all_to(j, S))
    elif k:                                                 # 2 (1 + T_j) (1 - T_j) = 1 - T_k
        yield quotient_case(ZERO, terms((0, S), (j, S)), ZERO, terms((0, 2 * S), (j, -2 * S)))
        yield root_case(ONE, terms((0, S), (j, -S)), terms((0, S), (j, S)))


def alone_in_n(k):
    """C less 2S f is zero but at place k.  C(h, h) ends at an even place, so a root has no such odd k above 32."""
    if k <= MAX_DEGREE:
        for value in (1, -S // 16):
            yield quotient_case(terms((0, S), (k, value)), ONE, ONE, ONE)
            yield quotient_case(ONE, ONE, terms((0, S), (k, value)), ONE)
            yield root_case(terms((0, 4 * S), (k, value)), TWO, QUARTER)
    i, j = k - k // 2, k // 2
    for value in (4, 4 * S) if k else ():
        g, h = terms((0, S), (i, S // 2)), terms((j, value))
        yield quotient_case(terms((j, value), (i - j, value // 4)), g, h, ONE)
    for value in (2048, S // 8) if k and k % 2 == 0 else ():
        yield root_case(terms((0, 4 * S), (j, 4 * value), (0, value * value // (2 * S))), terms((0, 2 * S), (j, value)), QUARTER)


def beside_others():
    """C(h, h) at the odd places above 32, beside its last one."""
    for k in range(MAX_DEGREE + 1, PRODUCT_SIZE - 1, 2):
        h = terms((0, 2 * S), (k // 2, 2048), (k - k // 2, 2048))
        yield root_case(constant(4 * S), h, QUARTER)


def constants():
    """C has all of a constant, or a little, at the first place of other groups."""
    each = terms((0, S), (GROUP, 2 * S), (2 * GROUP, 2 * S))                # times T_32: 1 + T_16 + T_32 + T_48 + T_64
    yield quotient_case(ZERO, each, ZERO, terms((2 * GROUP, S)))
    yield root_case(ONE, each, terms((2 * GROUP, S // 2)))
    for j in range(GROUP // 2, MAX_DEGREE + 1, GROUP // 2):                 # 2 T_j T_j = 1 + T_(2 j)
        yield quotient_case(ZERO, terms((j, 2 * S)), ZERO, terms((j, S)))
        yield root_case(ONE, terms((j, S)), terms((j, S)))
    g, x = terms((0, S), (GROUP, S // 8), (2 * GROUP, S // 8)), S // 16
    yield quotient_case(g, g, ONE, g)
    yield root_case(terms((0, S), (GROUP, 2 * x), (2 * GROUP, 2 * x)), terms((0, S), (GROUP, x), (2 * GROUP, x)),
                    terms((0, S // 2), (GROUP, -x // 2), (2 * GROUP, -x // 2)))


def by_both(cases):
    """Behind each root test the tighter one of the same candidates."""
    for case in cases:
        yield case
        if case.entry == 'root':
            yield case._replace(entry='tight_root')


def tests():
    yield from by_both((*ends(), *longer(), *beside_others(), *constants()))
    for k in range(PRODUCT_SIZE):
        yield from by_both((*alone_in_m(k), *alone_in_n(k)))


def in_job(case):
    f, *divisor, h, w = case.inputs
    command = jobs.quotient(0, 1, h, w) if divisor else getattr(jobs, case.entry)(0, h, w)
    return Case('check', (jobs.EDITION_1 + b''.join(map(jobs.load, (f, *divisor))) + command + jobs.END,))


def group_cases(entry):
    if entry in ('quotient', *ROOTS):
        yield from (case for case in tests() if case.entry == entry)
    elif entry == 'check':
        yield from map(in_job, tests())
    elif entry == 'quotient_of_two':
        for f, g, h, w in (case.inputs for case in tests() if case.entry == 'quotient'):
            yield Case(entry, (f, g, proposal(h, w), proposal(h, w)))


# ---- Are they what they are said to be? -----------------------------------------------------------------------------------

def last_place(row):
    return max((k for k, c in enumerate(row) if c), default=0)


def answer(case, left_out=None):
    """The oracle's answer, or that of a test which leaves out a place of C."""
    weight = o.weight
    if left_out is not None:
        o.weight = lambda row: weight(row) - (abs(row[left_out]) if len(row) == PRODUCT_SIZE else 0)
    try:
        return getattr(o, case.entry)(*case.inputs)
    finally:
        o.weight = weight


def check_cases():
    """Each place of C is alone in m and in N of some test that it decides; C and f end in every group."""
    found = Counter()
    for k in range(PRODUCT_SIZE):
        for which, cases in enumerate((alone_in_m(k), alone_in_n(k))):
            for case in by_both(cases):
                places = [place for place, c in enumerate(lists(case)[which]) if c]
                assert places == [k] and answer(case) != answer(case, k), (k, case)
                found[case.entry, 'mN'[which], k] += 1
    for case in by_both(ends()):
        f, *divisor, h, w = case.inputs
        g = divisor[0] if divisor else h
        for letter, a, b in (('m', w, g), ('N', g, h)):
            found[case.entry, f'C of {letter} ends at', last_place(o.product_list(a.coefficients, b.coefficients))] += 1
    for case in by_both(longer()):
        f, *divisor, h, w = case.inputs
        end = last_place(o.product_list((divisor or [h])[0].coefficients, h.coefficients))
        assert last_place(f.coefficients) > end
        if answer(case)[0] in (ACCEPTED, LARGE_RESIDUAL):   # not at N = 2^28, which is refused after N
            assert answer(case) != answer(case, last_place(f.coefficients)), case
        found[case.entry, 'f ends at', last_place(f.coefficients)] += 1
    even = [total for total in SUMS if total % 2 == 0]
    missing = [key for key in (
        *(('quotient', letter, k) for letter in 'mN' for k in range(PRODUCT_SIZE)),
        *((root, 'm', k) for root in ROOTS for k in range(PRODUCT_SIZE)),
        *((root, 'N', k) for root in ROOTS for k in range(PRODUCT_SIZE) if k <= MAX_DEGREE or k % 2 == 0),
        *(('quotient', f'C of {letter} ends at', total) for letter in 'mN' for total in SUMS),
        *((root, 'C of m ends at', total) for root in ROOTS for total in SUMS),
        *((root, 'C of N ends at', total) for root in ROOTS for total in even),
        *((entry, 'f ends at', last) for entry in ('quotient', *ROOTS) for last in F_ENDS)) if not found[key]]
    assert not missing, missing
    entries = Counter(case.entry for case in tests())
    numbers = Counter((case.entry, answer(case)[0]) for case in tests())
    return ', '.join(f'{calls} of {entry} (' + ' '.join(f'{n}:{c}' for (e, n), c in sorted(numbers.items()) if e == entry) + ')'
                     for entry, calls in entries.items())


if __name__ == '__main__':
    print(f'C in groups, fixed tests: {check_cases()}; each place alone in m and in N, C ends at {SUMS}, f at {F_ENDS}')
