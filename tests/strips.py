"""Sums over strips (requests S-8 and S-24): the example that attains the bound on several
intervals, a closed L and the bound itself; and wrong rules, each of which one of the three
must find.  No library is run: compare.py compares the integrals with the library's, those of
S T_1 among them.
"""

from fractions import Fraction
from random import Random

import oracle as o
import soundness
from cases import on
from header import LARGE_RESULT, MAX_END, S
from oracle import constant, model, term

COUNTS = (1, 2, 3, 7, 64, 1000)
# The integral of S T_1 has whole coefficients on the first.
WHOLE = o.STANDARD, (0, 4 * S), (-3 * S, 5 * S), (7 * S + 2, 8 * S - 6), (-MAX_END, MAX_END)
INTERVALS = *WHOLE, (0, 1), (-S // 3, 5)


def attained():
    """S T_1 with radius 0 at x = u/S: the sum is the whole term below the polynomial."""
    for lower, upper in WHOLE:
        a = on(term(1, S), lower, upper)
        number, result = o.integrate(a)
        assert number == 0 and result.radius == 2
        for k in COUNTS:
            end = Fraction(upper, S)
            far = (soundness.strip_sum(lambda x: o.position(a, x), a, end, k) - soundness.value(result, end)) * S
            assert far == -Fraction(upper - lower, k) == -soundness.strip_term(a, k), f'not attained with {k} strips'


def covered(lost=lambda a: 0):
    """The bound at fixed integrands on each interval; `lost` is what a wrong radius lacks."""
    rng = Random(1)
    for lower, upper in INTERVALS:
        for a in (constant(S, 1000), term(2, 7 * S), model([3, -5, 7]), term(31, -S, 12345)):
            a = on(a, lower, upper)
            number, result = o.integrate(a)
            assert number in (0, LARGE_RESULT)
            result = result._replace(radius=result.radius - lost(a))
            for k in (1, 2, 3, 5) if number == 0 else ():
                for choice in soundness.choices(rng, a):
                    for share in (Fraction(0), Fraction(2, 3), Fraction(1)):
                        soundness.check_strips(choice, a, result, (lower + share * (upper - lower)) / S, k)


def three_coefficients():
    """3 * 0^2 + 5 * 1^2 + 7 * 2^2"""
    assert soundness.lipschitz(model([3, -5, 7])) == 33


def strips(count, first, right=0):
    """A wrong rule: `count` more strips of the same width, counted from `first` on; their `right` ends."""
    def rule(choice, a, x, k):
        begin = soundness.start(a)
        width = (x - begin) / k
        return sum((choice(begin + (i + right) * width) * width for i in range(first, k + count)), Fraction(0))
    return rule


def finer(choice, a, x, k, right=soundness.strip_sum):
    return right(choice, a, x, k + 1)


def former_term(a, k):
    """The term on the standard interval."""
    return Fraction(2 * soundness.lipschitz(a), k)


# Name, what is replaced in soundness.py, by what.
WRONG = [
    ('right ends', 'strip_sum', strips(0, 0, 1)),
    ('k + 1 strips', 'strip_sum', strips(1, 0)),
    ('k - 1 strips', 'strip_sum', strips(-1, 0)),
    ('first strip left out', 'strip_sum', strips(0, 1)),
    ('cut into k + 1', 'strip_sum', finer),
    ('L without k^2', 'lipschitz', lambda a: o.weight(a.coefficients)),
    ('L with k', 'lipschitz', lambda a: sum(abs(c) * k for k, c in enumerate(a.coefficients))),
    ('strips from x = -1', 'start', lambda a: Fraction(-1)),
    ('strips from 0', 'start', lambda a: Fraction(0)),
    ('strips from u/S', 'start', lambda a: Fraction(a.upper, S)),
    ('strips from l', 'start', lambda a: Fraction(a.lower)),
    ('2L/k on every interval', 'strip_term', former_term),
    ('half the term', 'strip_term', lambda a, k, right=soundness.strip_term: right(a, k) / 2),
    ('twice the term', 'strip_term', lambda a, k, right=soundness.strip_term: right(a, k) * 2),
]


def found(lost=lambda a: 0):
    """Whether a check fails."""
    try:
        attained()
        three_coefficients()
        covered(lost)
    except AssertionError:
        return True
    return False


def main():
    assert not found()
    for name, what, rule in WRONG:
        right = getattr(soundness, what)
        setattr(soundness, what, rule)
        assert found(), f'not found: {name}'
        setattr(soundness, what, right)
    for name, lost in (('radius with half of e', lambda a: a.radius * (a.upper - a.lower) // (2 * S)),
                       ('radius 2e on every interval', lambda a: a.radius * (a.upper - a.lower - 2 * S) // S)):
        assert found(lost), f'not found: {name}'
    print(f'strips: the bound is attained on {len(WHOLE)} intervals with {COUNTS} strips; {len(WRONG) + 2} wrong rules found')


if __name__ == '__main__':
    main()
