"""Which results of a job are the path of a bur beside a margin: margin + r·normal/|normal|, told from its commands.

Each result is followed as polynomials of the loaded curves over powers of one root, in exact arithmetic; the order of the
commands, kept degrees and the kind of root play no part. Whatever else a result may be, it is not followed further."""

from collections import namedtuple
from functools import lru_cache

from .exact import Series, plus, reduced, times
from .reading import loaded, split
from .tables import S, is_load, is_root

MOST = 64                       # of the degree of a polynomial that is followed
PLAIN = None                    # the power of a polynomial without a root; else (number of what is under it, exponent)

# A polynomial and the loads that it is formed from, constants left out.
Part = namedtuple('Part', 'series loads')

# margin and normal: x and y, each a Part. The path is margin + normal/√under; square is that of the bur's radius, in mm².
Path = namedtuple('Path', 'results margin normal under square interval')


class Unfollowed(Exception):
    """A result that is no sum of polynomials of loads over powers of one root."""


def constant(part):
    return len(part.series.row) == 1


def part_product(one, two):
    if len(one.series.row) + len(two.series.row) - 2 > MOST:
        raise Unfollowed
    return Part(times(one.series, two.series), one.loads | two.loads)


def part_sum(one, two, sign):
    return Part(plus(one.series, two.series, sign), one.loads | two.loads)


class Followed:
    """The results of a job, each a dictionary of parts by power, or None."""

    def __init__(self, job):
        self.under, self.results, self.intervals = [], [], []
        for step in split(job)[0]:
            if not step.command.makes:
                continue
            try:
                self.results.append(self._made(step))
            except Unfollowed:
                self.results.append(None)
            named = [step.values[name] for kind, name in step.command.operands if kind == 'result']
            self.intervals.append(self.intervals[named[0]] if named else loaded(step.values).interval)

    def _operand(self, step, name):
        found = self.results[step.values[name]]
        if found is None:
            raise Unfollowed
        return found

    def _made(self, step):
        if is_load(step):
            series = reduced(loaded(step.values).coefficients, S)
            return {PLAIN: Part(series, frozenset() if len(series.row) == 1 else frozenset([len(self.results)]))}
        if is_root(step):
            return self._root(self._operand(step, 'f'))
        if 'g' in step.values:
            return self._product(self._operand(step, 'f'), self._inverse(self._operand(step, 'g')))
        one, two = self._operand(step, 'a'), self._operand(step, 'b')
        if step.command.name == 'multiply':
            return self._product(one, two)
        return self._sum(one, two, 1 if step.command.name == 'add' else -1)

    def _sum(self, one, two, sign):
        zero = Part(Series([0], 1), frozenset())
        found = {power: part_sum(one.get(power, zero), two.get(power, zero), sign) for power in {**one, **two}}
        return self._one_root(found)

    def _product(self, one, two):
        found = {}
        for first, u in one.items():
            for second, v in two.items():
                power, part = self._power(first, second, part_product(u, v))
                found[power] = part_sum(found[power], part, 1) if power in found else part
        return self._one_root(found)

    def _power(self, first, second, part):
        """The power of a product; the square of a root is what is under it."""
        if first is PLAIN or second is PLAIN:
            return (first or second), part
        if first[0] != second[0]:
            raise Unfollowed
        exponent = first[1] + second[1]
        if exponent == 2:
            return PLAIN, part_product(part, self.under[first[0]])
        return ((first[0], exponent) if exponent else PLAIN), part

    @staticmethod
    def _one_root(found):
        if len({power[0] for power in found if power is not PLAIN}) > 1:
            raise Unfollowed
        return found

    @staticmethod
    def _inverse(divisor):
        """One over a constant, or over a constant times a power of a root."""
        (power, part), *others = divisor.items()
        if others or not constant(part) or part.series.row == [0]:
            raise Unfollowed
        top, = part.series.row
        sign = 1 if top > 0 else -1
        return {power and (power[0], -power[1]): Part(Series([sign * part.series.scale], sign * top), part.loads)}

    def _root(self, radicand):
        if set(radicand) != {PLAIN}:
            raise Unfollowed
        part = radicand[PLAIN]
        same = [i for i, known in enumerate(self.under) if known.series == part.series]
        if not same:
            self.under.append(part)
        return {(same[0] if same else len(self.under) - 1, 1): Part(Series([1], 1), frozenset())}


def ratio(one, two):
    """The constant that the first series is of the second, as numerator and denominator, or None."""
    if len(one.row) != len(two.row) or two.row == [0]:
        return None
    a, b = one.row[-1], two.row[-1]
    if any(u * b != v * a for u, v in zip(one.row, two.row)):
        return None
    found = reduced([a * two.scale], b * one.scale) if b > 0 else reduced([-a * two.scale], -b * one.scale)
    return found.row[0], found.scale


@lru_cache(maxsize=8)
def paths(job):
    """The paths of a job that reads well: pairs of results of the form margin + normal/√under, in which what is under the root
    is a positive constant times the square of the normal's length."""
    followed, found, used = Followed(job), [], set()
    shaped = {}
    for i, result in enumerate(followed.results):
        if result and len(result) == 2 and PLAIN in result:
            power, = (power for power in result if power is not PLAIN)
            if power[1] == -1 and len(result[power].series.row) - 1 <= MOST // 2:
                shaped[i] = power[0], result[PLAIN], result[power], times(result[power].series, result[power].series)
    for i, (under, margin, normal, square) in shaped.items():
        for j, other in shaped.items():
            if j <= i or used & {i, j} or other[0] != under or followed.intervals[i] != followed.intervals[j]:
                continue
            constant_ratio = ratio(plus(square, other[3]), followed.under[under].series)
            if constant_ratio and constant_ratio[0] > 0:
                found.append(Path((i, j), (margin, other[1]), (normal, other[2]), followed.under[under].series,
                                  constant_ratio, followed.intervals[i]))
                used |= {i, j}
    return tuple(found)
