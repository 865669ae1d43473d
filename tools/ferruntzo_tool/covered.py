"""What a verdict covers: the loaded curves with their radii, and nothing beyond them."""

from fractions import Fraction
from math import isqrt, log2

from . import exact, offset
from .arithmetic import weight
from .exact import Series
from .reading import loaded, split
from .tables import MAX_RESULTS, S, in_micrometres, is_load

PIECE_DEGREE = 3                # of a piece of a spline, which is exact and may fall slowly
ROUNDING = 17                   # half a unit for each of 33 coefficients
NOISE = 16                      # units; larger coefficients are no noise
PIECE_NOISE = 2                 # the same behind a piece of a spline: short stretches fall as fast
GAP = 32                        # noise is that many times below what the coefficients before it let expect
TAIL = 3                        # places; noise reaches at least that far, else a series that falls fast ends there


def loads(job):
    """Result number and model of each load of a job that reads."""
    number, found = 0, []
    for step in split(job)[0]:
        if is_load(step):
            found.append((number, loaded(step.values)))
        number += step.command.makes
    return found


def expected(sizes, k):
    """About how large the coefficients behind place k would be if the series went on as its last two pairs do. Pairs, since every
    other coefficient may be zero."""
    pair = 1 if k < PIECE_DEGREE else 2
    last, former = max(sizes[k - pair + 1:k + 1]), max(sizes[max(k - 3, 0):k - pair + 1])
    return last if last >= former else last * last // former


def beyond(m, piece=False):
    """About how much of a load may have been cut off: what its coefficients let expect behind a place, where what stands behind it
    is zero or noise. `piece`: a load that may be a piece of a spline."""
    sizes = list(map(abs, m.coefficients))
    # The degree byte may be larger than the degree: zeros up to it are allowed.
    degree, found, behind = max((k for k, a in enumerate(sizes) if a), default=0), 0, 0
    for k in range(degree, 0, -1):
        low = k <= PIECE_DEGREE
        noise = behind == 0 or (behind <= (PIECE_NOISE if low else NOISE) and degree >= k + TAIL)
        if noise and not (low and piece):
            # Before noise the last coefficient itself has to be large: a series that was cut falls at once.
            size_there = min(expected(sizes, k), sizes[k]) if behind else expected(sizes, k)
            found = max(found, size_there - GAP * behind)
        behind = max(behind, sizes[k])
    return found


def is_derivative(normal, slope, factor, allowed):
    """Whether a normal's curve is a factor times the derivative of a margin's curve, but for so many units."""
    scaled = Series([c * factor.numerator for c in slope.row], slope.scale * factor.denominator)
    return size(exact.plus(normal, scaled, -1)) * S <= allowed


def size(series):
    return Fraction(weight(series.row), series.scale)


def loaded_normal(path):
    """The normal of a path as it was loaded, without the bur's radius: x and y, or nothing where that is no fraction."""
    top, bottom = map(isqrt, path.square)
    if (top * top, bottom * bottom) != tuple(path.square):
        return None
    return [Series([c * bottom for c in part.series.row], part.series.scale * top) for part in path.normal]


def pieces(job):
    """The loads of paths that may be pieces of splines: the loaded normal is a power of two times the derivative of the loaded
    margin, turned by a right angle."""
    found, radii = set(), {i: m.radius for i, m in loads(job)}
    for path in offset.paths(job):
        normal, slopes = loaded_normal(path), [exact.derivative(part.series) for part in path.margin]
        if not normal or not any(map(size, slopes)):
            continue
        factor = Fraction(2) ** round(log2(sum(map(size, normal)) / sum(map(size, slopes))))
        # The normal is on the left of the direction of travel, or on the right: in the middle of the stretch this tells.
        dx, dy, nx, ny = (Fraction(*exact.value(series, 0, 1)) for series in slopes + normal)
        side = 1 if dx * ny >= dy * nx else -1
        for sign, margin, slope, part, curve in zip((side, -side), path.margin, slopes, path.normal[::-1], normal[::-1]):
            e_margin, e_normal = (max((radii[i] for i in one.loads), default=0) for one in (margin, part))
            # Half a unit of a coefficient k is up to k²/2 units of the derivative's weight; the first two that were cut count too.
            degree = len(margin.series.row) - 1
            allowed = e_normal + ROUNDING + factor * (degree + 2) ** 2 * (e_margin + 1)
            # A normal of the degree of a piece belongs to a margin of one more.
            if degree <= PIECE_DEGREE + 1 and is_derivative(curve, slope, sign * factor, allowed):
                found |= margin.loads | part.loads
    return found


def suspects(job, accepted=True):
    """Number, model and what may be missing of each load that looks like a series that was cut off early: what seems to lie beyond
    is much larger than its radius and the rounding together (a guess from its coefficients)."""
    # Of a refused job it is not known what its loads were for.
    exempt = pieces(job) if accepted else range(MAX_RESULTS)
    found = ((i, m, beyond(m, i in exempt)) for i, m in loads(job))
    return [(i, m, missing) for i, m, missing in found if missing > 8 * m.radius + ROUNDING]


def cautions(job, accepted=True):
    """A line for each load that looks cut without a radius for it."""
    return [f'result {i} is loaded with radius {m.radius:,} ({in_micrometres(m.radius)}), but its '
            f'coefficients fall so slowly that {missing:,} units ({in_micrometres(missing)}) and more '
            'may lie beyond the last one; if the curve was cut there, that is NOT covered'
            for i, m, missing in suspects(job, accepted)]


def plural(numbers):
    return f'result{"s" if len(numbers) != 1 else ""} {numbers_text(numbers)}'


def numbers_text(numbers):
    """A rising list of numbers in words, rows of three and more shortened: 1, 3 to 7."""
    runs = []
    for number in numbers:
        if runs and runs[-1][-1] == number - 1:
            runs[-1].append(number)
        else:
            runs.append([number])
    return ', '.join(f'{run[0]} to {run[-1]}' if len(run) > 2 else ', '.join(map(str, run))
                     for run in runs) or 'none'
