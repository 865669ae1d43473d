"""A margin as it is handed to solve: Chebyshev series or points, turned into exact pieces.

A run is a smooth chain of pieces over whole parameters; a stretch never goes beyond a run."""

import json
from collections import namedtuple
from fractions import Fraction
from math import hypot, lcm

from .arithmetic import ends_fault
from .exact import Series
from .program import NotChecked, quoted, read_file, shown
from .tables import LIMIT, S, Interval, decimal

SPAN = 1 << 20                  # parameters of a run that is one series
SLOPE = 1 << 40                 # slopes of a curve through points are multiples of 1/SLOPE

# x and y over the parameters low to high, both series in u from -1 to 1, in units. own: the parameters are the units
# of the piece's own interval.
Piece = namedtuple('Piece', 'low high x y own', defaults=(False,))
Curve = namedtuple('Curve', 'name bur side runs')


class BadCurve(Exception):
    """A curve that cannot be used; names the file and what to do."""


def exact(number, where):
    """A number of the file, which is kept as its text until here, as a fraction."""
    try:
        return decimal(number)
    except (TypeError, ValueError):
        raise BadCurve(f'{where}: {quoted(number)} is no number') from None


def series(numbers, factor, where):
    if not isinstance(numbers, list) or not numbers:
        raise BadCurve(f'{where}: a list of Chebyshev coefficients is needed, that of T_0 first')
    if len(numbers) > 513:
        raise BadCurve(f'{where}: {len(numbers)} coefficients; the degree is at most 512')
    row = [exact(number, f'{where}, coefficient {k}') * factor for k, number in enumerate(numbers)]
    if sum(map(abs, row)) > LIMIT:
        raise BadCurve(f'{where}: the coefficients add up to more than 256 mm; are they in mm?')
    scale = lcm(*(c.denominator for c in row))
    return Series([int(c * scale) for c in row], scale)


def ends_of(given, where):
    """The interval that a piece states, in units."""
    if not isinstance(given, list) or len(given) != 2:
        raise BadCurve(f'{where}: two whole numbers are needed, [lower, upper]')
    ends = [exact(end, where) for end in given]
    for end in ends:
        if end.denominator != 1:
            raise BadCurve(f'{where}: {float(end):.10g} is no whole number of units; a second or a millimetre has '
                           f'2^20 = {S:,}')
    interval = Interval(*map(int, ends))
    if ends_fault(interval):
        raise BadCurve(f'{where}: {ends_fault(interval)}')
    return interval


def from_series(given, factor, where):
    if not isinstance(given, list) or not given:
        raise BadCurve(f'{where}: a list of pieces with "x" and "y" is needed')
    runs = []
    for i, piece in enumerate(given):
        at = f'{where}, piece {i}'
        if not isinstance(piece, dict) or not {'x', 'y'} <= set(piece):
            raise BadCurve(f'{at}: "x" and "y" are needed')
        named = [key for key in piece if key.lower().startswith('interval')]
        if named not in ([], [INTERVAL]):
            raise BadCurve(f'{at}: unknown key {quoted(named[0])}; its interval is "{INTERVAL}"')
        low, high = ends_of(piece[INTERVAL], f'{at}, {INTERVAL}') if named else (0, SPAN)
        runs.append([Piece(low, high, series(piece['x'], factor, f'{at}, x'),
                           series(piece['y'], factor, f'{at}, y'), bool(named))])
    return runs


# ---- Points ----

def slopes(parameters, values, closed):
    """The slopes of the cubic spline (second derivatives continuous) at its points, in floats.
    Closed: the first point is also the last. Open: no curvature at both ends."""
    n = len(values) - 1
    steps = [parameters[i + 1] - parameters[i] for i in range(n)]
    rises = [(values[i + 1] - values[i]) / steps[i] for i in range(n)]
    if not closed:
        low = [0.0] + [1 / h for h in steps]
        high = [1 / h for h in steps] + [0.0]
        right = [3 * ((rises[i - 1] / steps[i - 1] if i else 0) + (rises[i] / steps[i] if i < n else 0))
                 for i in range(n + 1)]
        return thomas(low, [2 * (u + v) for u, v in zip(low, high)], high, right)
    # Closed: unknowns 0 to n-1 in a ring; the two corners are taken out and put back by a second solution.
    low = [1 / steps[i - 1] for i in range(n)]
    high = [1 / steps[i] for i in range(n)]
    right = [3 * (rises[i - 1] / steps[i - 1] + rises[i] / steps[i]) for i in range(n)]
    middle = [2 * (u + v) for u, v in zip(low, high)]
    corner, gamma = low[0], -middle[0]
    middle[0] -= gamma
    middle[-1] -= corner * corner / gamma
    found = thomas(low, middle, high, right)
    other = thomas(low, middle, high, [gamma] + [0.0] * (n - 2) + [corner])
    share = ((found[0] + corner * found[-1] / gamma)
             / (1 + other[0] + corner * other[-1] / gamma))
    ring = [u - share * v for u, v in zip(found, other)]
    return ring + ring[:1]


def thomas(low, middle, high, right):
    """A system with three diagonals."""
    middle, right = middle[:], right[:]
    for i in range(1, len(middle)):
        factor = low[i] / middle[i - 1]
        middle[i] -= factor * high[i - 1]
        right[i] -= factor * right[i - 1]
    found = [0.0] * len(middle)
    found[-1] = right[-1] / middle[-1]
    for i in range(len(middle) - 2, -1, -1):
        found[i] = (right[i] - high[i] * found[i + 1]) / middle[i]
    return found


def cubic(start, end, first, last):
    """The cubic on -1..1 with these ends and slopes, exactly."""
    a2 = (last - first) / 4
    a3 = ((last + first) / 2 - (end - start) / 2) / 2
    a0, a1 = (start + end) / 2 - a2, (end - start) / 2 - a3
    row = [a0 + a2 / 2, a1 + 3 * a3 / 4, a2 / 2, a3 / 4]
    scale = lcm(*(c.denominator for c in row))
    return Series([int(c * scale) for c in row], scale)


def from_points(points, closed, where):
    """One run of cubics through the points, over whole numbers of units of chord length."""
    if len(points) > 1 and points[0] == points[-1]:
        points, closed = points[:-1], True
    if closed:
        points = points + points[:1]
    if len(points) < 4:
        raise BadCurve(f'{where}: at least 3 different points are needed, 4 for an open curve')
    if any(abs(c) > 200 for point in points for c in point):
        raise BadCurve(f'{where}: a coordinate is beyond 200 mm; are the points in mm?')
    chords = [round(hypot(*(float(v - u) for u, v in zip(a, b))) * S) for a, b in zip(points, points[1:])]
    for i, chord in enumerate(chords):
        if chord < 1000:
            raise BadCurve(f'{where}: points {i} and {i + 1} are less than 1 µm apart; leave one out')
    parameters = [0]
    for chord in chords:
        parameters.append(parameters[-1] + chord)
    curves = []
    for axis in (0, 1):
        values = [point[axis] * S for point in points]
        found = slopes(list(map(float, parameters)), list(map(float, values)), closed)
        found = [Fraction(round(m * SLOPE), SLOPE) for m in found]
        curves.append([cubic(values[i], values[i + 1], found[i] * chord / 2, found[i + 1] * chord / 2)
                       for i, chord in enumerate(chords)])
    return [[Piece(parameters[i], parameters[i + 1], x, y) for i, (x, y) in enumerate(zip(*curves))]]


# ---- Files ----

def text_points(text, name):
    points = []
    for i, line in enumerate(text.splitlines(), 1):
        words = line.split('#')[0].replace(',', ' ').split()
        if words:
            if len(words) != 2:
                raise BadCurve(f'{name}, line {i}: x and y in mm are needed, not {quoted(line.strip())}')
            points.append(tuple(exact(word, f'{name}, line {i}') for word in words))
    return points


INTERVAL = 'interval_units'     # of a piece
KEYS = {'name', 'story', 'bur_mm', 'side', 'closed', 'points_mm', 'series_mm', 'series_units'}


def read_curve(name):
    try:
        text = read_file(name).decode('utf-8')
        name = shown(name)
    except UnicodeDecodeError as error:
        raise BadCurve(f'{shown(name)}: byte {error.start} is no UTF-8 text; a curve is JSON or lines of '
                       'x y') from error
    except NotChecked as error:
        raise BadCurve(str(error)) from error
    if not text.lstrip().startswith('{'):
        return Curve(name, None, None, from_points(text_points(text, name), False, name))
    try:
        given = json.loads(text, parse_float=str, parse_int=str, parse_constant=str)
    except (json.JSONDecodeError, RecursionError) as error:
        raise BadCurve(f'{name}: no JSON: {error}') from error
    unknown = sorted(set(given) - KEYS)
    if INTERVAL in unknown:
        raise BadCurve(f'{name}: "{INTERVAL}" belongs into a piece of "series_mm" or "series_units", beside its "x" and '
                       '"y"; a curve through points has none')
    if unknown:
        raise BadCurve(f'{name}: unknown key {quoted(unknown[0])}; there are {", ".join(sorted(KEYS))}')
    kinds = [key for key in ('points_mm', 'series_mm', 'series_units') if key in given]
    if len(kinds) != 1:
        raise BadCurve(f'{name}: exactly one of "points_mm", "series_mm", "series_units" is needed')
    where = f'{name}, {kinds[0]}'
    if kinds[0] == 'points_mm':
        if not isinstance(given['points_mm'], list):
            raise BadCurve(f'{where}: a list of [x, y] is needed')
        points = []
        for i, point in enumerate(given['points_mm']):
            if not isinstance(point, list) or len(point) != 2:
                raise BadCurve(f'{where}: point {i} is no [x, y]')
            points.append(tuple(exact(c, f'{where}, point {i}') for c in point))
        if given.get('closed', False) not in (True, False):
            raise BadCurve(f'{name}: "closed" is true or false, not {quoted(given["closed"])}')
        runs = from_points(points, given.get('closed', False), where)
    else:
        runs = from_series(given[kinds[0]], S if kinds[0] == 'series_mm' else 1, where)
    bur = exact(given['bur_mm'], f'{name}, bur_mm') if 'bur_mm' in given else None
    side = given.get('side', 'left')
    if side not in ('left', 'right'):
        raise BadCurve(f'{name}: "side" is "left" or "right", not {quoted(side)}')
    return Curve(given.get('name', name), bur, side, runs)
