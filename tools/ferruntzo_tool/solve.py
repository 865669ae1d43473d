"""solve: the reference solver. A margin and the bur's radius in; jobs out.

Each stretch's job is: margin plus bur radius times the normal, divided by the normal's own length.
A load's radius is the exact distance between what is loaded and the margin itself: rounding and
what was cut, nothing estimated."""

import re
import sys
from collections import namedtuple
from math import isqrt
from pathlib import Path

from . import candidates, exact, gouge, program, saving
from .arithmetic import Refused, add, kept_degree, model, multiply, near, tested, up, weight
from .curve import BadCurve, read_curve
from .exact import Series
from .program import NotChecked, shown
from .reading import write_step
from .tables import BY_NAME, DEFAULT_KEPT, LIMIT, MAX_DEGREE, S, STANDARD, Interval, argument, in_micrometres

SHORTEST = 1 << 8               # parameters; a stretch is not cut below twice that
MOST_CUTS = 12                  # of an own interval into halves, so that a limit out of reach ends as well
PRECISION = 1 << 120            # of lengths in verify
ROOTS = tuple(candidates.ROOT_ENDS)     # the commands for a root

Stretch = namedtuple('Stretch', 'low high parts interval')      # parts: (low, high, x, y) in their own -1..1
Solved = namedtuple('Solved', 'stretch job results loads scale bur sign')


class Unsolvable(Exception):
    """A stretch of the margin for which no job is accepted."""


# ---- Stretches ----

def cut_out(run, low, high):
    """The part of a run from low to high: exact series in the coordinate of each part."""
    parts = []
    for piece in run:
        start, end = max(low, piece.low), min(high, piece.high)
        if start < end:
            # The piece's own coordinate is (a·v + b)/d on the part, v from -1 to 1.
            a, b, d = end - start, start + end - piece.low - piece.high, piece.high - piece.low
            parts.append((start, end, exact.restricted(piece.x, a, b, d),
                          exact.restricted(piece.y, a, b, d)))
    return Stretch(low, high, parts, Interval(low, high) if run[0].own else STANDARD)


def halves(run, low, high):
    """Where a stretch is cut in two: at a joint of pieces if it has one, else in the middle."""
    joints = [piece.low for piece in run if low < piece.low < high]
    if joints:
        return min(joints, key=lambda at: abs(2 * at - low - high))
    shortest = max(run[-1].high - run[0].low >> MOST_CUTS, 1) if run[0].own else SHORTEST
    return (low + high) // 2 if high - low >= 2 * shortest else None


def derived(stretch, axis, scale, sign):
    """The derivative along the stretch's own coordinate, times sign and a power of two, by part."""
    length = stretch.high - stretch.low
    top, bottom = (1 << scale, 1) if scale >= 0 else (1, 1 << -scale)
    return [(part[0], part[1], exact.derivative(part[2 + axis], sign * length * top,
                                                (part[1] - part[0]) * bottom))
            for part in stretch.parts]


# ---- Loads with a radius that covers rounding and cut ----

def fitted(stretch, parts, degree):
    """Whole coefficients near a curve given by parts."""
    if len(parts) == 1:
        return exact.nearest(parts[0][2], degree)
    values = []
    for x in candidates.POINTS:
        at = (stretch.low + stretch.high + x * (stretch.high - stretch.low)) / 2
        low, high, row = next((p for p in parts if p[0] <= at <= p[1]), parts[0 if x < 0 else -1])
        v = (2 * at - low - high) / (high - low)
        one = two = 0.0
        for c in reversed(row.row[1:]):
            one, two = 2 * v * one - two + c / row.scale, one
        values.append(v * one - two + row.row[0] / row.scale)
    row = [round(c) for c in candidates.projected(values, degree)]
    while len(row) > 1 and row[-1] == 0:
        row.pop()
    return row


def covering(stretch, parts, degree):
    """A load for a curve: its radius is the exact distance to the curve on every part, rounded up."""
    row = fitted(stretch, parts, degree)
    radius, length = 0, stretch.high - stretch.low
    for low, high, curve in parts:
        own = exact.restricted(Series(row, 1), high - low, low + high - stretch.low - stretch.high, length)
        radius = max(radius, exact.distance(curve, own))
    if radius > LIMIT or weight(row) > LIMIT:
        raise Refused(2, 'the curve does not fit a load')
    return model(row, radius, interval=stretch.interval)


def plain(stretch, axis):
    return [(part[0], part[1], part[2 + axis]) for part in stretch.parts]


def largest_scale(stretch, degree):
    """The largest K with which the sum of the squares of 2^K times the normal keeps within 2^28."""
    rows = [fitted(stretch, derived(stretch, axis, 0, 1), degree) for axis in (0, 1)]
    size, scale = sum(weight(row) ** 2 for row in rows), 0
    if not size:
        raise Refused(8, 'the margin does not move along the stretch')
    # A quarter is left free for the radii of the squares.
    while 4 * size << 2 * (scale + 1) <= 3 * LIMIT * S:
        scale += 1
    while scale <= 0 and 4 * size > 3 * LIMIT * S << -2 * scale:
        scale -= 1
    return scale


# ---- The job of a stretch ----

class Job:
    """Commands with the models that they give; `roots` are the commands that a root may be. A kept degree that is not named is
    32 in edition 1, and left open in edition 2."""

    def __init__(self, roots=ROOTS, edition=1):
        self.bytes, self.results = bytearray(write_step(BY_NAME['edition'], {'edition': edition})), []
        self.roots, self.used, self.edition = roots, [], edition

    def _made(self, name, values, result):
        self.bytes += write_step(BY_NAME[name], values)
        self.results.append(result)
        return len(self.results) - 1

    def load(self, m):
        name = 'load' if m.interval == STANDARD else 'load_on'
        return self._made(name, {'model': m, 'radius': m.radius, 'interval': m.interval}, m)

    def add(self, a, b, name='add'):
        sign = 1 if name == 'add' else -1
        return self._made(name, {'a': a, 'b': b}, add(self.results[a], self.results[b], sign))

    def subtract(self, a, b):
        return self.add(a, b, 'subtract')

    def multiply(self, a, b, kept=None):
        if kept is None:
            kept = MAX_DEGREE if self.edition == 1 else DEFAULT_KEPT
        one, two = self.results[a], self.results[b]
        return self._made('multiply', {'a': a, 'b': b, 'kept': kept},
                          multiply(one, two, kept_degree(self.edition, kept, one.degree, two.degree)))

    def quotient(self, f, g):
        h, w, numbers = candidates.quotient(self.results[f], self.results[g])
        return self._made('quotient', {'f': f, 'g': g, 'h': h, 'w': w}, tested(self.results[f], h, numbers))

    def root(self, f):
        h, w, numbers = candidates.root(self.results[f], self.roots)
        self.used.append(numbers['command'])
        return self._made(numbers['command'], {'f': f, 'h': h, 'w': w}, tested(self.results[f], h, numbers))

    def ended(self):
        return bytes(self.bytes) + write_step(BY_NAME['end'], {})

    def text(self):
        """What the program has to print."""
        return ''.join(f'{i} {m.degree} {m.radius}\n' for i, m in enumerate(self.results)) + \
            f'accepted {len(self.results)}\n'


def bur_load(bur, interval=STANDARD):
    """The bur's radius in mm as a constant; its radius covers the rounding."""
    units = bur * S
    whole = near(units.numerator, units.denominator)
    missed = abs(units - whole)
    return model([whole], up(missed.numerator, missed.denominator), interval=interval)


def add_loads(job, bur, loads, kept=None):
    """The commands of one stretch from its four loads, x, y and the normal's two; `bur` is the result with the
    bur's radius, `kept` the kept degree of the squares. Gives the results of the centre's x and y."""
    x, y, normal_x, normal_y = map(job.load, loads)
    squares = job.add(job.multiply(normal_x, normal_x, kept), job.multiply(normal_y, normal_y, kept))
    length = job.root(squares)
    ratio_x, ratio_y = job.quotient(normal_x, length), job.quotient(normal_y, length)
    offset_x, offset_y = job.multiply(bur, ratio_x), job.multiply(bur, ratio_y)
    return job.add(x, offset_x), job.add(y, offset_y)


def add_stretch(job, bur, stretch, side, degree=None, scale=None, kept=None):
    """One stretch; load radii cover rounding and cut. Gives the centre's x and y, the loads and the scale."""
    degree = MAX_DEGREE if degree is None else degree
    scale = largest_scale(stretch, degree) if scale is None else scale
    sign = 1 if side == 'left' else -1
    loads = [covering(stretch, plain(stretch, 0), degree), covering(stretch, plain(stretch, 1), degree),
             covering(stretch, derived(stretch, 1, scale, -sign), degree),
             covering(stretch, derived(stretch, 0, scale, sign), degree)]
    return add_loads(job, bur, loads, kept), loads, scale


def solve_stretch(stretch, bur, side, degree=None, scale=None, kept=None, roots=ROOTS, edition=1):
    job = Job(roots, edition)
    at = job.load(bur_load(bur, stretch.interval))
    _, loads, scale = add_stretch(job, at, stretch, side, degree, scale, kept)
    return Solved(stretch, job, job.results, loads, scale, bur, 1 if side == 'left' else -1)


def final(solved):
    return max(m.radius for m in solved.results[-2:])


# ---- The error against the margin itself ----

def sample_error(solved, p, q, results=(-2, -1)):
    """How far the centre's two curves are from the margin's own offset at p/q, in units, rounded up.
    Everything is exact but the length of the normal, which has 120 bits behind the point."""
    stretch = solved.stretch
    # Twice the parameter, times q; then the part and its own coordinate u/v.
    twice = (stretch.low + stretch.high) * q + p * (stretch.high - stretch.low)
    low, high, x, y = next(part for part in stretch.parts if 2 * q * part[0] <= twice <= 2 * q * part[1])
    u, v = twice - (low + high) * q, (high - low) * q
    (dx, dx_scale), (dy, dy_scale) = (exact.value(exact.derivative(row), u, v) for row in (x, y))
    nx, ny = -dy * dx_scale * solved.sign, dx * dy_scale * solved.sign
    length = isqrt((nx * nx + ny * ny) * PRECISION * PRECISION)        # over PRECISION
    worst = 0
    for row, n, result in ((x, nx, solved.results[results[0]]), (y, ny, solved.results[results[1]])):
        top, bottom = exact.value(row, u, v)
        bur = solved.bur * S
        # value + bur·n/length against the result's own polynomial
        true_top = top * bur.denominator * length + bur.numerator * n * PRECISION * bottom
        true_bottom = bottom * bur.denominator * length
        have, scale = exact.value(Series(result.coefficients[:result.degree + 1], 1), p, q)
        worst = max(worst, up(abs(true_top * scale - have * true_bottom) * 1000, true_bottom * scale))
    return worst / 1000


def verified(solved, count, results=(-2, -1)):
    """The largest error at `count` + 1 points of a stretch, both ends included, in units."""
    return max(sample_error(solved, 2 * i - count, count, results) for i in range(count + 1))


# ---- A whole margin ----

def refine(run, low, high, make, limit):
    """Stretches from low to high, each cut in two until it keeps the limit."""
    stretch = cut_out(run, low, high)
    try:
        solved = make(stretch)
        if limit is None or final(solved) * 1000 <= limit * S:
            return [solved]
        told = f'its radius is {in_micrometres(final(solved))}'
    except Refused as refused:
        solved, told = None, str(refused)
    middle = halves(run, low, high)
    if middle is None or limit is None:
        if solved is not None:
            return [solved]
        raise Unsolvable(f'the stretch from parameter {low} to {high} cannot be solved: {told}. Does the '
                         'margin stop or turn back there? Is the bur radius right?')
    return refine(run, low, middle, make, limit) + refine(run, middle, high, make, limit)


def uniform(run, count):
    """Ends of `count` stretches: of equal length, at joints of pieces where there are enough."""
    joints = [piece.low for piece in run] + [run[-1].high]
    if len(joints) > count:
        return [joints[i * (len(joints) - 1) // count] for i in range(count + 1)]
    low, high = joints[0], joints[-1]
    return [low + (high - low) * i // count for i in range(count + 1)]


def solve(curve, bur, side, options):
    roots = ('root',) if options.only_0x21 else ROOTS

    def make(stretch):
        return solve_stretch(stretch, bur, side, options.degree, options.scale, roots=roots, edition=options.edition)
    for run in curve.runs:
        if options.stretches is None:
            yield from refine(run, run[0].low, run[-1].high, make, options.limit_um)
        else:
            ends = uniform(run, options.stretches)
            if len(set(ends)) < len(ends):
                raise Unsolvable(f'the interval from {ends[0]} to {ends[-1]} has fewer units than {options.stretches} '
                                 'stretches; are its ends in units?')
            for low, high in zip(ends, ends[1:]):
                yield from refine(run, low, high, make, None)


HEAD = 'stretch  degrees      scale  load radii: x, y, normal  root   radius, units           µm'


def row(i, solved, error):
    loads, worst = solved.loads, final(solved)
    degrees = ' '.join(str(m.degree) for m in loads)
    radii = f'{loads[0].radius}, {loads[1].radius}, {max(m.radius for m in loads[2:])}'
    root, = (f'0x{BY_NAME[name].byte:02x}' for name in solved.job.used)
    told = '' if error is None else f'   largest error against the margin {error:.3f} units'
    if solved.stretch.interval != STANDARD:
        told += f'   x from {argument(solved.stretch.low)} to {argument(solved.stretch.high)}'
    return (f'{i:>7}  {degrees:<12} {solved.scale:>5}  {radii:<24}  {root} {worst:>15,} '
            f'{in_micrometres(worst)[:-3]:>12}' + told)


def write_jobs(folder, stem, jobs):
    """Writes the jobs of one curve, and removes those that an earlier run with more stretches left."""
    try:
        folder.mkdir(parents=True, exist_ok=True)
        for i, job in enumerate(jobs):
            (folder / f'{stem}_{i:04}.job').write_bytes(job)
        for path in folder.iterdir():
            numbered = re.fullmatch(re.escape(stem) + r'_(\d{4,})\.job', path.name)
            if numbered and int(numbered[1]) >= len(jobs):
                path.unlink()
    except OSError as error:
        raise NotChecked(f'{shown(folder)}: cannot be written: {error.strerror}') from error


def main(options):
    name = shown(options.curve)
    try:
        curve = read_curve(options.curve)
        bur = options.bur_mm or curve.bur
        if bur is None or not 0 < bur <= 100:
            raise BadCurve(f'{name}: the radius of the bur in mm is needed, above 0: "bur_mm", or '
                           '--bur-mm')
        checker = program.find(options.jobcheck)
        print(HEAD)
        worst, jobs, own, found = 0, [], [], []
        for solved in solve(curve, bur, options.side or curve.side or 'left', options):
            job, at = solved.job.ended(), f'{name}: stretch {len(jobs)}'
            answer = program.run(checker, job, at)
            if answer.text != solved.job.text():
                raise NotChecked(f'{at}: jobcheck does not print what was solved for; is it the '
                                 'program of this version? (--only-0x21 makes jobs for those older than 3.2.0; an own '
                                 'interval needs 4.0.0, edition 2 5.0.0)')
            error = verified(solved, options.verify) if options.verify else None
            if error is not None and error > final(solved):
                raise NotChecked(f'{at}: the error against the margin, {error:.3f} units, is above '
                                 f'the radius {final(solved)}; this must not happen, please report it')
            found.append(gouge.findings(job))
            print(row(len(jobs), solved, error) + gouge.remark(found[-1]), flush=True)
            worst = max(worst, final(solved))
            jobs.append(job)
            if solved.stretch.interval != STANDARD:
                own.append(solved)
        told = list(saving.lines(own, checker, name)) if own else []
        # Only now: a curve that cannot be solved to its end leaves the folder as it was.
        if options.output:
            write_jobs(Path(options.output), Path(options.curve).stem or 'job', jobs)
    except (BadCurve, NotChecked) as error:
        print(f'ferruntzo: {error}', file=sys.stderr)
        return 2
    except Unsolvable as error:
        print(f'ferruntzo: {name}: {error}', file=sys.stderr)
        return 2
    print(f'{len(jobs)} stretch{"es" if len(jobs) > 1 else ""}, accepted by jobcheck; largest radius {worst:,} '
          f'unit{"" if worst == 1 else "s"} = {in_micrometres(worst)}, against the margin itself.')
    for line in [*gouge.summary(found), *told]:
        print(line)
    if options.limit_um is not None and worst * 1000 > options.limit_um * S:
        print(f'BEYOND the limit of {options.limit_text} µm: take more stretches or a higher degree.')
        return 1
    return 0
