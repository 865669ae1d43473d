"""What a curve on its own interval saves, measured beside the same curve rescaled to -1..1."""

from fractions import Fraction

from . import exact, misplaced, program
from .arithmetic import near, up
from .program import NotChecked
from .reading import split, write_step
from .tables import BY_NAME, S, in_micrometres, is_load

POINTS = 64                     # of a stretch, less one, at which rescaled points are looked at


def rescaled(job):
    """The job with every load by 0x10: the same curves, rescaled to -S..S."""
    return b''.join(write_step(BY_NAME['load'] if is_load(step) else step.command, step.values)
                    for step in split(job)[0])


def point_error(solved, p):
    """How far the centre's two curves move, in units, if the point p of the interval is rescaled and rounded to a unit."""
    low, high = solved.stretch.interval
    top, bottom = 2 * p - low - high, high - low
    rounded = near(S * top, bottom)
    rows = [exact.Series(m.coefficients[:m.degree + 1], 1) for m in solved.results[-2:]]
    return max(abs(Fraction(*exact.value(row, top, bottom)) - Fraction(*exact.value(row, rounded, S))) for row in rows)


def largest_point_error(solved, count=POINTS):
    """The largest of them at `count` + 1 whole points of the interval."""
    low, high = solved.stretch.interval
    return max(point_error(solved, low + (high - low) * i // count) for i in range(count + 1))


def lines(stretches, checker, name):
    """What loads by 0x14 save, measured on the stretches: lines to print."""
    for i, solved in enumerate(stretches):
        if program.run(checker, rescaled(solved.job.ended()), f'{name}: stretch {i}, rescaled').text != solved.job.text():
            raise NotChecked(f'{name}: stretch {i} has other radii when rescaled; this must not happen, please report it')
    for interval in (solved.stretch.interval for solved in stretches):
        yield from (f'CAUTION: {line}.' for line in misplaced.small_interval(interval))
    yield ('On their own intervals (loads by 0x14): rescaled to -1..1 (by 0x10) the stretches have the same radii, and their '
           'ends would have to be kept beside the jobs.')
    moved = Fraction(max(map(largest_point_error, stretches)))
    looked = f'at {POINTS + 1} points of each stretch'
    if not moved:
        yield f'Rescaled, a point of the interval would need no rounding {looked}.'
        return
    yield (f'Rescaled, a point of the interval is rounded to 2^-20 of half the stretch: {looked} that moves the path by up to '
           f'{up(moved.numerator * 1000, moved.denominator) / 1000:.3f} units ({in_micrometres(moved)}), which no radius '
           'covers; ferruntzo_evaluate takes the point itself, and its bounds cover it.')
