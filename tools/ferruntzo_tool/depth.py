"""How far the bur comes into the margin where its path turns back: found in floats, then stated in exact arithmetic."""

from fractions import Fraction
from math import cos, isqrt, pi, sqrt

from . import exact
from .arithmetic import value
from .tables import S

GRID = 256                      # points, less one, at which floats look for a place
ROUNDS = 6                      # of looking nearer, each three times as near


def dyadic(x):
    """A float as a fraction with few digits."""
    return Fraction(round(x * (1 << 30)), 1 << 30)


def grid():
    """From -1 to 1, closer at the ends, where a polynomial may bend most."""
    return [-cos(pi * i / GRID) for i in range(GRID + 1)]


def root(number, above):
    """The square root of a fraction in multiples of 2^-80, rounded down, or up by at most two of them."""
    return Fraction(isqrt((number.numerator << 160) // number.denominator) + 2 * above, 1 << 80)


class Distance:
    """Distances of places of a path from places of its margin, both of the loaded curves."""

    def __init__(self, path):
        self.square = Fraction(*path.square)
        self.series = [part.series for part in path.margin + path.normal] + [path.under]
        self.floats = [[c / series.scale for c in series.row] for series in self.series]

    def margin(self, x):
        """The margin at x in mm, in floats."""
        return value(self.floats[0], x), value(self.floats[1], x)

    def offset(self, x):
        """From the margin to the path at x in mm, in floats."""
        length = sqrt(max(value(self.floats[4], x), 1e-300))
        return value(self.floats[2], x) / length, value(self.floats[3], x) / length

    def nearest(self, us, vs):
        """The places of the path and of the margin that are nearest to each other, in floats."""
        margins = [(v, *self.margin(v)) for v in vs]
        best = None
        for u in us:
            (x, y), (nx, ny) = self.margin(u), self.offset(u)
            for v, mx, my in margins:
                dx, dy = x - mx, y - my
                square = dx * (dx + 2 * nx) + dy * (dy + 2 * ny)
                if best is None or square < best[0]:
                    best = square, u, v
        return best[1:]

    def deepest(self):
        """About the pair of places at which the bur comes deepest into the margin."""
        u, v = self.nearest(grid(), grid())
        reach = 4 / GRID
        for _ in range(ROUNDS):
            near = [[min(max(at + reach * i / 4, -1.0), 1.0) for i in range(-4, 5)] for at in (u, v)]
            u, v = self.nearest(*near)
            reach /= 3
        return dyadic(u), dyadic(v)

    def depth(self, u, v):
        """Units by which the path at u is at least nearer to the margin at v than the bur's radius, exactly and rounded down."""
        def at(series, x):
            return Fraction(*exact.value(series, x.numerator, x.denominator))
        mx, my, nx, ny, under = self.series
        dx, dy = at(mx, u) - at(mx, v), at(my, u) - at(my, v)
        along = dx * at(nx, u) + dy * at(ny, u)
        if along >= 0:
            return 0
        # √under is rounded up, so that the distance is not rounded down.
        square = dx * dx + dy * dy + self.square + 2 * along / root(at(under, u), 1)
        return max(int((root(self.square, 0) - root(max(square, Fraction(0)), 1)) * S), 0)
