"""Gouging: whether the path of a bur turns back on its stretch, in exact arithmetic.

With margin m, normal n and u under the root the path is p = m + n/√u, and t = (n_y, -n_x) is the direction of travel or its
opposite. p'·t = a + b/√u with a = m_x'·n_y - m_y'·n_x and b = n_y·n_x' - n_x·n_y'; where n is a constant times m' turned by
a right angle this is a·(1 - r·κ). So the path does not turn back where a has the sign s of the direction of travel and either
s·b >= 0 or a²·u > b². All three are polynomials of the loaded curves; the radii of the loads play no part."""

from collections import deque, namedtuple
from fractions import Fraction
from math import floor, log10, sqrt

from . import bernstein, covered, exact, offset
from .arithmetic import value, weight
from .depth import Distance, dyadic, grid
from .exact import Series, plus, times
from .tables import S, in_micrometres

HALVINGS = 20                   # of a stretch, at most
MOST_PARTS = 200                # of a stretch that are looked at, so that every job ends soon
SKEW = 8                        # the normal must be within 1 to SKEW of the right angle to the margin
COARSE = 8                      # every so many places of the grid are looked at first
BISECTIONS = 12                 # for about where a path begins to turn back

FORWARD, TURNS, UNDECIDED, SKEWED = 'forward', 'turns back', 'undecided', 'skewed'

# Places are from -1 to 1. at: where the path turns back, is not shown to go forward, or its normal is not shown to be at nearly a
# right angle. back: about the stretches on which it turns back. deepest, depth: a place of the path and one of the margin, and by
# how many units at least they are nearer than the bur's radius. parts: how many of the stretch were looked at.
Finding = namedtuple('Finding', 'path state at back deepest depth parts', defaults=(None, (), None, 0, 1))


def least(series):
    """A lower bound of a series on -1..1 from its coefficients, times its scale."""
    return series.row[0] - weight(series.row[1:])


class Inequality:
    """a, b and u of a path, a and b with the sign of the direction of travel."""

    def __init__(self, path):
        (mx, my), (nx, ny) = ([part.series for part in pair] for pair in (path.margin, path.normal))
        dx, dy, dnx, dny = map(exact.derivative, (mx, my, nx, ny))
        a, b = plus(times(dx, ny), times(dy, nx), -1), plus(times(ny, dnx), times(nx, dny), -1)
        sign = -1 if exact.value(a, 0, 1)[0] < 0 else 1
        self.a, self.b = (Series([sign * c for c in series.row], series.scale) for series in (a, b))
        self.u = path.under
        self.along = plus(times(dx, nx), times(dy, ny))         # zero where the normal is at a right angle to the margin
        self.floats = [[c / series.scale for c in series.row] for series in (self.a, self.b, self.u)]

    def forward(self, p, q):
        """Whether the path goes forward at p/q, exactly."""
        (a, a_scale), (b, b_scale), (u, u_scale) = (exact.value(series, p, q) for series in (self.a, self.b, self.u))
        return a > 0 and u > 0 and (b >= 0 or a * a * u * b_scale ** 2 > b * b * a_scale ** 2 * u_scale)

    def guess(self, x):
        """About p'·t at x times √u, in floats."""
        a, b, u = (value(row, x) for row in self.floats)
        return a * sqrt(max(u, 0.0)) + b

    def by_coefficients(self):
        """Whether bounds from the coefficients alone show that the path goes forward."""
        a, b, u = self.a, self.b, self.u
        return least(a) > 0 and least(u) > 0 and (
            least(b) >= 0 or least(a) ** 2 * least(u) * b.scale ** 2 > weight(b.row) ** 2 * a.scale ** 2 * u.scale)

    def right_angled(self):
        """Whether coefficients alone show that the normal is nearly at a right angle to the margin."""
        return least(self.a) * self.along.scale >= SKEW * weight(self.along.row) * self.a.scale

    def difference(self):
        """a²·u - b²."""
        return plus(times(times(self.a, self.a), self.u), times(self.b, self.b), -1)

    def room(self):
        """a² - SKEW²·along²."""
        square = times(self.along, self.along)
        return plus(times(self.a, self.a), Series([SKEW * SKEW * c for c in square.row], square.scale), -1)


def search(series, decided, fails):
    """Cuts -1..1 in halves until lower bounds of the series decide each part, breadth first. Gives the place where it ends, if it
    does not decide everything, whether it fails there, and the number of parts."""
    # A part: the number of halvings, its middle times 2^halvings, and the Bernstein coefficients of each series on it.
    waiting, parts = deque([(0, 0, [bernstein.lower(s.row) for s in series])]), 0
    while waiting:
        level, middle, rows = waiting.popleft()
        parts += 1
        if decided(*map(min, rows)):
            continue
        at, bad = Fraction(middle, 1 << level), fails(middle, 1 << level)
        if bad or level == HALVINGS or parts >= MOST_PARTS:
            return at, bad, parts
        for way, half in zip((-1, 1), zip(*map(bernstein.halves, rows))):
            waiting.append((level + 1, 2 * middle + way, half))
    return None, False, parts


def judged(inequality, first):
    """State, place and parts. `first`: places of which that where the path most likely turns back is looked at first; none if it is
    known to go forward."""
    likely = dyadic(min(first, key=inequality.guess)) if first else None
    if likely is None:
        state, at, parts = FORWARD, None, 1
    elif not inequality.forward(likely.numerator, likely.denominator):
        return TURNS, likely, 1
    else:
        # a²·u > b² makes a other than zero. One of the two holding on every part, a has one sign on all of them.
        at, bad, parts = search((inequality.a, inequality.b, inequality.difference()),
                                lambda a, b, difference: difference > 0 or (a > 0 and b >= 0),
                                lambda p, q: not inequality.forward(p, q))
        state = TURNS if bad else FORWARD if at is None else UNDECIDED
    if state == FORWARD and not inequality.right_angled():
        at, _, _ = search((inequality.room(),), lambda room: room > 0, lambda p, q: False)
        state = FORWARD if at is None else SKEWED
    return state, at, parts


def turned(inequality, at):
    """About the stretches on which the path turns back; it does at `at`."""
    def end(inside, outside):
        for _ in range(BISECTIONS):
            middle = (inside + outside) / 2
            inside, outside = (middle, outside) if inequality.guess(middle) <= 0 else (inside, middle)
        return inside
    points = sorted({**{x: inequality.guess(x) for x in grid()}, float(at): -1.0}.items())
    found = []
    for i, (x, guess) in enumerate(points):
        if guess > 0:
            continue
        if i == 0 or points[i - 1][1] > 0:
            found.append([end(x, points[i - 1][0]) if i else x, x])
        found[-1][1] = x if i + 1 == len(points) or points[i + 1][1] <= 0 else end(x, points[i + 1][0])
    return found


def found(path):
    """What is found about one path."""
    inequality = Inequality(path)
    # No place needs to be looked at first where the coefficients alone show that the path goes forward.
    first = [] if inequality.by_coefficients() else grid()[::COARSE]
    state, at, parts = judged(inequality, first)
    if state != TURNS:
        return Finding(path, state, at, parts=parts)
    distance = Distance(path)
    pair = distance.deepest()
    return Finding(path, state, at, turned(inequality, at), pair, distance.depth(*pair), parts)


def findings(job):
    """What is found about each path of a job that was accepted."""
    return [found(path) for path in offset.paths(job)]


# ---- In words ----

def argument(path, at):
    """x of a place, on the interval of the path, with as many digits as tell the places of a drawing apart."""
    low, high = path.interval
    digits = max(3 - floor(log10((high - low) / S)), 0)
    return f'{float(low + high + at * (high - low)) / (2 * S):.{digits}f}'


def place(path, at):
    """A place of the margin: x, and the point in mm."""
    point = ', '.join(f'{round(c, 4) + 0.0:.4f}' for c in Distance(path).margin(float(at)))
    return f'x = {argument(path, at)} ({point} mm)'


def named(path):
    return f'the path of results {path.results[0]}, {path.results[1]}'


def turning(finding):
    """Where a path turns back, and how deep the bur comes."""
    path = finding.path
    (low, high), *others = sorted(finding.back, key=lambda ends: not ends[0] <= finding.at <= ends[1])
    where = f'from about x = {argument(path, low)} to {argument(path, high)}'
    if others:
        where += f' and at {len(others)} other place{"s" if len(others) > 1 else ""}'
    text = f'{named(path)} turns back {where}'
    if not finding.depth:
        return f'{text}, near {place(path, finding.at)}; how far the bur comes into the margin was not found'
    return (f'{text}: the bur of {sqrt(path.square[0] / path.square[1]):.6g} mm cuts into the margin, by at least '
            f'{in_micrometres(finding.depth, down=True)} at {place(path, finding.deepest[1])}')


def caution(finding):
    """The caution about a path, or nothing where it was shown not to turn back."""
    path = finding.path
    if finding.state == TURNS:
        return turning(finding)
    if finding.state == UNDECIDED:
        return (f'it could not be shown that {named(path)} does not turn back near {place(path, finding.at)} '
                f'({finding.parts} parts of the stretch were looked at, cut in halves up to {HALVINGS} times)')
    if finding.state == SKEWED:
        return (f'the normal of {named(path)} could not be shown to be at nearly a right angle to the loaded margin near '
                f'{place(path, finding.at)}, so the path may come nearer to it than the radius of the bur')
    return ''


def cautions(found_paths):
    return [caution(finding) for finding in found_paths if finding.state != FORWARD]


def looked_at(found_paths, judged_results):
    """What was shown, and which of the judged results were not looked at: short sentences."""
    good = [finding.path for finding in found_paths if finding.state == FORWARD]
    in_paths = {i for finding in found_paths for i in finding.path.results}
    if len(found_paths) == 1 and in_paths == set(judged_results):
        names = ['the path'] if good else []
    else:
        names = list(map(named, good))
    lines = [f'{" and ".join(names)} do{"es" if len(names) == 1 else ""} not turn back'] if names else []
    return lines, [i for i in judged_results if i not in in_paths]


# ---- The stretches of a margin ----

REMARKS = {FORWARD: '', TURNS: '   CAUTION: turns back', UNDECIDED: '   CAUTION: not shown not to turn back',
           SKEWED: '   CAUTION: normal not at a right angle'}


def remark(found_paths):
    """What stands beside a stretch in a table."""
    def deep(finding):
        return f', at least {in_micrometres(finding.depth, down=True)} too deep' if finding.depth else ''
    if not found_paths:
        return '   gouging not looked at'
    return ''.join(REMARKS[finding.state] + deep(finding) for finding in found_paths)


def summary(stretches):
    """Lines below a table of stretches, from what was found about the path of each."""
    by_state = {state: [] for state in REMARKS}
    for i, found_paths in enumerate(stretches):
        for finding in found_paths:
            by_state[finding.state].append((i, finding))

    def numbers(state):
        named_ones = [i for i, _ in by_state[state]]
        return f'stretch{"es" if len(named_ones) > 1 else ""} {covered.numbers_text(named_ones)}'
    if by_state[TURNS]:
        deepest, finding = max(by_state[TURNS], key=lambda pair: pair[1].depth)
        yield (f'CAUTION: the path turns back on {len(by_state[TURNS])} of {len(stretches)} stretches ({numbers(TURNS)}): the '
               f'margin is curved more tightly there than the bur, which cuts into it. Stretch {deepest}: {turning(finding)}.')
    if by_state[UNDECIDED]:
        yield f'CAUTION: it could not be shown that the path does not turn back on {numbers(UNDECIDED)}.'
    if by_state[SKEWED]:
        yield f'CAUTION: the normal could not be shown to be at nearly a right angle to the loaded margin on {numbers(SKEWED)}.'
    if len(by_state[FORWARD]) == len(stretches):
        yield 'The path turns back on no stretch, shown for the loaded curves.'
    yield 'Stretches were not compared with one another: far parts of the margin may still be too near to the path.'
