"""Curves with their bands as SVG without scripts; colours come from the page's style."""

from html import escape
from math import ceil, cos, floor, hypot, log10, pi

from .arithmetic import value
from .tables import S, argument

POINTS = 121
WIDTH, HEIGHT = 560, 210
LEFT, RIGHT, TOP, BOTTOM = 90, 12, 12, 30
LETTER = 7                      # width of a digit with the room that it needs


def ticks(low, high, wanted=6):
    """Round numbers from low to high, with their text."""
    span = high - low
    power = floor(log10(span / wanted))
    factor = next(f for f in (1, 2, 5, 10) if span / (10 ** power * f) <= wanted)
    step, digits = 10 ** power * factor, max(-power - (factor == 10), 0)
    for i in range(ceil(low / step - 1e-9), floor(high / step + 1e-9) + 1):
        yield i * step, f'{i * step + 0.0:.{digits}f}'


def within(x, text):
    """The place nearest to x for the middle of a text that keeps within the drawing."""
    half = LETTER * len(text) / 2
    return min(max(x, half), WIDTH - half)


class Frame:
    """Axes from x_low..x_high and y_low..y_high in a drawing."""

    def __init__(self, xs, ys, height=HEIGHT):
        self.height = height
        self.x_low, self.x_high = xs
        low, high = ys
        pad = (high - low) * 0.06 or max(abs(high), 1.0) * 1e-3
        self.y_low, self.y_high = low - pad, high + pad

    def x(self, v):
        return LEFT + (v - self.x_low) / (self.x_high - self.x_low) * (WIDTH - LEFT - RIGHT)

    def y(self, v):
        return TOP + (self.y_high - v) / (self.y_high - self.y_low) * (self.height - TOP - BOTTOM)

    def points(self, pairs):
        return ' '.join(f'{self.x(u):.1f},{self.y(v):.2f}' for u, v in pairs)

    def axes(self, x_name, y_name):
        floor_y, right = self.height - BOTTOM, WIDTH - RIGHT
        yield f'<rect class="frame" x="{LEFT}" y="{TOP}" width="{right - LEFT}" height="{floor_y - TOP}"/>'
        for v, text in ticks(self.y_low, self.y_high):
            y = self.y(v)
            yield f'<line class="grid" x1="{LEFT}" x2="{right}" y1="{y:.1f}" y2="{y:.1f}"/>'
            yield f'<text class="left" x="{LEFT - 6}" y="{y + 4:.1f}">{text}</text>'
        for x, at, text in self.below():
            yield f'<line class="grid" x1="{x:.1f}" x2="{x:.1f}" y1="{TOP}" y2="{floor_y}"/>'
            yield f'<text class="below" x="{at:.1f}" y="{floor_y + 14}">{text}</text>'
        yield f'<text class="below" x="{(LEFT + right) / 2:.0f}" y="{self.height - 3}">{escape(x_name)}</text>'
        yield (f'<text class="below" transform="translate(12 {(TOP + floor_y) / 2:.0f}) rotate(-90)">'
               f'{escape(y_name)}</text>')

    def below(self):
        """Places of round numbers, with their text and its own place: as many as stand beside one another."""
        found = []
        for wanted in (6, 4, 3, 2, 1):
            found = [(self.x(v), within(self.x(v), text), text) for v, text in ticks(self.x_low, self.x_high, wanted)]
            longest = max((len(text) for _, _, text in found), default=0)
            if all(right[1] - left[1] >= LETTER * longest for left, right in zip(found, found[1:])):
                break
        return found

    def drawing(self, title, parts):
        return (f'<svg viewBox="0 0 {WIDTH} {self.height}" role="img" '
                f'aria-label="{escape(title)}"><title>{escape(title)}</title>{"".join(parts)}</svg>')


def places():
    """From -1 to 1, closer at the ends, where a polynomial may bend most."""
    return [-cos(pi * i / (POINTS - 1)) for i in range(POINTS)]


def ends(m):
    """x at both ends of a result's interval."""
    return m.interval.lower / S, m.interval.upper / S


def samples(m):
    """Points of a result over x of its interval; T_k is taken at y from -1 to 1."""
    row, (low, high) = m.coefficients[:m.degree + 1], ends(m)
    return [((low + high + y * (high - low)) / 2, value(row, y) / S) for y in places()]


def curve(m, title, unit):
    """The curve of a result with the band of its radius; the band may be thinner than the line."""
    pairs, e = samples(m), m.radius / S
    values = [v for _, v in pairs]
    frame = Frame(ends(m), (min(values) - e, max(values) + e))
    band = [(x, v + e) for x, v in pairs] + [(x, v - e) for x, v in reversed(pairs)]
    return frame.drawing(title, [
        *frame.axes('place x on the stretch', unit),
        f'<polygon class="band" points="{frame.points(band)}"/>',
        f'<polyline class="curve" points="{frame.points(pairs)}"/>'])


def strip(m, limit_um, title):
    """The band alone, in micrometres about the curve, with the limit where there is one."""
    e = m.radius * 1000 / S
    reach = max(e, float(limit_um) if limit_um else 0) or 1e-3
    frame = Frame(ends(m), (-reach, reach), 110)
    top, bottom = frame.y(e), frame.y(-e)
    parts = [*frame.axes('place x on the stretch', 'µm'),
             f'<rect class="band" x="{LEFT}" width="{WIDTH - LEFT - RIGHT}" y="{top:.2f}" '
             f'height="{max(bottom - top, 0.8):.2f}"/>',
             f'<line class="curve" x1="{LEFT}" x2="{WIDTH - RIGHT}" y1="{frame.y(0):.1f}" y2="{frame.y(0):.1f}"/>']
    if limit_um:
        for v in (float(limit_um), -float(limit_um)):
            parts.append(f'<line class="limit" x1="{LEFT}" x2="{WIDTH - RIGHT}" y1="{frame.y(v):.1f}" '
                         f'y2="{frame.y(v):.1f}"/>')
    return frame.drawing(title, parts)


def path(first, second, title):
    """Two results on one interval against each other, with equal scales: the path in the plane."""
    pairs = [(u, v) for (_, u), (_, v) in zip(samples(first), samples(second))]
    us, vs = [u for u, _ in pairs], [v for _, v in pairs]
    height = 360
    middle_u, middle_v = (min(us) + max(us)) / 2, (min(vs) + max(vs)) / 2
    per_mm = min((WIDTH - LEFT - RIGHT) / (max(us) - min(us) or 1e-3),
                 (height - TOP - BOTTOM) / (max(vs) - min(vs) or 1e-3)) * 0.8
    half_u, half_v = (WIDTH - LEFT - RIGHT) / per_mm / 2, (height - TOP - BOTTOM) / per_mm / 2
    frame = Frame((middle_u - half_u, middle_u + half_u), (middle_v - half_v, middle_v + half_v), height)
    frame.y_low, frame.y_high = middle_v - half_v, middle_v + half_v
    parts = [*frame.axes('mm', 'mm'), f'<polyline class="curve" points="{frame.points(pairs)}"/>']
    for at, end, inner in ((first.interval.lower, pairs[0], pairs[3]), (first.interval.upper, pairs[-1], pairs[-4])):
        x, y = frame.x(end[0]), frame.y(end[1])
        dx, dy = x - frame.x(inner[0]), y - frame.y(inner[1])
        name, length = f'x = {argument(at)}', hypot(dx, dy) or 1
        # The name stands beyond the end, away from the curve; a long one further off where that is sideways.
        far = (22 + LETTER / 2 * max(len(name) - 6, 0) * abs(dx) / length) / length
        parts.append(f'<circle class="dot" cx="{x:.1f}" cy="{y:.1f}" r="3"/>'
                     f'<text class="word below" x="{within(x + far * dx, name):.1f}" y="{y + far * dy + 4:.1f}">{name}</text>')
    return frame.drawing(title, parts)
