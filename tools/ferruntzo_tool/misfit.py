"""Likely causes when a model is bad or a candidate fits badly: usual mistakes are tried on the blocks."""

import struct
from math import cos, pi, sqrt

from . import arithmetic as ar
from .arithmetic import Model
from .reading import Checked, split, write_step
from .tables import BY_NAME, COEFFICIENTS, MAX_DEGREE, S, is_load, is_root, is_test

NODES = [cos(pi * (i + 0.5) / 24) for i in range(24)]
TINY = 2000                     # units; a curve below it is 2 µm in all
FITS = 0.05                     # a ratio that varies less than this over the stretch is a factor


def clipped(row):
    """33 coefficients that fit 32 bits, or none at all."""
    row = list(row)[:COEFFICIENTS] + [0] * (COEFFICIENTS - len(row))
    return row if all(-1 << 31 <= c < 1 << 31 for c in row) else None


def swapped(m):
    return struct.unpack(f'<{COEFFICIENTS}i', struct.pack(f'>{COEFFICIENTS}i', *m.coefficients))


def floats(m):
    """The coefficients taken as 32-bit floating-point numbers of mm."""
    row = struct.unpack(f'<{COEFFICIENTS}f', struct.pack(f'<{COEFFICIENTS}i', *m.coefficients))
    if any(c != c or abs(c) > 1000 or 0 < abs(c) < 1e-12 for c in row):
        return None
    return [round(c * S) for c in row]


def power(m):
    """Coefficients of powers of x turned into those of T_k."""
    row = [0]
    for c in reversed(m.coefficients[:m.degree + 1]):
        # x·T_k = (T_(k+1) + T_(k-1))/2, x·T_0 = T_1.
        shifted = [0.0] * (len(row) + 1)
        for k, v in enumerate(row):
            shifted[k + 1] += v if k == 0 else v / 2
            if k:
                shifted[k - 1] += v / 2
        shifted[0] += c
        row = shifted
    return [round(v) for v in row]


def sizable(row):
    """Coefficients that still mean something after a division, or none at all."""
    return row if ar.weight(row) > TINY else None


def last_place(m):
    return max((k for k, c in enumerate(m.coefficients) if c), default=0)


# The mistake, and the coefficients as they should be (None: it cannot be this one).
CHANGES = [
    ('has its coefficients big-endian; they must be little-endian', swapped),
    ('has its coefficients in reverse (T_n first); T_0 comes first',
     lambda m: m.coefficients[:min(m.degree, MAX_DEGREE) + 1][::-1]),
    ('has its 33 coefficients in reverse (T_32 first); T_0 comes first',
     lambda m: m.coefficients[::-1]),
    ('has c_0 doubled (the convention c_0/2 + ...); here c_0 counts whole',
     lambda m: [m.coefficients[0] // 2, *m.coefficients[1:]]),
    ('has c_0 halved; here c_0 counts whole', lambda m: [2 * m.coefficients[0], *m.coefficients[1:]]),
    ('is in millimetres; it must be in units of 2^-20 mm',
     lambda m: [c * S for c in m.coefficients]),
    ('was multiplied by 2^20 twice', lambda m: sizable([round(c / S) for c in m.coefficients])),
    ('holds 32-bit floating-point numbers; it must hold whole numbers of units', floats),
    ('holds coefficients of powers of x; they must be those of T_k', power),
    ('runs the other way (x for -x)', lambda m: [c * (-1) ** k for k, c in enumerate(m.coefficients)]),
    ('has the wrong sign', lambda m: [-c for c in m.coefficients]),
    ('is twice what it should be', lambda m: [round(c / 2) for c in m.coefficients]),
    ('is half of what it should be', lambda m: [2 * c for c in m.coefficients]),
    ('has too low a degree byte (the degree, not less)', lambda m: m.coefficients),
]

# Which blocks of the job are changed together: a name, and the choice by command and block.
SCOPES = [
    ('every block', lambda step, name, at: True),
    ('every load', lambda step, name, at: is_load(step)),
    ('every h and w', lambda step, name, at: not is_load(step)),
    ('every h', lambda step, name, at: name == 'h'),
    ('every w', lambda step, name, at: name == 'w'),
    ('w of every root', lambda step, name, at: name == 'w' and is_root(step)),
    ('this block', lambda step, name, at: step.number == at and name == 'model'),
    ('h', lambda step, name, at: step.number == at and name == 'h'),
    ('w', lambda step, name, at: step.number == at and name == 'w'),
]


def changed(m, change):
    row = change(m)
    row = None if row is None else clipped(row)
    if row is None:
        return None
    found = Model(m.degree, row, 0)
    degree = max(min(m.degree, MAX_DEGREE), last_place(found))
    return found._replace(degree=degree)


def rewritten(job, steps, offset, edit):
    """The job with blocks edited; None if nothing changes or an edit is impossible."""
    pieces = []
    for step in steps:
        values = edit(step, dict(step.values))
        if values is None:
            return None
        # An edit that gives a load an interval makes it a load by 0x14.
        command = BY_NAME['load_on'] if is_load(step) and 'interval' in values else step.command
        pieces.append(write_step(command, values))
    made = b''.join(pieces) + job[offset:]
    return None if made == job else made


def block_edit(choose, change, at):
    def edit(step, values):
        for kind, name in step.command.operands:
            if kind == 'block' and choose(step, name, at):
                values[name] = changed(values[name], change)
                if values[name] is None:
                    return None
        return values
    return edit


def exchange(first, second, at):
    def edit(step, values):
        if step.number == at and first in values and second in values:
            values[first], values[second] = values[second], values[first]
        return values
    return edit


def edits(at):
    """Every mistake that is tried at a command: its text and the edit that would mend it."""
    for scope, choose in SCOPES:
        for text, change in CHANGES:
            yield f'{scope} {text}', block_edit(choose, change, at)
    yield 'h and w are exchanged', exchange('h', 'w', at)
    yield 'f and g are exchanged', exchange('f', 'g', at)


def score(checked, at):
    """How well a job goes at and behind a command: passed there, accepted, commands passed, the
    largest radius at the end, the radius there."""
    radius = next((o.model.radius for o in checked.outcomes if o.step.number == at and o.model), None)
    last = max((checked.results[i].radius for i in checked.last_results()), default=0)
    return radius is not None, checked.accepted, checked.command, -last, -(radius or 0)


def tried(job, checked, at, enough, tries=edits):
    """The mistakes whose mending brings the job beyond command `at` and is `enough` by its radius."""
    steps, offset = split(job)
    found = []
    for text, edit in tries(at):
        other = rewritten(job, steps, offset, edit)
        if other is None:
            continue
        result = score(Checked(other), at)
        if result[0] and enough(-result[4]):
            found.append((result, text))
    found.sort(key=lambda pair: pair[0], reverse=True)
    best = found[0][0] if found else None
    return [text for result, text in found if result[:3] == best[:3]
            and all(-mine <= 2 * -theirs + 16 for mine, theirs in zip(result[3:], best[3:]))][:3]


def sampled(m):
    return [ar.value(m.coefficients[:max(last_place(m), 1) + 1], x) / S for x in NODES]


def lowest(m, signed):
    """The least value of a curve (of its size, unless signed) at 401 points, and where."""
    row = m.coefficients[:last_place(m) + 1]
    low, high = m.interval
    found = ((ar.value(row, i / 200) / S, (low + high + i / 200 * (high - low)) / (2 * S)) for i in range(-200, 201))
    return min(found if signed else ((abs(v), x) for v, x in found))


def factor(tops, bottoms):
    """The factor between two curves if it is nearly constant, else None."""
    if any(b == 0 for b in bottoms):
        return None
    ratios = [t / b for t, b in zip(tops, bottoms)]
    mean = sum(ratios) / len(ratios)
    return mean if mean and max(abs(r / mean - 1) for r in ratios) < FITS else None


def figures(number):
    return f'{number:.4g}'


def fit_lines(step, results):
    """How h and w stand to what they should be, seen at 24 points in floating point."""
    root = is_root(step)
    f = sampled(results[step.values['f']])
    h, w = sampled(step.values['h']), sampled(step.values['w'])
    base = [v * v for v in h] if root else [a * b for a, b in zip(sampled(results[step.values['g']]), h)]
    under = [2 * v for v in h] if root else sampled(results[step.values['g']])
    what, inverse = ('h²', '1/(2h)') if root else ('g·h', '1/g')
    c = factor(base, f)
    if c is not None and abs(c - 1) > 0.01:
        should = f'; h would fit if divided by {figures(sqrt(c) if root and c > 0 else c)}'
        yield f'{what} is about {figures(c)} times f all along the stretch{should}'
    d = factor([a * b for a, b in zip(w, under)], [1.0] * len(w))
    if d is not None and abs(d - 1) > 0.1:
        told = ' (the factor 2 was forgotten: w must be 1/(2h), not 1/h)' if root and abs(d - 2) < 0.1 else ''
        yield f'w is about {figures(d)} times {inverse} all along the stretch{told}'
    for name, m, wanted in (('h', step.values['h'], f), ('w', step.values['w'], None)):
        if ar.weight(m.coefficients) < TINY and (wanted is None or max(map(abs, wanted)) > 0.05):
            yield (f'the weight of {name} is only {ar.weight(m.coefficients)} units: it may be in '
                   'millimetres, and must be in units of 2^-20 mm')
    low, place = lowest(results[step.values['f' if root else 'g']], root)
    if low < (0.02 if root else 1 / 128):
        what = 'f, the number under the root,' if root else 'the divisor g'
        yield (f'{what} comes down to about {figures(low)} near x = {figures(place)}; it must stay well away from '
               'zero: take a shorter stretch or a larger scale')


def causes(job, checked):
    """Lines about a refused command, or about tests of an accepted job that fit badly."""
    lines = [f'result {outcome.result} is loaded with a weight of only {ar.weight(outcome.model.coefficients):,} '
             'units: it may be in millimetres, and must be in units of 2^-20 mm'
             for outcome in checked.outcomes if is_load(outcome.step) and outcome.model
             and outcome.model.degree and ar.weight(outcome.model.coefficients) < TINY]
    if checked.refusal in (2, 3, 5, 6, 7, 8, 17) and checked.outcomes:
        step = checked.outcomes[-1].step
        lines += tried(job, checked, step.number, lambda radius: True)
        if checked.refusal != 2 and is_test(step):
            lines += fit_lines(step, checked.results)
    for outcome in checked.outcomes:
        numbers = outcome.numbers
        if outcome.model is None or not numbers:
            continue
        if numbers['m'] > S // 4 or outcome.model.radius > 2000:
            at = outcome.step.number
            better = tried(job, checked, at, lambda radius: radius * 5 <= 3 * outcome.model.radius)
            better += fit_lines(outcome.step, checked.results)
            lines += [f'command {at}: {text}' for text in better]
            break
    for outcome in checked.outcomes:
        for kind, name in outcome.step.command.operands:
            m = outcome.step.values[name]
            if kind == 'block' and 0 < m.degree <= MAX_DEGREE and last_place(m) == m.degree - 1:
                lines.append(f'command {outcome.step.number}, block {name}: the coefficient at its degree '
                             f'{m.degree} is zero; if the degree byte holds the number of coefficients, '
                             'it must be one less (harmless otherwise)')
                break
        else:
            continue
        break
    return lines
