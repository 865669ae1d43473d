"""Tests of `ferruntzo solve`: every radius covers the error against the margin itself, sampled in exact
arithmetic, for each shipped stretch and for random margins; mirrored margins give mirrored paths; a root is the command with
the smaller radius; a curve on its own interval gives stretches on it (tool_intervals.py); edition 2 leaves kept degrees open
(tool_editions.py); and curves that cannot be used are named.

  tool_solve.py [--tool tools/ferruntzo] [--jobcheck target/bin/jobcheck] [--samples K] [--seed N]
"""

import argparse
import json
import os
import subprocess
import sys
import tempfile
from fractions import Fraction
from math import cos, pi, sin
from pathlib import Path
from random import Random

ROOT = Path(__file__).resolve().parent.parent
sys.path.insert(0, str(ROOT / 'tools'))

import oracle                                                           # noqa: E402
import tool_editions                                                    # noqa: E402
import tool_intervals                                                   # noqa: E402
from ferruntzo_tool import arithmetic as ar                             # noqa: E402
from ferruntzo_tool import covered, exact                               # noqa: E402
from ferruntzo_tool import solve as solver                              # noqa: E402
from ferruntzo_tool.arithmetic import Refused, model                    # noqa: E402
from ferruntzo_tool.curve import read_curve                             # noqa: E402
from ferruntzo_tool.reading import Checked, split                       # noqa: E402
from ferruntzo_tool.tables import MAX_DEGREE, S, is_load                # noqa: E402

wrong = []


def expect(name, good, told=''):
    if not good:
        wrong.append(name)
        print(f'WRONG  {name} {told}')


# ---- The exact arithmetic of series, against fractions ----

def value(row, scale, x):
    one = two = Fraction(0)
    for c in reversed(row[1:]):
        one, two = 2 * x * one - two + c, one
    return (x * one - two + row[0]) / scale


def series(rng):
    for degree in (0, 1, 2, 7, 24):
        s = exact.Series([rng.randrange(-10 ** 6, 10 ** 6) for _ in range(degree + 1)], rng.randrange(1, 50))
        for _ in range(4):
            low, high = sorted(rng.sample(range(-100, 101), 2))
            part = exact.restricted(s, high - low, high + low, 200)
            x = Fraction(rng.randrange(-50, 51), 50)
            at = Fraction(high - low, 200) * x + Fraction(high + low, 200)
            expect('restricted', value(part.row, part.scale, x) == value(s.row, s.scale, at))
            top, bottom = exact.value(s, x.numerator, x.denominator)
            expect('value', Fraction(top, bottom) == value(s.row, s.scale, x))
            step = Fraction(1, 10 ** 8)
            slope = (value(s.row, s.scale, x + step) - value(s.row, s.scale, x - step)) / (2 * step)
            made = exact.derivative(s)
            expect('derivative', abs(slope - value(made.row, made.scale, x)) < 10 ** -3)


# ---- Shipped stretches ----

def shipped(samples):
    """The error of each shipped stretch against its margin, in units, beside its radius."""
    margin, accident, time = (read_curve(str(ROOT / 'examples' / name)) for name in (
        'margin.json', 'accident.json', 'machine_time.json'))
    run = margin.runs[0]
    middle = solver.halves(run, run[0].low, run[0].high)
    first = solver.cut_out(run, run[0].low, middle)
    second = solver.cut_out(run, middle, run[0].high)
    run = accident.runs[0]
    whole = solver.cut_out(run, run[0].low, run[0].high)
    passed = solver.cut_out(time.runs[0], time.runs[0][0].low, time.runs[0][0].high)
    rows = [('stretch', margin, first, (13, 14), True), ('stretch32', margin, first, (13, 14), True),
            ('stretch32', margin, second, (27, 28), True), ('accident_covered', accident, whole, (13, 14), True),
            ('accident_degree_12', accident, whole, (13, 14), True), ('accident', accident, whole, (13, 14), False),
            ('stretch_tight', margin, first, (13, 14), True), ('accident_tight', accident, whole, (13, 14), True),
            ('machine_time', time, passed, (13, 14), True)]
    for name, curve, stretch, results, good in rows:
        job = (ROOT / 'examples' / f'{name}.job').read_bytes()
        models = oracle.check_job(job)[2]
        solved = solver.Solved(stretch, None, Checked(job).results, [], 0, curve.bur, 1 if curve.side == 'left' else -1)
        error, radius = solver.verified(solved, samples, results), max(models[i].radius for i in results)
        print(f'{name} {results}: radius {radius}, error against the margin {error:.1f} units')
        expect('radius of a shipped stretch', (error <= radius) == good, name)
        if not good:
            expect('the accident is 49 µm off', 49 < error * 1000 / S < 50, str(error))


# ---- Random margins ----

def random_series(rng, degrees=(6, 14, 40)):
    """A piece of a wavy oval as a series, with decimals that are no whole units."""
    degree, low, width = rng.choice(degrees), rng.uniform(0, 6), rng.uniform(0.2, 1.4)
    waves = [(rng.uniform(-0.06, 0.06), rng.randrange(2, 9), rng.uniform(0, 6)) for _ in range(3)]

    def point(a):
        r = 4 * (1 + sum(size * cos(n * a + start) for size, n, start in waves))
        return r * cos(a), 0.85 * r * sin(a)

    count = 64
    points = [point(low + width * cos(pi * (i + 0.5) / count)) for i in range(count)]

    def coefficient(k, axis):
        total = sum(points[i][axis] * cos(k * pi * (i + 0.5) / count) for i in range(count))
        return round((2 - (k == 0)) / count * total, 9)

    rows = [[coefficient(k, axis) for k in range(degree + 1)] for axis in (0, 1)]
    return {'bur_mm': round(rng.uniform(0.15, 1.25), 3), 'side': rng.choice(('left', 'right')),
            'series_mm': [{'x': rows[0], 'y': rows[1]}]}


def random_points(rng):
    count, closed = rng.randrange(24, 60), rng.random() < 0.5
    waves = [(rng.uniform(-0.03, 0.03), rng.randrange(2, 6), rng.uniform(0, 6)) for _ in range(2)]
    points = []
    for i in range(count):
        a = (2 * pi if closed else 4) * (i + rng.uniform(-0.2, 0.2)) / count
        r = 4.2 * (1 + sum(size * cos(n * a + start) for size, n, start in waves))
        points.append([round(r * cos(a), 5), round(0.9 * r * sin(a), 5)])
    return {'bur_mm': 0.5, 'closed': closed, 'points_mm': points}


def load_error(solved, samples):
    """Whether x and y of the margin keep within the loads at sampled points."""
    for i in range(samples + 1):
        p, q, stretch = 2 * i - samples, samples, solved.stretch
        twice = (stretch.low + stretch.high) * q + p * (stretch.high - stretch.low)
        low, high, *rows = next(part for part in stretch.parts if 2 * q * part[0] <= twice <= 2 * q * part[1])
        for row, load in zip(rows, solved.loads):
            true = Fraction(*exact.value(row, twice - (low + high) * q, (high - low) * q))
            have = Fraction(*exact.value(exact.Series(load.coefficients[:load.degree + 1], 1), p, q))
            if abs(true - have) > load.radius:
                return False
    return True


class Options:
    degree = scale = stretches = None
    only_0x21 = False
    edition = 1
    limit_um = Fraction(1, 2)


# ---- Which command a root is ----

def radius_by(test, f, h, w):
    try:
        return test(f, h, w)['radius']
    except Refused:
        return None


def chosen_root(f, roots=solver.ROOTS):
    """The command of a root, and its radius by 0x21 and by 0x22 for the candidates that were found."""
    job = solver.Job(roots)
    job.root(job.load(f))
    step = split(job.ended())[0][-2]
    radii = [radius_by(test, f, step.values['h'], step.values['w']) for test in (ar.root, ar.tight_root)]
    expect('the tool checks what it made', Checked(job.ended()).text() == job.text() and job.used == [step.command.name])
    expect('the radius is that of the command', job.results[-1].radius == radii[step.command.name == 'tight_root'])
    return step.command.name, *radii


def chosen_roots(rng):
    """0x22 where its radius is the smaller, 0x21 where the radii are equal or 0x22 refuses."""
    for f in (model([4 * S]), model([S]), model([9 * S, 0, 0])):                # exact: both have radius 0
        expect('equal radii: 0x21', chosen_root(f) == ('root', 0, 0), str(chosen_root(f)))
    for radius in (40 * S, 60 * S, 80 * S):                                     # the least r would be above S
        name, by_21, by_22 = chosen_root(model([224 * S], radius))
        expect('0x22 refuses: 0x21', name == 'root' and by_21 is not None and by_22 is None, f'{name} {by_21} {by_22}')
    for _ in range(20):
        row = [rng.randrange(3 * S, 8 * S)] + [rng.randrange(-S // 6, S // 6) for _ in range(rng.randrange(12))]
        f = model(row, rng.choice((0, 3, 500, 20000)))
        name, by_21, by_22 = chosen_root(f)
        expect('the smaller radius: 0x22', name == 'tight_root' and by_22 < by_21, f'{name} {by_21} {by_22}')
        former, only, _ = chosen_root(f, solver.ROOTS[:1])
        expect('0x22 is not allowed', former == 'root' and only > by_22, f'{former} {only} {by_22}')


def without_22(solved, curve):
    """The same stretch with no root by 0x22."""
    return solver.solve_stretch(solved.stretch, curve.bur, curve.side, roots=solver.ROOTS[:1])


def random_margins(rng, samples, folder, count):
    smaller = 0
    for i in range(count):
        path = folder / 'curve.json'
        path.write_text(json.dumps(random_series(rng) if i % 3 else random_points(rng)))
        curve = read_curve(str(path))
        for solved in solver.solve(curve, curve.bur, curve.side, Options):
            error = solver.verified(solved, samples)
            expect('radius of a random margin', error <= solver.final(solved), f'{error} {solver.final(solved)}')
            expect('radius of its loads', load_error(solved, samples))
            text = solved.job.text()
            expect('the oracle agrees', oracle.printed(solved.job.ended()) == text)
            former = without_22(solved, curve)
            expect('no root by 0x22', former.job.used == ['root'])
            expect('with 0x22 the radius is not larger', solver.final(solved) <= solver.final(former),
                   f'{solver.final(solved)} {solver.final(former)}')
            smaller += solver.final(solved) < solver.final(former)
    expect('with 0x22 the radius is smaller', smaller >= count, smaller)


def mirrored_margins(rng, folder, count):
    """A margin with x negated and the other side has the mirrored path: x negated, y and all radii as they were. Every
    coefficient is an odd number of half units, a tie."""
    path, stretches = folder / 'curve.json', 0
    for _ in range(count):
        piece = random_series(rng, (6, 14))['series_mm'][0]
        x, y = ([2 * int(c * S) + 1 for c in piece[axis]] for axis in 'xy')
        solved = []
        for row, side in ((x, 'left'), ([-n for n in x], 'right')):
            texts = [', '.join(f'{n / (2 * S):.21f}' for n in numbers) for numbers in (row, y)]
            path.write_text('{"series_mm": [{"x": [%s], "y": [%s]}]}' % tuple(texts))
            solved.append(list(solver.solve(read_curve(str(path)), Fraction(1, 2), side, Options)))
        for one, two in zip(*solved, strict=True):
            stretches += 1
            path_x, path_y = one.results[-2:]
            negated = path_x._replace(coefficients=[-c for c in path_x.coefficients])
            expect('a mirrored margin', two.results[-2:] == [negated, path_y] and two.job.text() == one.job.text())
    expect('mirrored margins', stretches >= count, stretches)
    print(f'mirrored margins: {stretches} stretches')


def padded(job):
    """The job with the degree byte of each load at 32, its coefficients as they were."""
    made = bytearray(job)
    for step in filter(is_load, split(job)[0]):
        made[step.offsets['model']] = MAX_DEGREE
    return bytes(made)


def cautions(rng, samples, folder, count):
    """A margin that was cut and loaded as exact gets a caution where the path is more than 2 µm off, whatever its
    degree bytes; a job whose radii cover the cut gets none."""
    path, covered_jobs, cut = folder / 'curve.json', 0, 0
    for _ in range(count):
        path.write_text(json.dumps(random_series(rng, (40,))))
        curve = read_curve(str(path))
        run = curve.runs[0]
        whole = solver.cut_out(run, run[0].low, run[0].high)
        solved = solver.solve_stretch(whole, curve.bur, curve.side)
        covered_jobs += 1
        for job in (solved.job.ended(), padded(solved.job.ended())):
            expect('a covered job gets no caution', not covered.cautions(job))
        for degree in (6, 8, 12, 16):
            rows = [exact.Series(exact.nearest(whole.parts[0][2 + axis], degree), 1) for axis in (0, 1)]
            job = solver.Job()
            bur = job.load(solver.bur_load(curve.bur))
            try:
                solver.add_stretch(job, bur, whole._replace(parts=[(whole.low, whole.high, *rows)]), curve.side)
            except Refused:
                continue
            error = solver.verified(solved._replace(results=job.results), samples)
            if error * 1000 > 2 * S:
                cut += 1
                for written in (job.ended(), padded(job.ended())):
                    expect('a cut job gets a caution', covered.cautions(written),
                           f'{error * 1000 / S} µm, degree {degree}')
    print(f'cautions: {covered_jobs} covered jobs, {cut} cut jobs')


# ---- The command ----

def commands(run, folder):
    examples = ROOT / 'examples'
    text, line = folder / 'curve.txt', folder / 'line.json'
    line.write_text('{"bur_mm": 0.3, "series_mm": [{"x": [0, 1], "y": [0]}]}')
    rows = [
        (0, '1 stretch,', 'solve', examples / 'accident.json', '--verify', '40', '-o', folder / 'out'),
        (0, ' 0x22 ', 'solve', examples / 'accident.json'),
        (0, ' 0x21 ', 'solve', examples / 'accident.json', '--only-0x21', '-o', folder / 'former'),
        (0, ' 0x21 ', 'solve', line),
        (1, 'BEYOND', 'solve', examples / 'accident.json', '--stretches', '1', '--degree', '12'),
        (0, '16 stretches,', 'solve', examples / 'margin.json', '--stretches', '4', '--limit-um', '0.02'),
        (0, 'against the margin itself', 'solve', examples / 'margin_points.txt', '--bur-mm', '0.6', '--verify', '10'),
        (0, 'largest radius 1 unit =', 'solve', line),
        (2, 'radius of the bur', 'solve', examples / 'margin_points.txt'),
        (2, 'cannot be read', 'solve', folder / 'nosuch'),
        (2, 'jobcheck', 'solve', examples / 'accident.json', '--jobcheck', folder / 'nosuch'),
    ]
    for status, words, *command in rows:
        done = run(*command)
        told = ' '.join(map(str, command))
        expect('status of solve', done.returncode == status, f'{told}: {done.returncode} {done.stderr[-300:]}')
        expect('words of solve', words in done.stdout + done.stderr,
               f'{told}: {done.stdout[-200:]} {done.stderr[-200:]}')
    for out, example in (('out', 'accident_tight'), ('former', 'accident_covered')):
        expect('jobs of solve are the examples', (folder / out / 'accident_0000.job').read_bytes()
               == (examples / f'{example}.job').read_bytes(), example)
    piece = '{"series_mm": [{"x": [%s], "y": [%s]}]}'
    bad = [
        ('{', 'no JSON'), ('{"points_mm": [[0, 0]]}', 'different points'), ('{"series_mm": [{"x": [1]}]}', '"y"'),
        ('{"burr": 1}', "unknown key 'burr'"), ('{"bur_mm": 1}', 'exactly one of'), ('1 2\n3', 'line 2'),
        ('1 2\nx y', 'line 2'), ('', 'different points'), ('[1]', 'line 1'), ('{"points_mm": 3}', 'list of [x, y]'),
        ('0 0\n1 0\n1 0\n2 1\n', 'less than 1 µm'), ('0 0\n900 0\n1 0\n2 1\n', 'beyond 200 mm'),
        ('{"side": "up", "series_mm": [{"x": [1, 1], "y": [1]}]}', '"side"'), (piece % ('900', '1'), '256 mm'),
        ('{"closed": "no", "points_mm": [[0, 0], [1, 0], [1, 1]]}', '"closed"'), (piece % ('1', '1'), 'does not move'),
        (piece % ('0, 0, 1', '0, 0, 1'), 'turn back'), (piece % ('NaN', '1'), 'no number'),
        (piece % ('"a"', '1'), 'no number'), (piece % ('1e999999999', '1'), 'no number'),
        (piece % ('9' * 6000, '1'), 'no number'), ('{"points_mm": [[true, 1]]}', 'no number'),
    ]
    for content, words in bad:
        text.write_text(content)
        done = run('solve', text, '--bur-mm', '0.5')
        expect('a bad curve', done.returncode == 2 and words in done.stderr and 'Traceback' not in done.stderr,
               f'{content}: {done.returncode} {done.stderr[-300:]}')


def written(run, folder):
    """The folder of the jobs holds those of the last run, or is as it was when a curve cannot be solved to its end."""
    out, margin = folder / 'jobs', ROOT / 'examples/margin.json'

    def jobs():
        return sorted((path.name, path.read_bytes()) for path in out.glob('*'))
    for stretches, count in ((4, 16), (1, 4)):
        run('solve', margin, '--stretches', stretches, '--limit-um', 'none', '-o', out)
        expect('as many jobs as stretches', len(jobs()) == count, f'{len(jobs())}, not {count}')
    other = out / 'margin_upper_0099.job'
    other.write_bytes(b'')
    before = jobs()
    run('solve', margin, '--stretches', 1, '--limit-um', 'none', '-o', out)
    expect('jobs of another curve are kept', jobs() == before)
    # The second piece turns back.
    bad = folder / 'margin.json'
    bad.write_text('{"bur_mm": 0.5, "series_mm": [{"x": [0, 1], "y": [0]}, {"x": [0, 0, 1], "y": [0, 0, 1]}]}')
    done = run('solve', bad, '-o', out)
    expect('an unsolvable stretch', done.returncode == 2 and f'{bad}: the stretch from' in done.stderr, done.stderr)
    expect('a failed run writes nothing', jobs() == before)
    done = run('solve', ROOT / 'examples/accident.json', '-o', bad)
    expect('a folder that is none', done.returncode == 2 and f'{bad}: cannot be written' in done.stderr, done.stderr)


def main():
    parser = argparse.ArgumentParser()
    parser.add_argument('--tool', default=str(ROOT / 'tools/ferruntzo'))
    parser.add_argument('--jobcheck', default=str(ROOT / 'target/bin/jobcheck'))
    parser.add_argument('--samples', type=int, default=60)
    parser.add_argument('--margins', type=int, default=18)
    parser.add_argument('--seed', type=int, default=1)
    options = parser.parse_args()
    environment = {**os.environ, 'FERRUNTZO_JOBCHECK': options.jobcheck, 'PYTHONDONTWRITEBYTECODE': '1'}

    def run(*words):
        return subprocess.run([options.tool, *map(str, words)], stdin=subprocess.DEVNULL, capture_output=True,
                              env=environment, check=False, encoding='utf-8', errors='replace')

    rng = Random(options.seed)
    series(rng)
    chosen_roots(Random(options.seed))
    shipped(options.samples)
    with tempfile.TemporaryDirectory() as name:
        random_margins(rng, 14, Path(name), options.margins)
        mirrored_margins(rng, Path(name), options.margins // 2)
        cautions(rng, 14, Path(name), options.margins // 2)
        tool_intervals.curves(expect, run, Path(name), Random(options.seed), random_series, 14, Options, options.margins)
        tool_editions.solved(expect, run, Path(name))
        commands(run, Path(name))
        written(run, Path(name))
    print(f'solve: {len(wrong)} wrong')
    sys.exit(1 if wrong else 0)


if __name__ == '__main__':
    main()
