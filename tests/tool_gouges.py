"""Tests of what the tool says about gouging: over random stretches and crowns, with and without gouges, the verdict equals a dense
exact sampling of the loaded curves in the power basis; the stated depth is the distance at the named places; however the commands
of a path are written, it is recognised; and check, explain, solve and show say what was found, in the words of the examples.

  tool_gouges.py [--tool tools/ferruntzo] [--jobcheck target/bin/jobcheck] [--cases N] [--seed N]
                 [--plant curvature|side|radius|bounds]
"""

import argparse
import json
import os
import re
import subprocess
import sys
import tempfile
from collections import Counter
from fractions import Fraction
from math import cos, isqrt, pi, sin
from operator import mul
from pathlib import Path
from random import Random

ROOT = Path(__file__).resolve().parent.parent
sys.path.insert(0, str(ROOT / 'tools'))

from ferruntzo_tool import bernstein, exact, gouge, offset              # noqa: E402
from ferruntzo_tool import solve as solver                              # noqa: E402
from ferruntzo_tool.arithmetic import Refused, model, value             # noqa: E402
from ferruntzo_tool.curve import Piece, read_curve                      # noqa: E402
from ferruntzo_tool.exact import Series                                 # noqa: E402
from ferruntzo_tool.tables import MAX_DEGREE, S                         # noqa: E402
from path_forms import FORMS                                            # noqa: E402
from power_basis import power_form                                      # noqa: E402
from tool_solve import Options, random_series                           # noqa: E402

STEPS = 1 << 10                 # samples on each side of the middle of a stretch
RATIOS = (0.5, 0.8, 0.95, 0.99, 0.999, 1.001, 1.01, 1.05, 1.3, 2.5)     # of the bur's radius to the margin's least one
wrong = []


def expect(name, good, told=''):
    if not good:
        wrong.append(name)
        print(f'WRONG  {name} {told}')


# ---- The loaded curves sampled exactly, from nothing but the loads, the bur and the side ----

class Sampled:
    """x, y, normal and their derivatives as powers; values at p/q are times q^MAX_DEGREE."""

    def __init__(self, loads, bur, side):
        rows = [power_form(m.coefficients) + [0] * (MAX_DEGREE + 1) for m in loads]
        self.rows = [row[:MAX_DEGREE + 1] for row in rows]
        self.slopes = [[k * c for k, c in enumerate(row)][1:] for row in self.rows]
        self.bur, self.side = bur, 1 if side == 'left' else -1

    def powers(self, p, q):
        return [p ** k * q ** (MAX_DEGREE - k) for k in range(MAX_DEGREE + 1)]

    def forward(self, p, q):
        """Whether the path goes forward at p/q: (m + r·n/|n|)' times the direction of travel, which is the normal turned back."""
        powers = self.powers(p, q)
        nx, ny = (sum(map(mul, row, powers)) for row in self.rows[2:])
        dx, dy, dnx, dny = (sum(map(mul, row, powers)) for row in self.slopes)
        travel_x, travel_y = self.side * ny, -self.side * nx
        along, turn = dx * travel_x + dy * travel_y, dnx * travel_x + dny * travel_y
        return along > 0 and (turn >= 0 or along * along * (nx * nx + ny * ny) > (self.bur * q ** MAX_DEGREE * turn) ** 2)

    def forward_everywhere(self):
        return all(self.forward(p, STEPS) for p in range(-STEPS, STEPS + 1))

    def nearer(self, u, v):
        """By how many units the path at u is nearer to the margin at v than the bur's radius, to 2^-60."""
        def at(i, x):
            return Fraction(sum(map(mul, self.rows[i], self.powers(*x.as_integer_ratio()))), x.denominator ** MAX_DEGREE)
        nx, ny = at(2, u), at(3, u)
        length = root(nx * nx + ny * ny)
        return self.bur - root(sum((at(i, u) + self.bur * n / length - at(i, v)) ** 2 for i, n in ((0, nx), (1, ny))))


def root(number):
    return Fraction(isqrt(int(number * (1 << 160))), 1 << 80)


# ---- Random stretches ----

def tightest(stretch, side):
    """About the largest curvature of a margin towards a side, per mm."""
    (_, _, x, y), = stretch.parts
    slopes = [[c / d.scale / S for c in d.row] for d in map(exact.derivative, (x, y))]
    bends = [[c / d.scale / S for c in d.row] for d in (exact.derivative(exact.derivative(s)) for s in (x, y))]
    found = []
    for i in range(401):
        t = i / 200 - 1
        dx, dy, ddx, ddy = (value(row, t) for row in slopes + bends)
        found.append((dx * ddy - dy * ddx) / (dx * dx + dy * dy) ** 1.5)
    return max(found) if side == 'left' else -min(found)


def random_stretches(rng, folder, count):
    """Stretches of margins, each with a bur about as large as the margin's least radius of curvature; some on an own interval."""
    path = folder / 'curve.json'
    while count:
        given, side = random_series(rng, (6, 14, 24)), rng.choice(('left', 'right'))
        if rng.random() < 0.3:
            low = rng.randrange(-50 * S, 50 * S)
            given['series_mm'][0]['interval_units'] = [low, low + rng.randrange(S, 9 * S)]
        path.write_text(json.dumps(given))
        run = read_curve(str(path)).runs[0]
        stretch = solver.cut_out(run, run[0].low, run[0].high)
        curvature = tightest(stretch, side)
        bur = Fraction(round(rng.choice(RATIOS) / max(curvature, 0.05) * 10 ** 6), 10 ** 6)
        if bur > 20:
            continue
        try:
            yield solver.solve_stretch(stretch, bur, side, rng.choice((None, None, 12, 16))), side
        except Refused:
            continue
        count -= 1


def random_crowns(rng, folder, count):
    """The stretches of closed margins through points, some with a groove that is tighter than the bur."""
    path = folder / 'crown.json'
    for i in range(count):
        depth, width, start = rng.uniform(0.1, 0.5) * (i % 2), rng.uniform(0.1, 0.25), rng.uniform(0, 6)
        points = []
        for k in range(90):
            a = 2 * pi * k / 90
            away = (a - start + pi) % (2 * pi) - pi
            r = 4 + 0.2 * cos(3 * a + start) - depth * 2.718 ** -(away / width) ** 2
            points.append([round(r * cos(a), 6), round(0.9 * r * sin(a), 6)])
        path.write_text(json.dumps({'bur_mm': 0.6, 'side': 'right', 'closed': True, 'points_mm': points}))
        curve = read_curve(str(path))
        yield from ((solved, 'right') for solved in solver.solve(curve, curve.bur, curve.side, Options))


def agreed(cases, counts):
    """The verdict on each stretch against the samples; the search by itself, without a good guess, as well."""
    for solved, side in cases:
        finding, = gouge.findings(solved.job.ended())
        sampled = Sampled(solved.loads, solved.results[0].coefficients[0], side)
        good = sampled.forward_everywhere()
        told = f'bur {float(solved.bur)} {side}: {finding.state} at {finding.at}, sampled {good}'
        expect('the verdict is that of the samples', finding.state == (gouge.FORWARD if good else gouge.TURNS), told)
        counts[finding.state, finding.parts > 1] += 1
        if finding.state == gouge.TURNS:
            expect('it turns back at the named place', not sampled.forward(*finding.at.as_integer_ratio()), told)
            expect('the place is among those named', any(low <= finding.at <= high for low, high in finding.back), told)
            nearer = sampled.nearer(*finding.deepest)
            expect('the depth is not above the true one', finding.depth <= nearer < finding.depth + 2, f'{told}: {float(nearer)}')
        start = next((p for p in range(-STEPS, STEPS + 1, 7) if sampled.forward(p, STEPS)), None)
        if start is not None:
            state, at, parts = gouge.judged(gouge.Inequality(finding.path), [start / STEPS])
            expect('the search by itself', state == finding.state and (state == gouge.FORWARD) == (at is None), f'{told}: {state}')
            counts['alone', state, parts > 1] += 1


def random_row(rng, first, fall):
    return [int(rng.uniform(-1, 1) * first * fall ** k) for k in range(rng.choice((0, 1, 3, 7, 16, 32)) + 1)]


def odd_loads(rng, count):
    """Margins and normals that have nothing to do with each other, with any bur: what is said is true, and the search ends."""
    states = Counter()
    for _ in range(count):
        fall = rng.choice((0.3, 0.6, 0.8, 0.9))
        rows = [random_row(rng, size * S, fall) for size in (3, 3, 2, 2)]
        rows[2 + rng.randrange(2)][0] += rng.choice((-6, -3, 3, 6)) * S
        bur, job = rng.choice((rng.randrange(-5 * S, 5 * S), rng.randrange(1, S), 1, 0)), solver.Job()
        try:
            solver.add_loads(job, job.load(model([bur])), list(map(model, rows)))
        except Refused:
            continue
        for finding in gouge.findings(job.ended()):
            states[finding.state] += 1
            turned = [[c if bur > 0 else -c for c in row] for row in rows[2:]]
            sampled = Sampled(list(map(model, rows[:2] + turned)), abs(bur), 'left')
            # The side is that of the middle; there powers are their first coefficients.
            (dx, dy), (nx, ny) = ([row[0] for row in pair] for pair in (sampled.slopes[:2], sampled.rows[2:]))
            sampled.side = 1 if dx * ny >= dy * nx else -1
            if finding.state == gouge.TURNS:
                expect('odd loads that turn back', not sampled.forward(*finding.at.as_integer_ratio()), str(rows))
            elif finding.state != gouge.UNDECIDED:
                expect('odd loads that do not', all(sampled.forward(p, 100) for p in range(-100, 101)), str(rows))
            expect('words about odd loads', all(gouge.cautions([finding])) and gouge.remark([finding]).startswith('   CAUTION')
                   == (finding.state != gouge.FORWARD))
    expect('odd loads', min(states[gouge.TURNS], states[gouge.SKEWED]) >= 3, str(states))


def few_parts(cases):
    """Where the parts do not suffice it is said that nothing could be shown; the search ends, whatever their number."""
    former, states = gouge.MOST_PARTS, Counter()
    for solved, _ in cases:
        wanted, = gouge.findings(solved.job.ended())
        for most in range(1, 8) if wanted.state == gouge.FORWARD and wanted.parts > 1 else ():
            gouge.MOST_PARTS = most
            finding, = gouge.findings(solved.job.ended())
            states[finding.state] += 1
            expect('too few parts', finding.state == gouge.UNDECIDED or (most > 1 and finding[:2] == wanted[:2]
                                                                         and finding.parts == wanted.parts), str(finding))
    gouge.MOST_PARTS = former
    expect('few parts', states[gouge.UNDECIDED] >= 20, str(states))


# ---- However the commands are written ----

def recognised(cases):
    """Every form of the commands gives the same verdict; a root of something else is not recognised."""
    seen = Counter()
    for solved, side in cases:
        wanted, = gouge.findings(solved.job.ended())
        for form in FORMS:
            for roots in (solver.ROOTS[:1], solver.ROOTS[1:]):
                job = solver.Job(roots)
                try:
                    path = form(job, job.load(solver.bur_load(solved.bur, solved.stretch.interval)), solved.loads)
                except Refused:
                    continue
                found = gouge.findings(job.ended())
                expect('a form is recognised', [(f.path.results, f.state) for f in found] == [(tuple(path), wanted.state)],
                       f'{form.__name__} {side}: {[(f.path.results, f.state) for f in found]} {wanted.state}')
                seen[form.__name__, job.used[0]] += 1
        job = solver.Job()
        bur, x, y, nx, ny = map(job.load, (solver.bur_load(solved.bur, solved.stretch.interval), *solved.loads))
        length = job.root(job.add(job.multiply(nx, nx), job.add(job.multiply(ny, ny), bur)))
        for at, n in ((x, nx), (y, ny)):
            job.add(at, job.multiply(bur, job.quotient(n, length)))
        expect('another length is not recognised', not offset.paths(job.ended()))
    expect('forms', len(seen) >= 2 * len(FORMS) - 1, str(seen))


def tangent():
    """A bur that just fits, so that 1 - r·κ is zero at one place: it is said that nothing could be shown, or that it turns back.
    With a normal that is not at a right angle to the margin the path is no offset, and that is said."""
    x, y = Series([0, 3 * S // 2], 1), Series([S // 8 + 9 * S // 16, -6 * S // 8, 9 * S // 16], 1)
    stretch = solver.cut_out([Piece(0, 1 << 20, x, y)], 0, 1 << 20)
    for bur, side, state in ((1, 'left', gouge.UNDECIDED), (Fraction(999, 1000), 'left', gouge.FORWARD),
                             (9, 'right', gouge.FORWARD), (Fraction(1001, 1000), 'left', gouge.TURNS)):
        solved = solver.solve_stretch(stretch, Fraction(bur), side)
        finding, = gouge.findings(solved.job.ended())
        expect('a bur that just fits', finding.state == state, f'{bur} {side}: {finding.state}')
        if state == gouge.UNDECIDED:
            expect('what could not be shown is a caution', abs(finding.at - Fraction(1, 3)) < 1e-5
                   and 'could not be shown' in gouge.cautions([finding])[0], str(finding))
    solved = solver.solve_stretch(stretch, Fraction(1, 2), 'left')
    loads = [*solved.loads[:2], model([-S // 2]), model([3 * S // 2])]
    job = solver.Job()
    solver.add_loads(job, job.load(solver.bur_load(Fraction(1, 2))), loads)
    finding, = gouge.findings(job.ended())
    expect('a normal that is none', finding.state == gouge.SKEWED and 'right angle' in gouge.cautions([finding])[0], str(finding))


# ---- The commands ----

def stories(run, folder):
    """The examples: a grooved crown, a noisy scan, and a bur of 4 mm within the margin."""
    rows = (('groove', ('groove.txt', '--bur-mm', '0.6', '--side', 'right'), 16, 12, '35.2'),
            ('noisy_scan', ('noisy_scan.txt', '--bur-mm', '0.6', '--side', 'right'), 86, 77, '15.0'),
            ('margin', ('margin.json', '--bur-mm', '4.0', '--side', 'left'), 4, 4, '954'))
    for name, (curve, *more), stretches, turning, depth in rows:
        out = folder / name
        done = run('solve', ROOT / 'examples' / curve, *more, '-o', out)
        expect('solve says that the path turns back', done.returncode == 0 and f'turns back on {turning} of {stretches} stretches'
               in done.stdout and f'by at least {depth} µm' in done.stdout, f'{name}: {done.stdout[-600:]}')
        for strict, status in (((), 0), (('--strict',), 1)):
            done = run('check', out, '--quiet', *strict)
            count = done.stdout.count('CAUTION: the path of results 13, 14 turns back')
            expect('check cautions', done.returncode == status and count == turning and f'{turning} with a caution' in done.stdout, f'{name} {status}: {done.stdout[-300:]}')
    told = run('solve', ROOT / 'examples/margin.json').stdout
    expect('a path that goes forward', 'CAUTION' not in told and 'turns back on no stretch' in told, told)


def words(run, folder):
    """The words of check, explain and show for a path that turns back, one that does not, and a job without a path."""
    groove, good, none = (ROOT / 'examples' / f'{name}.job' for name in ('groove', 'stretch', 'root_of_4'))
    place = re.compile(r'turns back from about x = (\S+) to (\S+): the bur of 0\.6 mm cuts into the margin, by at least 35\.2 µm at '
                       r'x = \S+ \(\S+, \S+ mm\)')
    page = folder / 'page.html'
    for job, wanted in ((groove, place), (good, re.compile('[Tt]he path does not turn back')),
                        (none, re.compile('[Gg]ouging was not looked at'))):
        said = {name: run(name, job).stdout for name in ('check', 'explain')}
        run('show', job, '-o', page)
        said['show'] = page.read_text(encoding='utf-8')
        for name, text in said.items():
            expect('what is said about gouging', len(wanted.findall(text)) == 1, f'{name} {job.name}: {text[-900:]}')
            expect('a caution', ('CAUTION' in text) == (job == groove), f'{name} {job.name}')
    for job, statuses in ((groove, (0, 1)), (good, (0, 0)), (none, (0, 0))):
        found = run('check', job).returncode, run('check', job, '--strict').returncode
        expect('statuses', found == statuses, f'{job.name} {found}')
    said = run('check', ROOT / 'examples/stretch32.job').stdout
    expect('two paths', 'the path of results 13, 14 and the path of results 27, 28 do not turn back; results 29 to 31 were not '
           'looked at' in said, said)
    # On an own interval the place is named there.
    time = folder / 'time'
    run('solve', ROOT / 'examples/machine_time.json', '--bur-mm', '6', '--side', 'left', '-o', time)
    run('solve', ROOT / 'examples/machine_time.json', '--bur-mm', '6', '--side', 'right', '-o', folder / 'right')
    said = run('check', time, folder / 'right').stdout
    places = [float(x) for pair in re.findall(r'from about x = (\S+) to ([\d.]+)', said) for x in pair]
    expect('places on machine time', places and all(12 < x < 20 for x in places), f'{places} {said[-500:]}')


# ---- Planted faults ----

class Planted(gouge.Inequality):
    """The inequality with a fault."""
    fault = None

    def __init__(self, path):
        super().__init__(path)
        if self.fault == 'curvature':
            self.b = Series([-c for c in self.b.row], self.b.scale)
        elif self.fault == 'side':
            # Every normal is taken for one on the left.
            (mx, my), (nx, ny) = ([part.series for part in pair] for pair in (path.margin, path.normal))
            left = exact.plus(exact.times(exact.derivative(mx), ny), exact.times(exact.derivative(my), nx), -1)
            if exact.value(left, 0, 1)[0] < 0:
                self.a, self.b = (Series([-c for c in s.row], s.scale) for s in (self.a, self.b))
        elif self.fault == 'radius':
            self.u = Series([4 * c for c in self.u.row], self.u.scale)
        self.floats = [[c / s.scale for c in s.row] for s in (self.a, self.b, self.u)]


def plant(fault):
    if fault == 'bounds':
        bernstein.lower = lambda row, lower=bernstein.lower: [max(lower(row))]
    else:
        Planted.fault, gouge.Inequality = fault, Planted


def main():
    parser = argparse.ArgumentParser()
    parser.add_argument('--tool', default=str(ROOT / 'tools/ferruntzo'))
    parser.add_argument('--jobcheck', default=str(ROOT / 'target/bin/jobcheck'))
    parser.add_argument('--cases', type=int, default=60)
    parser.add_argument('--seed', type=int, default=1)
    parser.add_argument('--plant', choices=('curvature', 'side', 'radius', 'bounds'), help='spoil what the tool computes')
    options = parser.parse_args()
    environment = {**os.environ, 'FERRUNTZO_JOBCHECK': options.jobcheck, 'PYTHONDONTWRITEBYTECODE': '1'}

    def run(*given):
        return subprocess.run([options.tool, *map(str, given)], stdin=subprocess.DEVNULL, capture_output=True,
                              env=environment, check=False, encoding='utf-8', errors='replace')

    rng, counts = Random(options.seed), Counter()
    if options.plant:
        plant(options.plant)
    with tempfile.TemporaryDirectory() as name:
        folder = Path(name)
        cases = list(random_stretches(rng, folder, options.cases))
        agreed(cases, counts)
        if not options.plant:
            agreed(random_crowns(rng, folder, 4), counts)
            recognised(cases[:5])
            odd_loads(rng, 40)
            few_parts(cases)
            tangent()
            stories(run, folder)
            words(run, folder)
            for kind in ((gouge.FORWARD, True), (gouge.TURNS, False), ('alone', gouge.TURNS, True), ('alone', gouge.FORWARD, True)):
                expect('kinds of stretches', counts[kind] >= 12, f'{kind}: {counts}')
    print(f'gouges: {dict(counts)}, {len(wrong)} wrong')
    sys.exit(1 if wrong else 0)


if __name__ == '__main__':
    main()
