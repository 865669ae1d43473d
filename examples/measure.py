"""Prints the measured tables of docs/FORMAT.md, section 'From a margin to a job', and the count of changed bits in
docs/MEANING.md. Nothing here is a test.

  measure.py [margin.json]
  measure.py --roots [margin.json]        instead: radii by 0x21 and by 0x22, of each root of the example jobs and of the
                                          stretches of the margin
  measure.py --intervals [curve.json]     instead: a curve on its own interval (machine_time.json) beside the same rescaled
                                          to -1..1: radii of the path and of an integral, evaluation at points of the interval
  measure.py --editions [--library=FILE] [margin.json]
                                          instead: degrees, radii and instructions of a check in edition 1 and in edition 2, of
                                          the example jobs with every kept degree left open and of the stretches of the margin;
                                          instructions by gcc and callgrind, of target/staticlib/libferruntzo.a unless named

Numbers are units of 2^-20 mm, of the worst stretch; errors are against the margin, at 13 points of each stretch.
"""

import re
import subprocess
import sys
import tempfile
from pathlib import Path
from random import Random

HERE = Path(__file__).resolve().parent
sys.path[:0] = [str(HERE.parent / 'tests'), str(HERE.parent / 'tools')]

import oracle as o                                                      # noqa: E402
from ferruntzo_tool import candidates, covered, exact, saving           # noqa: E402
from ferruntzo_tool import solve as solver                              # noqa: E402
from ferruntzo_tool.arithmetic import Refused, model, up                # noqa: E402
from ferruntzo_tool.curve import read_curve                             # noqa: E402
from ferruntzo_tool.reading import Checked, split                       # noqa: E402
from ferruntzo_tool.tables import BY_NAME, DEFAULT_KEPT, EDITIONS, MAX_DEGREE, S, Interval, is_root     # noqa: E402

NAMED = [word for word in sys.argv[1:] if not word.startswith('--')]
USUAL = 'machine_time.json' if '--intervals' in sys.argv else 'margin.json'
CURVE = read_curve(NAMED[0] if NAMED else str(HERE / USUAL))
SIGN = 1 if CURVE.side == 'left' else -1
POINTS = 12


def stretches(for_each):
    for run in CURVE.runs:
        ends = solver.uniform(run, for_each)
        for low, high in zip(ends, ends[1:]):
            yield solver.cut_out(run, low, high)


def worst(make, for_each, show):
    """What `show` says of all stretches made so, or the refusal."""
    try:
        return show([make(stretch) for stretch in stretches(for_each)])
    except Refused as refused:
        return f'refused with {refused.number}'


def path(solved):
    return max(map(solver.final, solved))


def line_radius(solved):
    return max(m.radius for one in solved for m in one.loads[:2])


def normal_radius(solved):
    return max(m.radius for one in solved for m in one.loads[2:])


def error(solved):
    return f'{max(solver.verified(one, POINTS) for one in solved):.1f}'


def plain(stretch, **more):
    return solver.solve_stretch(stretch, CURVE.bur, CURVE.side, **more)


def from_rounded(stretch, radius_of):
    """The normal as the derivative of the rounded x and y, with a radius of the caller's choice."""
    scale = max(solver.largest_scale(stretch, MAX_DEGREE), 0)
    x, y = (solver.covering(stretch, solver.plain(stretch, axis), MAX_DEGREE) for axis in (0, 1))

    def derived(m, axis, sign):
        made = exact.derivative(exact.Series(m.coefficients[:m.degree + 1], 1), sign << scale)
        return model(made.row, radius_of(m, scale, solver.derived(stretch, axis, scale, sign)[0][2], made))

    loads = [x, y, derived(y, 1, -SIGN), derived(x, 0, SIGN)]
    job = solver.Job()
    bur = job.load(solver.bur_load(CURVE.bur))
    solver.add_loads(job, bur, loads)
    return solver.Solved(stretch, job, job.results, loads, scale, CURVE.bur, SIGN)


def with_degrees(h_degree, w_degree):
    """In place of candidates.best: h and w cut to a degree, w's best one if none is named."""
    def best(test, answer, helper):
        h, row = candidates.in_units(candidates.projected(answer)[:h_degree + 1]), candidates.projected(helper)
        found = None
        for degree in candidates.HELPER_DEGREES if w_degree is None else (w_degree,):
            w = candidates.in_units(row[:degree + 1])
            try:
                numbers = test(h, w)
            except Refused as refused:
                error = refused
                continue
            if found is None or candidates.rank(numbers) < candidates.rank(found[2]):
                found = h, w, numbers
        if found is None:
            raise error
        return found
    return best


def largest_m(solved):
    found = (outcome.numbers['m'] for one in solved for outcome in Checked(one.job.ended()).outcomes if outcome.numbers)
    return f'{max(found) / S:.2g}'


def changed_bits(count):
    """Copies of stretch.job with one bit changed: accepted, of these beyond 2 µm, of these within it though the path
    is another by more than 2 µm."""
    job, rng, limit = (HERE / 'stretch.job').read_bytes(), Random(1), 2 * S // 1000
    paths = [m.coefficients for m in Checked(job).results[13:]]
    accepted = beyond = moved = 0
    for _ in range(count):
        spoiled, bit = bytearray(job), rng.randrange(8 * len(job))
        spoiled[bit // 8] ^= 1 << bit % 8
        checked = Checked(bytes(spoiled))
        if checked.accepted:
            accepted += 1
            far = max(sum(abs(u - v) for u, v in zip(m.coefficients, good))
                      for m, good in zip(checked.results[13:], paths))
            large = max(checked.results[i].radius for i in checked.last_results()) > limit
            beyond, moved = beyond + large, moved + (not large and far > limit)
    return accepted, beyond, moved


# ---- Roots by 0x21 and by 0x22 ----

def exchanged(job, name):
    """The job with every root the named command, its candidates as they are."""
    made = bytearray(job)
    for step in filter(is_root, split(job)[0]):
        made[step.offset] = BY_NAME[name].byte
    return bytes(made)


def largest_end(checked):
    return max(checked.results[i].radius for i in checked.last_results())


def share(small, large):
    return f'{small / large:.3f}' if large else ''


def roots_of_examples():
    """A row for the roots of each accepted example job that have the same radii; equal roots but for the command once."""
    print('| job | result | radius by 0x21 | by 0x22 | ratio | largest radius of the last results by 0x21 | by 0x22 | ratio |')
    print('|-|-|-|-|-|-|-|-|')
    seen = set()
    for path in sorted(HERE.glob('*.job')):
        job = path.read_bytes()
        former, tight = (Checked(exchanged(job, name)) for name in solver.ROOTS)
        operands = str([(former.results[step.values['f']], step.values) for step in former.makers if is_root(step)])
        if not Checked(job).accepted or former.job == tight.job or operands in seen:
            continue
        seen.add(operands)
        rows = {}
        for i, step in enumerate(former.makers):
            if is_root(step):
                rows.setdefault((former.results[i].radius, tight.results[i].radius), []).append(i)
        ends = largest_end(former), largest_end(tight)
        for (by_21, by_22), results in rows.items():
            print(f'| `{path.name}` | {covered.numbers_text(results)} | {by_21:,} | {by_22:,} | {share(by_22, by_21)} | '
                  f'{ends[0]:,} | {ends[1]:,} | {share(ends[1], ends[0])} |')


def root_radii(solved):
    return [m.radius for one in solved for m, step in zip(one.results, Checked(one.job.ended()).makers) if is_root(step)]


def roots_of_stretches():
    """The worst root and the worst path of all stretches, without 0x22 and with it."""
    print('| stretches | roots by 0x22 | worst root by 0x21 | with 0x22 | ratio | worst path by 0x21 | with 0x22 | ratio |')
    print('|-|-|-|-|-|-|-|-|')
    for n in (1, 2, 4, 8, 16, 32):
        former, tight = ([plain(s, roots=roots) for s in stretches(n)] for roots in (solver.ROOTS[:1], solver.ROOTS))
        used = sum(one.job.used.count('tight_root') for one in tight)
        ends = max(root_radii(former)), max(root_radii(tight)), path(former), path(tight)
        print(f'| {4 * n} | {used} of {4 * n} | {ends[0]:,} | {ends[1]:,} | {share(ends[1], ends[0])} | {ends[2]:,} | '
              f'{ends[3]:,} | {share(ends[3], ends[2])} |')


# ---- A curve on its own interval, and rescaled ----

def on_interval(m):
    """A result as a model of the oracle, on its own interval and on the standard one."""
    made = o.Model(m.degree, tuple(m.coefficients), m.radius, *m.interval)
    return made, made._replace(lower=-S, upper=S)


def integral_radii(m):
    """Radius of the integral on the interval; and of the rescaled one, times half the extent."""
    own, standard = on_interval(m)
    extent = own.upper - own.lower
    factor = o.constant(extent // 2, extent % 2)        # in units; half of an odd extent is rounded
    return o.integrate(own)[1].radius, o.multiply(o.integrate(standard)[1], factor, MAX_DEGREE)[1].radius


def half_width(bounds):
    return (bounds[2] - bounds[1]) / 2


def evaluations(m):
    """At whole points of the interval: the largest half width of the bounds there, and at the rescaled points, rounded."""
    own, standard = on_interval(m)
    extent = own.upper - own.lower
    points = [own.lower + extent * i // saving.POINTS for i in range(saving.POINTS + 1)]
    mapped = [o.near(S * (2 * p - own.lower - own.upper), extent) for p in points]
    return (max(half_width(o.evaluate(own, p)) for p in points),
            max(half_width(o.evaluate(standard, p)) for p in mapped))


def intervals():
    """A row for each count of stretches: the worst of all."""
    print('| stretches | path by 0x14 | rescaled, by 0x10 | integral of the length of the normal | rescaled, times half the '
          'extent | bounds of the path at its points | at rescaled points | which move it by, not covered |')
    print('|-|-|-|-|-|-|-|-|')
    for n in (1, 2, 4, 8, 16):
        solved = [plain(s) for s in stretches(n)]
        former = [Checked(saving.rescaled(one.job.ended())) for one in solved]
        integrals = [integral_radii(one.results[8]) for one in solved]
        bounds = [evaluations(m) for one in solved for m in one.results[-2:]]
        moved = max(map(saving.largest_point_error, solved))
        print(f'| {len(solved)} | {path(solved)} | {max(map(largest_end, former))} | {max(own for own, _ in integrals)} | '
              f'{max(other for _, other in integrals)} | ± {max(own for own, _ in bounds):.1f} | '
              f'± {max(other for _, other in bounds):.1f} | {float(moved):.1f} |')


def extents():
    """The integral of the same coefficients on intervals of other extents."""
    first = plain(next(stretches(1))).results[8]
    rows = [(k, *integral_radii(first._replace(interval=Interval(0, S << k if k > 0 else S >> -k)))) for k in range(-5, 6, 2)]
    print(f'| extent over S, of result 8 with degree {first.degree}, radius {first.radius} | integral on the interval | '
          'rescaled, times half the extent |')
    print('|-|-|-|')
    for k, own, other in rows:
        print(f'| 2^{k} | {own} | {other} |')


# ---- Editions 1 and 2 ----

LIBRARY = next((word.split('=', 1)[1] for word in sys.argv if word.startswith('--library=')),
               str(HERE.parent / 'target' / 'staticlib' / 'libferruntzo.a'))


def opened(job, edition):
    """The job as one of the edition, every kept degree left open."""
    made = bytearray(job)
    made[1] = edition
    for step in split(job)[0]:
        if 'kept' in step.values:
            made[step.offsets['kept']] = DEFAULT_KEPT
    return bytes(made)


def build_counter(folder):
    subprocess.run(['gcc', '-O2', f'-I{HERE.parent / "include"}', str(HERE / 'check_job.c'), LIBRARY, '-o', f'{folder}/check_job'],
                   check=True)


def instructions(job, folder):
    """Instructions of ferruntzo_check."""
    Path(folder, 'one.job').write_bytes(job)
    subprocess.run(['valgrind', '--tool=callgrind', '--toggle-collect=ferruntzo_check', f'--callgrind-out-file={folder}/counts',
                    f'{folder}/check_job', f'{folder}/one.job'], stdout=subprocess.DEVNULL, stderr=subprocess.DEVNULL, check=False)
    return int(re.search(r'^totals: (\d+)', Path(folder, 'counts').read_text(), re.M)[1])


def degrees(checked, chosen):
    return ', '.join(str(m.degree) for i, m in enumerate(checked.results) if chosen(i))


def products_of(checked):
    return degrees(checked, lambda i: checked.makers[i].command.name == 'multiply')


def ends_of(checked):
    return degrees(checked, lambda i: i in checked.last_results())


def pair(values):
    one, two = values
    return f'{one} | {two}' if isinstance(one, str) else f'{one:,} | {two:,} | {share(two, one)}'


def editions_of_examples(folder):
    """A row for each accepted example job of edition 1 with a product; its candidates as they are."""
    print('| job | degrees of the products, edition 1 | edition 2 | degrees of the last results, edition 1 | edition 2 | '
          'their largest radius, edition 1 | edition 2 | ratio | instructions, edition 1 | edition 2 | ratio |')
    print('|-|-|-|-|-|-|-|-|-|-|-|')
    for path in sorted(HERE.glob('*.job')):
        job = path.read_bytes()
        both = [Checked(opened(job, edition)) for edition in EDITIONS]
        if job[1] != 1 or not Checked(job).accepted or not products_of(both[0]):
            continue
        if not both[1].accepted:
            print(f'| `{path.name}` | {products_of(both[0])} | refused with {both[1].refusal} at command {both[1].command} |')
            continue
        rows = (list(map(products_of, both)), list(map(ends_of, both)), list(map(largest_end, both)),
                [instructions(checked.job, folder) for checked in both])
        print(f'| `{path.name}` | {" | ".join(map(pair, rows))} |')


def editions_of_stretches(folder):
    """The stretches as `solve` makes them for each edition, kept degrees of edition 1 stated: the worst path and sums."""
    print('| stretches | largest degree of a square, edition 1 | edition 2 | ratio | worst path, edition 1 | edition 2 | ratio | '
          'instructions of all, edition 1 | edition 2 | ratio |')
    print('|-|-|-|-|-|-|-|-|-|-|')
    for n in (1, 2, 4, 8, 16):
        made = [[plain(s, edition=edition) for s in stretches(n)] for edition in EDITIONS]
        rows = ([max(m.degree for one in solved for m in one.results[5:7]) for solved in made], list(map(path, made)),
                [sum(instructions(one.job.ended(), folder) for one in solved) for solved in made])
        print(f'| {len(made[0])} | {" | ".join(map(pair, rows))} |')


def editions():
    with tempfile.TemporaryDirectory() as folder:
        build_counter(folder)
        editions_of_examples(folder)
        print()
        editions_of_stretches(folder)


def main():
    if '--editions' in sys.argv:
        return editions()
    if '--intervals' in sys.argv:
        intervals()
        print()
        return extents()
    if '--roots' in sys.argv:
        roots_of_examples()
        print()
        return roots_of_stretches()
    print('changed bits: accepted, beyond 2 µm, within it and moved', changed_bits(1500))
    print('stretches: normal rounded last: its radius, path, error; derivative of the rounded series, radius 0: path, '
          'error; with the radius that covers it: path; with k²/2: path')
    for n in (1, 2, 4, 8, 32):
        ways = [lambda *_: 0, lambda m, k, true, made: exact.distance(true, exact.Series(made.row, 1)),
                lambda m, k, true, made: up(sum(j * j for j in range(m.degree + 1)) << k, 2)]
        rows = [worst(lambda s: from_rounded(s, way), n, lambda r: (path(r), error(r))) for way in ways]
        print(4 * n, worst(plain, n, lambda r: (normal_radius(r), path(r), error(r))), rows[0], rows[1][0], rows[2][0])
    print('stretches: path with K = 0; path, K and error scaled')
    for n in (1, 2, 4, 8, 16, 32):
        print(4 * n, worst(lambda s: plain(s, scale=0), n, path),
              worst(plain, n, lambda r: (path(r), sorted({one.scale for one in r}), error(r))))
    print('degree of the loads: their radii, path (8 stretches)')
    for degree in (6, 8, 10, 12, 16, 32):
        print(degree, worst(lambda s: plain(s, degree=degree), 2, lambda r: (line_radius(r), normal_radius(r), path(r))))
    best = candidates.best
    print('degree of h: path (8 stretches)')
    for degree in (6, 8, 10, 12, 14, 16, 32):
        candidates.best = with_degrees(degree, None)
        print(degree, worst(plain, 2, path))
    print('degree of w: m/S, path (4 stretches)')
    for degree in (0, 1, 2, 6, 12, 32):
        candidates.best = with_degrees(MAX_DEGREE, degree)
        print(degree, worst(plain, 1, lambda r: (largest_m(r), path(r))))
    candidates.best = best
    print('d of the squares: path (8 stretches)')
    for kept in (12, 16, 20, 24, 28, 32):
        print(kept, worst(lambda s: plain(s, kept=kept), 2, path))


if __name__ == '__main__':
    main()
