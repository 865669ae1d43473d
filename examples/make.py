"""Makes the example jobs, and beside each the text the program prints for it.

  make.py [folder]        default: the folder of this file

The stretches are made with the reference solver (tools/ferruntzo solve) from margin.json, accident.json,
machine_time.json and groove.txt; tests/oracle.py, which shares nothing with it, gives the texts.
"""

import sys
from fractions import Fraction
from pathlib import Path

HERE = Path(__file__).resolve().parent
sys.path[:0] = [str(HERE.parent / 'tests'), str(HERE.parent / 'tools')]

import jobs                                                             # noqa: E402
import oracle as o                                                      # noqa: E402
from candidates import from_samples, quotient_candidates, root_candidates, samples  # noqa: E402
from cases import on                                                    # noqa: E402
from examples_of_01 import example_job                                  # noqa: E402
from ferruntzo_tool import exact                                        # noqa: E402
from ferruntzo_tool import solve as solver                              # noqa: E402
from ferruntzo_tool.curve import read_curve                             # noqa: E402
from jobs import Builder                                                # noqa: E402
from oracle import S, constant, model                                   # noqa: E402

ACCIDENT_DEGREE = 12        # to which the margin of the accident was cut
FORMER = ('root',)          # the commands for roots before 0x22; the examples of that time stay as they are
MACHINE_TIME = 2 * S, 5 * S     # from 2 s to 5 s, in units of 2^-20 s


def margin_stretches():
    """The two halves of the first quarter of the margin, and its bur and side."""
    curve = read_curve(str(HERE / 'margin.json'))
    run = curve.runs[0]
    low, high = run[0].low, run[0].high
    middle = solver.halves(run, low, high)
    return [solver.cut_out(run, low, middle), solver.cut_out(run, middle, high)], curve


def stretch(roots=FORMER):
    stretches, curve = margin_stretches()
    return solver.solve_stretch(stretches[0], curve.bur, curve.side, roots=roots).job.ended()


def stretch_tight():
    """The same stretch as the solver makes it since 0x22: its root by the tighter root test."""
    return stretch(solver.ROOTS)


def stretch32():
    """Two stretches that meet, and the three curves that compare them."""
    stretches, curve = margin_stretches()
    job = solver.Job(FORMER)
    bur = job.load(solver.bur_load(curve.bur))
    (x1, y1), _, _ = solver.add_stretch(job, bur, stretches[0], curve.side)
    (x2, y2), _, _ = solver.add_stretch(job, bur, stretches[1], curve.side)
    job.subtract(x2, x1)
    job.subtract(y2, y1)
    job.multiply(x2, y1)
    assert len(job.results) == 32
    return job.ended()


def stretch_edition_2():
    """The same stretch as a job of edition 2, its kept degrees left open: each product has the larger degree of its factors."""
    stretches, curve = margin_stretches()
    return solver.solve_stretch(stretches[0], curve.bur, curve.side, edition=2).job.ended()


def first_piece(name):
    curve = read_curve(str(HERE / name))
    run = curve.runs[0]
    return solver.cut_out(run, run[0].low, run[0].high), curve


def accident_stretch():
    return first_piece('accident.json')


def machine_time():
    """The first stretch of a margin on machine time: every load by 0x14, with the ends of the stretch."""
    whole, curve = first_piece('machine_time.json')
    return solver.solve_stretch(whole, curve.bur, curve.side).job.ended()


def accident():
    """The margin cut to degree 12 and loaded with radius 0, its normal the exact derivative of what
    was loaded: accepted, since the radius speaks of the loaded curves only."""
    whole, curve = accident_stretch()
    parts = [exact.nearest(whole.parts[0][2 + axis], ACCIDENT_DEGREE) for axis in (0, 1)]
    x, y = (exact.Series(row, 1) for row in parts)
    cut = whole._replace(parts=[(whole.low, whole.high, x, y)])
    job = solver.Job(FORMER)
    bur = job.load(solver.bur_load(curve.bur)._replace(radius=0))
    solver.add_stretch(job, bur, cut, curve.side, scale=0)
    return job.ended()


def accident_covered(roots=FORMER):
    """The same stretch with loads as the solver makes them: every load's radius covers rounding and cut."""
    whole, curve = accident_stretch()
    return solver.solve_stretch(whole, curve.bur, curve.side, roots=roots).job.ended()


def accident_tight():
    """The same as the solver makes it since 0x22: its root by the tighter root test."""
    return accident_covered(solver.ROOTS)


def accident_degree_12():
    """The same cut to degree 12, with the radius that it needs: accepted, and far beyond a limit of 2 µm."""
    whole, curve = accident_stretch()
    return solver.solve_stretch(whole, curve.bur, curve.side, ACCIDENT_DEGREE, 0, roots=FORMER).job.ended()


def groove():
    """The third of sixteen stretches beside grooves into which the bur does not fit: accepted, and the path turns back."""
    run = read_curve(str(HERE / 'groove.txt')).runs[0]
    low, high = solver.uniform(run, 16)[2:4]
    return solver.solve_stretch(solver.cut_out(run, low, high), Fraction(6, 10), 'right').job.ended()


def must(kept):
    if not kept:
        sys.exit('make: a command of an example would be refused')


def most_work():
    """A load and 31 roots, every block of degree 32 and without a zero."""
    f = model([4 * S] + [round(0.8 * S * (-0.7) ** k) for k in range(1, 33)])
    h, w = (model([c or 1 for c in found.coefficients]) for found in root_candidates(f, 32))
    assert h.degree == w.degree == 32 and all(f.coefficients)
    builder = Builder()
    must(builder.load(f))
    for _ in range(31):
        must(builder.root(0, found=(h, w)))
    return builder.job()


def most_quotients():
    """A load and 31 quotients by it, every block of degree 32 and without a zero: the longest job without 0x14
    that can be accepted."""
    f = model([4 * S] + [round(0.8 * S * (-0.7) ** k) for k in range(1, 33)])
    builder = Builder()
    must(builder.load(f))
    h, w = (model([c or 1 for c in found.coefficients]) for found in quotient_candidates(f, f, 32))
    assert h.degree == w.degree == 32
    for _ in range(31):
        must(builder.quotient(0, 0, found=(h, w)))
    return builder.job()


def refused():
    """The first slip of document 01: the negative pair for the root of 4S."""
    return (jobs.EDITION_1 + jobs.load(constant(4 * S))
            + jobs.root(0, constant(-2 * S), constant(-S // 4)) + jobs.END)


def no_radius():
    """A root that the root test accepts, with radius 2·S, and the tighter root test refuses: no r up to S satisfies."""
    return (jobs.EDITION_1 + jobs.load(constant(224 * S))
            + jobs.tight_root(0, constant(16 * S), constant(S // 32)) + jobs.END)


def different_intervals():
    """A usual mistake: the bur's radius is loaded by 0x10, so on the standard interval, and multiplied by a curve on machine
    time. The curve itself is loaded well; a constant needs the same ends."""
    return (jobs.EDITION_1 + jobs.load(constant(S // 2)) + jobs.load_on(on(model([S, S // 2, S // 8]), *MACHINE_TIME))
            + jobs.multiply(0, 1, o.DEFAULT_KEPT) + jobs.END)


def bad_ends():
    """The curve of different_intervals with its ends exchanged."""
    return jobs.EDITION_1 + jobs.load_on(on(model([S, S // 2, S // 8]), *MACHINE_TIME[::-1])) + jobs.END


def between_instants():
    """The owner's accident: g = 227 x^2 + 50 units, f = g + 2 units, h = 1. Of 500 equidistant
    instants the two nearest to 0 see f/g deviate from h by 2,085 units (2 micrometres); at 0
    it deviates by 41,943 (40 micrometres). No helper can have it accepted with less."""
    half = 227 * S // 2
    f, g = model([half + 52, 0, half]), model([half + 50, 0, half])
    w = from_samples([1 / v for v in samples(g.coefficients)], 32)
    return (jobs.EDITION_1 + jobs.load(f) + jobs.load(g)
            + jobs.quotient(0, 1, constant(S), w) + jobs.END)


EXAMPLES = {'root_of_4': example_job, 'stretch': stretch, 'stretch32': stretch32, 'accident': accident,
            'accident_covered': accident_covered, 'accident_degree_12': accident_degree_12,
            'most_work': most_work, 'most_quotients': most_quotients, 'refused': refused,
            'between_instants': between_instants, 'stretch_tight': stretch_tight, 'accident_tight': accident_tight,
            'no_radius': no_radius, 'machine_time': machine_time, 'different_intervals': different_intervals,
            'bad_ends': bad_ends, 'groove': groove, 'stretch_edition_2': stretch_edition_2}


def main():
    folder = Path(sys.argv[1]) if len(sys.argv) > 1 else HERE
    for name, make in EXAMPLES.items():
        job = make()
        text = o.printed(job)
        (folder / f'{name}.job').write_bytes(job)
        (folder / f'{name}.expected').write_text(text)
        last = text.splitlines()[-1]
        radii = [int(line.split()[2]) for line in text.splitlines()[:-1]]
        print(f'{name}.job: {len(job)} bytes, {last}, largest radius {max(radii, default=0)}')


if __name__ == '__main__':
    main()
