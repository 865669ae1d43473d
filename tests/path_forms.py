"""Ways to write the path of a bur beside a margin as commands of a job: each takes a Job of the solver, the result with the bur's
radius and the four loads (x, y and the normal's two), and gives the results of the path."""

import sys
from pathlib import Path

ROOT = Path(__file__).resolve().parent.parent
sys.path.insert(0, str(ROOT / 'tools'))

from ferruntzo_tool import solve as solver                              # noqa: E402
from ferruntzo_tool.arithmetic import model                             # noqa: E402
from ferruntzo_tool.tables import S                                     # noqa: E402


def length_of(job, one, two):
    return job.root(job.add(job.multiply(one, one), job.multiply(two, two)))


def radius_over_length(job, bur, loads):
    x, y, nx, ny = map(job.load, loads)
    factor = job.quotient(bur, length_of(job, ny, nx))
    return job.add(job.multiply(nx, factor), x), job.add(y, job.multiply(factor, ny))


def inverse_length(job, bur, loads):
    ny, nx, y, x = (job.load(m) for m in reversed(loads))
    inverse = job.quotient(job.load(model([S], interval=loads[0].interval)), length_of(job, nx, ny))
    return job.add(y, job.multiply(job.multiply(inverse, ny), bur)), job.add(x, job.multiply(bur, job.multiply(inverse, nx)))


def radius_times_normal(job, bur, loads):
    x, y, nx, ny = map(job.load, loads)
    length = length_of(job, nx, ny)
    return job.add(x, job.quotient(job.multiply(bur, nx), length)), job.add(y, job.quotient(job.multiply(ny, bur), length))


def subtracted(job, bur, loads):
    nx, ny = (job.load(m._replace(coefficients=[-c for c in m.coefficients])) for m in loads[2:])
    x, y = map(job.load, loads[:2])
    length = length_of(job, nx, ny)
    return [job.subtract(at, job.multiply(job.quotient(n, length), bur)) for at, n in ((x, nx), (y, ny))]


def two_roots(job, bur, loads):
    x, y, nx, ny = map(job.load, loads)
    return [job.add(at, job.multiply(bur, job.quotient(n, length_of(job, nx, ny)))) for at, n in ((x, nx), (y, ny))]


def over_common_length(job, bur, loads):
    x, y, nx, ny = map(job.load, loads)
    length = length_of(job, nx, ny)
    return [job.quotient(job.add(job.multiply(at, length), job.multiply(bur, n)), length) for at, n in ((x, nx), (y, ny))]


FORMS = (solver.add_loads, radius_over_length, inverse_length, radius_times_normal, subtracted, two_roots, over_common_length)
