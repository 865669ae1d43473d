"""Do proposals made on the mill serve realistic jobs (document 02, S-19)?  Makes one for each quotient of the accepted example
jobs, puts it to the ordinary test, and prints its radius beside that of the desktop's candidates in the job.

  made_examples.py                             plain C
  made_examples.py --library libferruntzo.a    the product
  made_examples.py --plant                     spoils a made proposal; status 1 then says that it was found

Exits with 0 when every made proposal passes, 1 when one is refused, 2 when something could not be built or run.
"""

import argparse
import sys
import tempfile
import traceback
from array import array
from pathlib import Path
from random import Random
from typing import NamedTuple

import oracle as o
import soundness
from area_cases import AREAS
from cases import Case
from compare import PLAIN, ROOT, build_harness, lent_areas, model_of, run_harness, stop
from header import ACCEPTED, PLACE_RADIUS, QUOTIENT_RECORD_SIZE, SETTLED
from oracle import Model
from proposal_oracle import value_of

ENTRIES = ('make_quotient', 'quotient')
QUOTIENTS = 10              # in the example jobs, at least
POINTS = 20                 # random fractions at which an accepted quotient is looked at


class Quotient(NamedTuple):
    """f and g of a quotient in a job, where it stands, and the radius that the desktop's candidates get."""
    where: str
    f: Model
    g: Model
    radius: int


def quotients():
    """Each quotient of the accepted example jobs once."""
    found = {}
    for path in sorted((ROOT / 'examples').glob('*.job')):
        job = path.read_bytes()
        verdict, _, results = o.check_job(job)
        if verdict != 'accepted':
            continue
        for i, (byte, operands) in enumerate(soundness.commands_of(job)):
            if byte == o.QUOTIENT:
                f, g = (results[name] for name in operands[:2])
                found.setdefault((f, g), Quotient(f'{path.name}, result {i}', f, g, results[i].radius))
    return list(found.values())


def answers(program, entry, inputs, rng):
    """Number and areas of a call of the entry for each of the inputs."""
    calls = [(case, lent_areas(case, rng, False)) for case in (Case(entry, one) for one in inputs)]
    for (_, areas), data in zip(calls, run_harness(program, calls, [])):
        start, read = 4, {}
        for (code, _, content), (_, size, what) in zip(areas, AREAS[entry]):
            read[what] = array(code, data[start:start + content.itemsize * size])
            start += len(content) * content.itemsize
        yield int.from_bytes(data[:4], 'little'), read


def candidate(row):
    return Model(row[0], tuple(row[1:]), 0)


def main():
    parser = argparse.ArgumentParser()
    parser.add_argument('--library', type=Path, help='static library under test')
    parser.add_argument('--plant', action='store_true', help='spoil a made proposal')
    options = parser.parse_args()
    rng, drawn = Random(1), quotients()
    assert len(drawn) >= QUOTIENTS, f'{len(drawn)} quotients'
    with tempfile.TemporaryDirectory() as folder:
        program = build_harness(folder, ENTRIES, options.library, PLAIN, [])
        made = list(answers(program, 'make_quotient', [(one.f, one.g) for one in drawn], rng))
        if options.plant:
            made[-1][1]['w'][1] *= 3
        pairs = [(candidate(areas['h']), candidate(areas['w'])) for _, areas in made]
        tested = list(answers(program, 'quotient', [(one.f, one.g, *pair) for one, pair in zip(drawn, pairs)], rng))
    failed = 0
    print('quotient | degrees of f and g | outcome, change | radius, made | radius, desktop')
    for one, (number, areas), (test, result) in zip(drawn, made, tested):
        outcome = 'settled' if areas['outcome'][0] == SETTLED else 'given up'
        change = value_of(areas['record'][QUOTIENT_RECORD_SIZE - 1])
        passed = number == test == ACCEPTED
        failed += not passed
        radius = result['out'][PLACE_RADIUS] if passed else f'refused with {number or test}'
        print(f'{one.where} | {one.f.degree}, {one.g.degree} | {outcome}, {change:.2g} | {radius} | {one.radius}')
        for _ in range(POINTS if passed else 0):
            soundness.soundness_quotient(rng, one.f, one.g, model_of(result['out']))
    print(f'{len(drawn)} quotients of the example jobs, {failed} whose made proposal is refused')
    sys.exit(1 if failed else 0)


if __name__ == '__main__':
    try:
        main()
    except Exception:                               # never mistaken for a refusal
        traceback.print_exc()
        stop('a check of the proposals themselves failed')
