#!/usr/bin/env python3
"""The Python package (python/ferruntzo) over the shared library, against the oracle: every entry, with every refusal that it has, on
fixed cases and on random ones; the lengths that it lends; wrong operands, which must be named before the library is called; and wrong
packages, each of which must be found.  python_install.py has how the library is found, and pip.

  tests/python_package.py [--cases N] [--seed SEED]     N random cases for each entry, and as many of the fixed ones
"""

import argparse
import copy
import ctypes
import doctest
import os
import pickle
import sys
import threading
import time
from collections import Counter
from pathlib import Path
from random import Random

ROOT = Path(__file__).resolve().parent.parent
SHARED = ROOT / 'target' / 'staticlib' / 'libferruntzo.so'
sys.path.insert(0, str(ROOT / 'python'))

import compare
import header
import proposal_oracle
import report_oracle
from area_cases import ANY_LENGTH, AREAS, CHECKS, REPORTS, WITNESSES, witness

import ferruntzo as package
from ferruntzo import Candidate, Interval, Model, Refusal, Refused, Series, _library
from python_slips import SLIPS

S = header.S
OF_JOBS = *CHECKS, 'convert_edition'
GIVEN = [what for what in ANY_LENGTH if what != 'output']     # as long as the caller has them
done = Counter()


def expect(what, holds, detail=''):
    done[what] += 1
    if not holds:
        sys.exit(f'python: {what}: {detail}')


# ---- Cases through the package ----------------------------------------------------------

def model_of(m):
    return Model(m.degree, m.coefficients, m.radius, Interval(m.lower, m.upper))


def candidate_of(m):
    return Candidate(m.degree, m.coefficients)


def bits_of(values):
    return [proposal_oracle.bits(value) for value in values]


def test_contents(entry, models, candidates):
    tested = getattr(package, entry)(*map(model_of, models), *map(candidate_of, candidates))
    return {'out': list(tested.model.numbers), 'numbers': [tested.m, tested.n, tested.b]}


def contents(case):
    """What the package answers, by the names of the areas."""
    entry, inputs = case.entry, case.inputs
    if entry in ('add', 'subtract', 'multiply'):
        kept = (case.scalar & 0xFFFFFFFF,) if entry == 'multiply' else ()
        return {'out': list(getattr(model_of(inputs[0]), entry)(model_of(inputs[1]), *kept).numbers)}
    if entry == 'integrate':
        return {'out': list(model_of(*inputs).integrate().numbers)}
    if entry == 'evaluate':
        bounds = model_of(*inputs).evaluate(case.scalar)
        return {'bounds': [bounds.low, bounds.high]}
    if entry == 'from_series':
        return {'out': list(Model.from_series(Series(*inputs[0])).numbers)}
    if entry == 'quotient':
        return test_contents(entry, inputs[:2], inputs[2:])
    if entry in ('root', 'tight_root'):
        return test_contents(entry, inputs[:1], inputs[1:])
    if entry == 'quotient_of_two':
        f, g, *proposals = inputs
        chosen = package.quotient_of_two(model_of(f), model_of(g), *proposals)
        return {'answer': [int(chosen.chosen), chosen.radius], 'model': chosen.model.numbers}
    if entry == 'make_reciprocal':
        made = package.make_reciprocal(model_of(*inputs))
        return {'record': bits_of((*made.record.coefficients, made.record.change)), 'w': list(made.w.numbers),
                'outcome': [int(made.outcome)]}
    if entry == 'make_quotient':
        made = package.make_quotient(*map(model_of, inputs))
        reciprocal = made.record.reciprocal
        return {'record': bits_of((*made.record.coefficients, *reciprocal.coefficients, reciprocal.change)),
                'h': list(made.h.numbers), 'w': list(made.w.numbers), 'outcome': [int(made.outcome)]}
    if entry == 'to_units':
        return {'units': list(package.to_units([proposal_oracle.value_of(pattern) for pattern in inputs[0]]).numbers)}
    if entry == 'convert_edition':
        converted = package.convert_edition(*inputs)
        return {'output': list(converted), 'answer': [len(converted), 0]}
    checked = getattr(package, entry)(*inputs)
    work = [number for result in checked.results for number in result.numbers]
    found = {'work': work + [0] * (header.WORK_SIZE - len(work)), 'answer': [checked.count, 0]}
    return {**found, 'room': list(checked.room), 'records': [one._asdict() for one in checked.records]} if entry in REPORTS else found


def answered(case):
    """Number, and what stands in the areas; of a refused call nothing but the command of a job."""
    try:
        return 0, contents(case)
    except Refused as refused:
        expect('a command goes with a job alone', (refused.command is None) == (case.entry not in OF_JOBS), case.entry)
        return int(refused.refusal), {'answer': [0, refused.command]} if case.entry in OF_JOBS else {}


def expected(case):
    number, areas = compare.oracle_answer(case)
    wanted = {what: list(row) for what, row in areas.items() if what != 'scratch'}
    if number:
        wanted = {'answer': wanted['answer']} if case.entry in OF_JOBS else {}
    elif case.entry == 'quotient_of_two':
        f, _, *proposals = case.inputs
        chosen, radius = wanted['answer']
        wanted['model'] = (*proposals[chosen - 1][:header.CANDIDATE_SIZE], radius, f.lower, f.upper)
    elif case.entry in REPORTS:
        wanted['records'] = [{field: getattr(one, field) for field in report_oracle.READINGS[case.entry]}
                             for one in report_oracle.records(*case.inputs)]
    return number, wanted


def lent_rightly(real):
    """number_of, with each length put beside the header's size."""
    def number_of(entry, *arguments):
        lengths = [len(a) for a in arguments if isinstance(a, ctypes.Array)]
        for length, (_, size, what) in zip(lengths, AREAS.get(entry, ())):
            size = lengths[0] if what == 'output' else size
            expect('lengths of areas', what in GIVEN or length == size, f'{entry}, {what}: {length}')
        return real(entry, *arguments)
    return number_of


def drawn_cases(entry, count, rng):
    """A call for each answer, some of the fixed cases, and random ones; short areas cannot be lent from Python, and an output is
    as long as its job."""
    fixed = list(compare.make_cases([entry], 0, rng))
    some = rng.sample([c for c in fixed if not c.lengths], count)
    more = [c for c in list(compare.make_cases([entry], len(fixed) + count, rng))[len(fixed):] if not c.lengths]
    drawn = [*(witness(entry, number) for number in WITNESSES[entry]), *some, *more]
    return [c._replace(scalar=0) for c in drawn] if entry == 'convert_edition' else drawn


# ---- Wrong packages ---------------------------------------------------------------------

def wrong_packages(cases):
    """Each slip shows in the cases of its entry."""
    for name, (entry, slip) in SLIPS.items():
        owner, attribute, wrong = slip()
        real = owner.__dict__[attribute]
        setattr(owner, attribute, wrong)
        try:
            found = next((1 for case, wanted in cases[entry] if answered(case) != wanted), None)
        finally:
            setattr(owner, attribute, real)
        expect('wrong packages found', found, name)


# ---- Operands, found before the call ------------------------------------------------------

def wrong_operands():
    def never(*_):
        raise AssertionError('the library was called')
    good, h = Model.constant(S), Candidate.constant(S)
    wrong = {
        ValueError: [
            lambda: Model(0, [1 << 31]), lambda: Model(0, [-(1 << 31) - 1]), lambda: Model(0, [0] * 34), lambda: Model(1 << 31, []),
            lambda: Model(0, [], 1 << 31), lambda: Interval(-(1 << 31) - 1, 0), lambda: Interval(0, 1 << 31),
            lambda: Candidate(0, [0] * 34), lambda: Candidate.constant(1 << 31), lambda: Series(0, [1 << 31]),
            lambda: Series(0, range(34)), lambda: Model.from_numbers([0] * 36), lambda: Model.from_numbers([0] * 38),
            lambda: Candidate.from_numbers([0] * 35), lambda: Series.from_numbers([0] * 33), lambda: good.multiply(good, -1),
            lambda: good.multiply(good, 1 << 32), lambda: good.evaluate(1 << 31), lambda: package.to_units([0.0] * 34),
            lambda: package.to_units([10 ** 400]), lambda: package.quotient_of_two(good, good, [1 << 31], [])],
        TypeError: [
            lambda: Model(0, [1.0]), lambda: Model(0, ['1']), lambda: Model(0, '12'), lambda: Model(0, 5), lambda: Model(True, [1]),
            lambda: Model(0, [1], 0, (-S, S)), lambda: Model(0, [1], None), lambda: Interval(0.5, 1), lambda: Model(),
            lambda: good.add(h), lambda: good.add(1), lambda: good.evaluate(0.5), lambda: good.multiply(good, None),
            lambda: Model.from_series(h), lambda: package.quotient(good, good, good, h), lambda: package.quotient(good, h, h, h),
            lambda: package.root(good, h, good), lambda: package.tight_root(h, h, h), lambda: package.proposal(h, good),
            lambda: package.quotient_of_two(good, good, 'text', []), lambda: package.quotient_of_two(good, good, [1.5], []),
            lambda: package.make_reciprocal(h), lambda: package.make_quotient(good, h), lambda: package.to_units(['1']),
            lambda: package.to_units([None]), lambda: package.to_units(1.0), lambda: package.check('text'), lambda: package.check(5),
            lambda: package.check([1, 2]), lambda: package.check_workshop('text'), lambda: package.check_service([1, 2, 0]),
            lambda: package.check_service(None), lambda: package.convert_edition('text'), lambda: package.convert_edition([1, 2, 0])],
    }
    real, _library.number_of = _library.number_of, never
    try:
        for error, calls in wrong.items():
            for call in calls:
                try:
                    call()
                except error as raised:
                    expect('wrong operands named', str(raised) != '')
                else:
                    expect('wrong operands named', False, f'{error.__name__} was not raised: {call.__code__.co_firstlineno}')
    finally:
        _library.number_of = real
    # The least and the largest numbers of 32 bits are taken, and are for the library to judge.
    for numbers in ([-(1 << 31)] * 37, [(1 << 31) - 1] * 37):
        m = Model.from_numbers(numbers)
        expect('numbers come back', m.numbers == tuple(numbers) and m == Model.from_numbers(array(numbers)))
        for call in (lambda: m.add(m), m.integrate, lambda: m.evaluate(0)):
            expect('bad models are refused', refused_by(call) == Refusal.BAD_MODEL)


def array(numbers):
    return (ctypes.c_int32 * len(numbers))(*numbers)


def refused_by(call):
    try:
        call()
    except Refused as refused:
        return refused.refusal
    return None


def values():
    """Immutable, equal by content, usable as keys; refusals by the header's names, in words, and pickled."""
    m = Model(1, [S, 5], 3, Interval(0, S))
    job = (ROOT / 'examples' / 'stretch.job').read_bytes()
    report = package.check_service(job)
    expect('a report by content', report == package.check_service(bytearray(job)) == pickle.loads(pickle.dumps(report))
           and report != package.check_workshop(job) and report.results == package.check(job).results
           and raises(AttributeError, lambda: setattr(report, 'room', b'')) and isinstance(report, package.CheckedJob))
    expect('the workshop of the service', [(one.number, one.degree, one.radius) for one in report.records]
           == [tuple(one) for one in package.check_workshop(job).records])
    expect('immutable', raises(AttributeError, lambda: setattr(m, 'radius', 0))
           and raises(AttributeError, lambda: setattr(m.interval, 'lower', 1)))
    expect('equal by content', m == Model.from_numbers(m.numbers) == pickle.loads(pickle.dumps(m)) == copy.deepcopy(m)
           and len({m, Model.from_numbers(m.numbers)}) == 1 and Candidate(0, [1]) != Series(0, [1]))
    names = {name: number for name, number in header.NAMES.items() if name in Refusal.__members__}
    expect('refusals as in the header', {r.name: r.value for r in Refusal} == names and len(names) == header.SHORT_OUTPUT)
    refused = pickle.loads(pickle.dumps(Refused(Refusal.JOB_ENDS, 4)))
    expect('a refusal in words', str(refused) == 'refused 10: the job ends inside a command or without an end (command 4)', str(refused))
    expect('a text for each refusal', all(r.text for r in Refusal))
    sizes = {name: getattr(package, name) for name in package.__all__ if name.isupper() and name in header.NAMES}
    expect('sizes as in the header', len(sizes) > 11 and all(header.NAMES[n] == v for n, v in sizes.items()), str(sizes))


def raises(error, call):
    try:
        call()
    except error:
        return True
    return False


def threads():
    """Calls at the same time have areas of their own."""
    def work(n):
        for _ in range(200):
            seen.append(Model.constant(n).add(Model.constant(n)).coefficients[0] == 2 * n)
    seen = []
    started = [threading.Thread(target=work, args=(n,)) for n in range(4)]
    for thread in started:
        thread.start()
    for thread in started:
        thread.join()
    expect('threads', len(seen) == 800 and all(seen))


# ---- Examples ---------------------------------------------------------------------------

def examples():
    for job in sorted((ROOT / 'examples').glob('*.job')):
        try:
            results = package.check(job.read_bytes()).results
            said = ''.join(f'{i} {r.degree} {r.radius}\n' for i, r in enumerate(results)) + f'accepted {len(results)}\n'
        except Refused as refused:
            said = f'refused {refused.refusal.value} {refused.command}\n'
        expect('examples', said == job.with_suffix('.expected').read_text(), job.name)
    for failed, tried in (doctest.testfile(str(ROOT / 'python' / 'README.md'), module_relative=False), doctest.testmod(package), doctest.testmod(package.jobs)):
        expect('texts of README and package', failed == 0 < tried)


def main():
    parser = argparse.ArgumentParser()
    parser.add_argument('--cases', type=int, default=250)
    parser.add_argument('--seed', type=int, default=1)
    options = parser.parse_args()
    began = time.perf_counter()
    os.environ.pop('FERRUNTZO_LIBRARY', None)
    if not SHARED.exists():
        sys.exit(f'python: {SHARED} is not there (scripts/build_library makes it)')
    header.check_header()
    expect('every entry', {*AREAS, 'version'} == set(_library._FUNCTIONS))
    rng, cases, numbers = Random(options.seed), {}, Counter()
    real, _library.number_of = _library.number_of, lent_rightly(_library.number_of)
    for entry in AREAS:
        cases[entry] = [(case, expected(case)) for case in drawn_cases(entry, options.cases, rng)]
        for case, wanted in cases[entry]:
            numbers[entry, wanted[0]] += 1
            found = answered(case)
            expect(entry, found == wanted, f'{str(found)[:300]} instead of {str(wanted)[:300]} for {str(case)[:300]}')
        met = {number for name, number in numbers if name == entry}
        expect('every refusal of an entry', met >= set(WITNESSES[entry]) - {header.SHORT_OUTPUT}, f'{entry}: {met}')
    _library.number_of = real
    wrong_packages(cases)
    wrong_operands()
    values()
    threads()
    examples()
    print('python: ' + ', '.join(f'{what} {count}' for what, count in done.items()))
    print(f'python: {sum(map(len, cases.values()))} calls agree with the oracle, {len(SLIPS)} wrong packages found, '
          f'{time.perf_counter() - began:.1f} s')


if __name__ == '__main__':
    main()
