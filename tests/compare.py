"""Compares the library under test with the oracle, area by area.

  compare.py                            plain C against the oracle
  compare.py --library libferruntzo.a   the product against the oracle
  compare.py --plant multiply           planted wrong answers must be found, one in each area answered in
  compare.py --plant quotient_of_two --exchange   so must the other proposal, chosen
  compare.py --plant root --cleared 17  so must a scratch of which 17 numbers are cleared
  compare.py --plant add --former       so must a model that is written in 35 numbers
  compare.py --leave multiply           areas left as they were by refusal 1 must be found

Exits with 0 when all answers agree, 1 when any answer differs, 2 when something
could not be built or run or the oracle's own checks failed.  A sample of the
accepted cases is also put through the soundness checks, of tests and jobs those
with a scratch of 16; of the models that are made of series, of the chosen
proposals and of the tighter roots, each as it was answered.  Each made proposal is
put to the quotient test, and what that accepts is checked too.  What is put to the
tighter root test is put to the root test too, and some of the checked jobs to both
reports, whose number, work, scratch and answer must be the check's: what holds of its
results holds of theirs.
"""

import argparse
import subprocess
import sys
import tempfile
import time
import traceback
from array import array
from collections import Counter
from pathlib import Path
from random import Random

import cases
import certificate_cases
import edition_cases
import edition_jobs
import edition_oracle
import faults
import interval_cases
import interval_jobs
import job_cases
import oracle as o
import proposal_cases
import proposal_oracle
import report_cases
import report_oracle
import scratch_cases
import selection_cases
import series_cases
import soundness
import tight_root_cases
import tight_root_jobs
import unit_cases
from area_cases import ANSWERS, ANY_LENGTH, AREAS, CHECKS, DOUBLES, MORE, REPORTS, WITNESSES, area_cases, sized, witness
from counts import (WHOLE, check_editions, check_intervals, check_pairs, check_proposals, check_reports, check_scratches,
                    check_tight_roots, check_ties)
from examples_of_01 import check_examples
from group_cases import group_cases
from header import CANDIDATE_SIZE, MODEL_SIZE, PLACE_RADIUS, SCRATCH_SIZE, SHORT_AREA, WORK_SIZE, check_header

HERE = Path(__file__).resolve().parent
ROOT = HERE.parent
PLAIN = ROOT / 'plain'
SOURCES = ('plain.c', 'proposals.c', 'editions.c')
ENTRIES = list(AREAS)
# Shares of the random cases.
SHARE = {'add': 2, 'subtract': 2, 'multiply': 3, 'integrate': 3, 'evaluate': 3,
         'quotient': 4, 'root': 4, 'check': 5, 'from_series': 3, 'quotient_of_two': 3,
         'make_reciprocal': 1, 'make_quotient': 1, 'to_units': 60, 'tight_root': 4, 'convert_edition': 2,
         'check_workshop': 1, 'check_service': 1}
BATCH = 2000
SOUNDNESS_SAMPLE = 0.04
SAMPLE_ON_INTERVALS = 0.3   # of the accepted cases on another interval than the standard one, and of jobs with 0x14
SAMPLE_OF_16 = 0.25         # of the accepted cases that have a scratch, of 16 numbers
ANSWERED = ('from_series', 'quotient_of_two', 'tight_root')     # checked for soundness as the library answered, each of them
UNVOUCHED = (*proposal_cases.WRITTEN, 'convert_edition', *REPORTS)   # nothing holds of what they answer but its bits; reports: as check


def stop(message):
    print(f'{Path(sys.argv[0]).stem}: {message}', file=sys.stderr)
    sys.exit(2)


def flat(m):
    """The numbers of a model, of a series, which has no radius and no ends, or of a list of values, which has no degree either."""
    return [m.degree, *m.coefficients, *m[2:]] if isinstance(m, (o.Model, o.Series)) else list(m)


# ---- What the oracle says ---------------------------------------------------------

def room_of(case):
    """The length of a conversion's output."""
    return max(0, len(case.inputs[0]) + case.scalar)


def job_contents(outcome):
    """Number, and the new contents of work, scratch and answer after a job."""
    verdict, first, second, *_ = outcome
    contents = {'work': [0] * WORK_SIZE, 'scratch': [0] * SCRATCH_SIZE}
    if verdict == 'accepted':
        contents['work'][:MODEL_SIZE * first] = [c for m in second for c in flat(m)]
        return 0, {**contents, 'answer': [first, 0]}
    return first, {**contents, 'answer': [0, second]}


def oracle_answer(case):
    """Number, and the new contents of each area that is written to, all being long enough."""
    entry, inputs = case.entry, case.inputs
    if entry == 'multiply':
        number, result = o.multiply(*inputs, case.scalar)
        return number, {'out': flat(result)}
    if entry == 'evaluate':
        number, low, high = o.evaluate(*inputs, case.scalar)
        return number, {'bounds': [low, high]}
    if entry in ('quotient', 'root', 'tight_root'):
        number, result, *numbers = getattr(o, entry)(*inputs)
        return number, {'scratch': [0] * SCRATCH_SIZE, 'out': flat(result), 'numbers': numbers}
    if entry == 'quotient_of_two':
        number, *selected = o.quotient_of_two(*inputs)
        return number, {'scratch': [0] * SCRATCH_SIZE, 'answer': selected}
    if entry == 'check':
        return job_contents(o.check_job(*inputs))
    if entry in REPORTS:
        number, contents = job_contents(report_oracle.checked(*inputs))
        return number, {**contents, 'room': report_oracle.room(entry, *inputs)}
    if entry == 'convert_edition':
        number, answer, output = edition_oracle.convert_edition(*inputs, room_of(case))
        return number, {'output': output, 'answer': answer}
    if entry in proposal_cases.WRITTEN:
        number, *answered = getattr(proposal_oracle, entry)(*inputs)
        return number, dict(zip(proposal_cases.WRITTEN[entry], answered))
    number, result = getattr(o, entry)(*inputs)
    return number, {'out': flat(result)}


def answer_to(case, lengths):
    """Number, and the new contents of each area that is written to.  Refusal 1 leaves zeros in
    what the entry answers in, in an output of its whole length, and in the scratch of a test; of
    work and scratch of a job document 01 says "neither is touched", and 02 the same of a room.
    An area that is itself too short is never touched."""
    areas = AREAS[case.entry]
    short = {what for length, (_, size, what) in zip(lengths, areas) if length < size}
    if short:
        zeroed = ANSWERS if case.entry in CHECKS else (*ANSWERS, 'scratch')
        number = SHORT_AREA
        contents = {what: [0] * (room_of(case) if what == 'output' else size) for _, size, what in areas if what in zeroed}
    else:
        number, contents = oracle_answer(case)
    return number, {what: numbers for what, numbers in contents.items() if what not in short}


def check_witnesses():
    """Each call of area_cases.py is answered with its number, if its areas are long enough."""
    for entry, numbers in WITNESSES.items():
        for number in numbers:
            assert oracle_answer(witness(entry, number))[0] == number, (entry, number)


# ---- Cases as bytes -----------------------------------------------------------------

def lent_areas(case, rng, guards):
    """Per area: type code, told length, contents with numbers behind."""
    told = dict(case.lengths)
    areas = []
    for i, (code, size, what) in enumerate(AREAS[case.entry]):
        width = array(code).itemsize
        if what in ANY_LENGTH and what != 'output':
            content, length = array(code, case.inputs[i]), len(case.inputs[i])
        else:
            length = room_of(case) if what == 'output' else told.get(i, size + rng.choice(MORE[what]))
            content = array(code, rng.randbytes(width * length))
            if what in DOUBLES:                     # NaNs are rare among random bits
                content[::3] = array(code, rng.choices(unit_cases.NANS, k=len(content[::3])))
            if what in ('in', 'values'):
                numbers = array(code, flat(case.inputs[i])[:size])
                content[:min(size, length)] = numbers[:length]
        behind = rng.choice((1, 2, 5)) if guards else 0
        areas.append((code, length, content + array(code, rng.randbytes(width * behind))))
    return areas


def case_bytes(case, areas):
    data = bytearray([ENTRIES.index(case.entry), len(areas)])
    data += (case.scalar & 0xFFFFFFFF).to_bytes(4, 'little')
    for code, length, content in areas:
        data.append(content.itemsize)
        data += length.to_bytes(4, 'little') + len(content).to_bytes(4, 'little')
        data += content.tobytes()
    return bytes(data)


def expected_bytes(case, areas):
    """The whole answer that the harness must give for this case."""
    number, contents = answer_to(case, [length for _, length, _ in areas])
    data = bytearray(number.to_bytes(4, 'little'))
    for (code, _, content), (_, _, what) in zip(areas, AREAS[case.entry]):
        if what in contents:
            content = content[:]
            content[:len(contents[what])] = array(code, contents[what])
        data += content.tobytes()
    return number, bytes(data)


def differing_place(case, areas, expected, found):
    """Where an answer differs, in words."""
    if expected[:4] != found[:4]:
        numbers = [int.from_bytes(x[:4], 'little') for x in (expected, found)]
        return f'number {numbers[1]} instead of {numbers[0]}'
    start = 4
    for (code, length, content), (_, size, what) in zip(areas, AREAS[case.entry]):
        end = start + len(content) * content.itemsize
        rows = [array(code, x[start:end]) for x in (expected, found)]
        for k, (want, got) in enumerate(zip(*rows)):
            if want != got:
                place = '' if k < size or what in ANY_LENGTH else ' (behind the area used)'
                return f'{what}[{k}]{place} is {got} instead of {want}' + f' ({got:016x}, {want:016x})' * (what in DOUBLES)
        start = end
    return 'nothing'


# ---- Running ------------------------------------------------------------------------

def build_harness(folder, entries, library, plain, flags):
    program = Path(folder) / 'harness'
    prefix = 'ferruntzo_' if library else 'plain_'
    tested = [library] if library else [plain / source for source in SOURCES]
    command = ['gcc', '-std=c99', '-O2', '-ffp-contract=off', '-Wall', '-Wextra', f'-DPREFIX={prefix}',
               f'-I{ROOT / "include"}', *(f'-DWITH_{entry.upper()}' for entry in entries),
               str(HERE / 'harness.c'), *map(str, tested), '-o', str(program), *flags]
    if subprocess.run(command).returncode != 0:
        stop('the harness was not built')
    return program


def perhaps_shortened(rng, case):
    """Some cases with one or two areas too short."""
    if rng.random() >= 0.02:
        return case
    areas = sized(case.entry)
    chosen = rng.sample(areas, min(rng.choice((1, 1, 2)), len(areas)))
    return case._replace(lengths=tuple((i, rng.choice((size - 1, rng.randrange(size)))) for i, size in chosen))


def make_cases(entries, wanted, rng):
    """All fixed cases of the entries, then random ones up to the number wanted."""
    fixed = {**cases.FIXED, **certificate_cases.FIXED, **job_cases.FIXED, **series_cases.FIXED, **selection_cases.FIXED,
             **proposal_cases.FIXED, **unit_cases.FIXED, **tight_root_cases.FIXED, **edition_cases.FIXED, **report_cases.FIXED}
    drawn = {**cases.RANDOM, **certificate_cases.RANDOM, 'check': job_cases.RandomJobs(), **series_cases.RANDOM,
             **selection_cases.RANDOM, **proposal_cases.RANDOM, **unit_cases.RANDOM, **tight_root_cases.RANDOM,
             'convert_edition': edition_cases.RandomConversions(), **report_cases.random_reports()}
    made = 0
    for entry in entries:
        for case in (*area_cases(entry), *scratch_cases.scratch_cases(entry), *group_cases(entry), *fixed[entry](),
                     *interval_cases.interval_cases(entry), *edition_cases.products(entry)):
            made += 1
            yield case
    shares = [SHARE[entry] for entry in entries]
    while made < wanted:
        entry = rng.choices(entries, shares)[0]
        made += 1
        yield perhaps_shortened(rng, interval_cases.on_some_interval(rng, drawn[entry](rng)))


def with_tests(drawn, entries):
    """Each case, behind one that makes a proposal the quotient test of that, behind a tighter root test the root test of the same
    candidates, behind a conversion the checks of the two jobs and the conversion back, and behind some checks the reports."""
    for case in drawn:
        yield case
        if 'root' in entries and case.entry == 'tight_root' and not case.lengths:
            yield case._replace(entry='root')
        if 'quotient' in entries and case.entry in proposal_cases.MAKERS and not case.lengths:
            yield from proposal_cases.tests_of(case)
        if 'check' in entries and case.entry == 'convert_edition':
            yield from edition_cases.behind(case)
        if case.entry == 'check' and not case.lengths:
            yield from report_cases.behind(case, entries)


def run_harness(program, calls, runner):
    """The answer to each call, which is a case with its areas."""
    data = b''.join(case_bytes(case, areas) for case, areas in calls)
    run = subprocess.run([*runner, str(program)], input=data, stdout=subprocess.PIPE)
    if run.returncode != 0:
        stop(f'the harness ended with {run.returncode}')
    answers, start = [], 0
    for _, areas in calls:
        size = 4 + sum(len(content) * content.itemsize for _, _, content in areas)
        answers.append(run.stdout[start:start + size])
        start += size
    if start != len(run.stdout):
        stop('the harness wrote more or less than its answers')
    return answers


def scratch_of(case, areas):
    """The length of the scratch, if the entry has one."""
    return areas[scratch_cases.PLACES[case.entry]][1] if case.entry in scratch_cases.PLACES else None


def answered_row(case, areas, answer, wanted=('out', 'answer')):
    """The numbers of the first area of these kinds of an answer, and which it is."""
    start, area = next(faults.places_of(case, areas, wanted))
    code, size, what = AREAS[case.entry][area]
    return array(code, answer[start:start + array(code).itemsize * size]), what


def model_of(row):
    return o.Model(row[0], tuple(row[1:PLACE_RADIUS]), *row[PLACE_RADIUS:])


def answered_model(case, areas, answer):
    """The model in the area out of an answer; or the chosen proposal's h with the radius answered."""
    row, what = answered_row(case, areas, answer)
    if what == 'answer':
        chosen, radius = row
        row = [*case.inputs[1 + chosen][:CANDIDATE_SIZE], radius, *o.interval(case.inputs[0])]
    return model_of(row)


def answered_job(case, areas, answer):
    """Of a job's answer the command, and the models of the results."""
    (count, command), _ = answered_row(case, areas, answer)
    work, _ = answered_row(case, areas, answer, ('work',))
    return command, [model_of(work[MODEL_SIZE * i:MODEL_SIZE * (i + 1)]) for i in range(count)]


def job_parts(case, areas, answer):
    """Number, work, scratch and answer of a job's answer, without what stands behind them."""
    return answer[:4], *(answered_row(case, areas, answer, (what,))[0] for what in ('work', 'scratch', 'answer'))


def plant_fault(options, batch, answers):
    """The places of the answers that are spoiled as the options say."""
    if options.cleared is not None:
        return faults.clear(batch, answers, options.plant, options.cleared)
    if options.leave:
        return faults.leave(batch, answers, options.leave)
    if options.exchange:
        return faults.exchange(batch, answers)
    if options.former:
        return faults.former(batch, answers, options.plant)
    return faults.plant(batch, answers, options.plant) if options.plant else set()


def main():
    parser = argparse.ArgumentParser()
    parser.add_argument('--library', type=Path, help='static library under test')
    parser.add_argument('--plain', type=Path, default=PLAIN, help='folder of the plain C version to test instead')
    parser.add_argument('--entries', default=','.join(ENTRIES))
    parser.add_argument('--cases', type=int, default=WHOLE)
    parser.add_argument('--seed', type=int, default=1)
    parser.add_argument('--plant', choices=ENTRIES, help='spoil answers of this entry')
    parser.add_argument('--exchange', action='store_true', help='with --plant quotient_of_two: the other proposal chosen')
    parser.add_argument('--cleared', type=int, help='with --plant: so many numbers of the scratch cleared, for 16')
    parser.add_argument('--former', action='store_true', help='with --plant: a model written in 35 numbers')
    parser.add_argument('--leave', choices=ENTRIES, help='leave the areas of this entry on refusal 1')
    parser.add_argument('--link', default='', help='more flags for the compiler and linker, separated by blanks')
    parser.add_argument('--runner', default='', help='run the harness under this command')
    parser.add_argument('--no-guards', action='store_true', help='no numbers behind the areas')
    options = parser.parse_args()
    entries = options.entries.split(',')
    if not set(entries) <= set(ENTRIES):
        parser.error(f'entries are {",".join(ENTRIES)}')
    if not {options.plant, options.leave} <= {None, *entries}:
        parser.error('the planted entry is not among the entries')
    if options.exchange and options.plant != 'quotient_of_two':
        parser.error('only the chosen proposal can be exchanged')
    if options.former and options.plant not in faults.WITH_MODELS:
        parser.error(f'--former goes with --plant of {",".join(faults.WITH_MODELS)}')
    if options.cleared is not None and options.plant not in scratch_cases.PLACES:
        parser.error(f'--cleared goes with --plant of {",".join(scratch_cases.PLACES)}')
    check_header()
    check_examples()
    check_witnesses()
    cases.check_border_models()
    series_cases.check_series()
    selection_cases.check_selection()
    proposal_cases.check_makers()
    unit_cases.check_units()
    tight_root_cases.check_tight()
    edition_cases.check_conversions()
    report_cases.check_reports()

    rng, sound_rng = Random(options.seed), Random(options.seed)
    began = time.perf_counter()
    oracle_time, differences, planted = 0.0, 0, False
    pairs, made, units, sound, sound_of_16, tight, tight_jobs, placed, placed_jobs, conversions, second_jobs = (
        Counter() for _ in range(11))
    scratches = {entry: Counter() for entry in entries if entry in scratch_cases.PLACES}
    reports, rooms = {entry: Counter() for entry in entries if entry in REPORTS}, report_cases.Rooms()
    counts, ties = ({entry: Counter() for entry in entries} for _ in range(2))
    with tempfile.TemporaryDirectory() as folder:
        program = build_harness(folder, entries, options.library, options.plain,
                                options.link.split())
        batch, previous = [], None

        def count_sound(case, areas, of_job):
            sound[case.entry] += 1
            sound_of_16[case.entry] += scratch_of(case, areas) == SCRATCH_SIZE
            placed['sound'] += case.entry != 'evaluate' and interval_cases.is_placed(case)
            for counter in of_job:
                counter['checked for soundness'] += 1

        def judge():
            nonlocal differences, planted
            answers = run_harness(program, [one[:2] for one in batch], options.runner.split())
            spoiled = set() if planted else plant_fault(options, batch, answers)
            planted = planted or bool(spoiled)
            for i, ((case, areas, number, expected), found) in enumerate(zip(batch, answers)):
                if expected == found and case.entry in ANSWERED and number == 0:
                    soundness.check_answered(sound_rng, case, answered_model(case, areas, found))
                    count_sound(case, areas, [])
                beside = reports and case.entry in CHECKS and not case.lengths
                if beside and rooms.other_than_check(case, job_parts(case, areas, found)):
                    differences += 1
                    print(f'{case.entry}: not as the check of the same job: {str(case)[:600]}')
                if expected == found and case.entry in REPORTS and number == 0:
                    rooms.keep(case, answered_job(case, areas, found)[1], answered_row(case, areas, found, ('room',))[0].tobytes())
                if expected != found:
                    differences += 1
                    spoiled.discard(i)
                    if differences <= 10:
                        print(f'{case.entry}: {differing_place(case, areas, expected, found)}'
                              f' for lengths {case.lengths} of {str(case)[:600]}')
            if spoiled:
                stop('a planted answer was not found')
            batch.clear()

        for case in with_tests(make_cases(entries, options.cases, rng), entries):
            areas = lent_areas(case, rng, not options.no_guards)
            before, ties_before = time.perf_counter(), dict(o.TIES)
            number, expected = expected_bytes(case, areas)
            oracle_time += time.perf_counter() - before
            if number == 0 and o.TIES != ties_before:
                ties[case.entry].update(['cases', *(above for above in o.TIES if o.TIES[above] > ties_before[above])])
            counts[case.entry][number] += 1
            lengths = [length for _, length, _ in areas]
            if case.entry == 'quotient_of_two':
                pairs.update(selection_cases.kinds(case, lengths))
            if case.entry in scratches:
                scratches[case.entry].update(scratch_cases.kinds(case, lengths, number))
            if case.made or case.entry in proposal_cases.MAKERS:
                made.update(proposal_cases.kinds(case, lengths, number))
            if case.entry == 'to_units' and number != SHORT_AREA:
                units.update(unit_cases.kinds(case, number))
            if case.entry in ('convert_edition', 'multiply'):
                conversions.update(edition_cases.kinds(case, lengths, number))
            if case.entry in REPORTS:
                reports[case.entry].update(report_cases.kinds(case, lengths, number))
                rooms.expect(case, number)
            if case.entry == 'tight_root':
                tight.update(tight_root_cases.kinds(case, lengths, number))
            tight['0x21 behind it'] += case.entry == 'root' and previous == case._replace(entry='tight_root')
            previous = case
            placed.update(interval_cases.kinds(case, lengths, number))
            of_job = []                             # the counters that count this job
            if case.entry == 'check' and number != SHORT_AREA:
                for counter, of in ((tight_jobs, tight_root_jobs), (placed_jobs, interval_jobs), (second_jobs, edition_jobs)):
                    found = of.job_kinds(*case.inputs, number, *answered_job(case, areas, expected))
                    counter.update(found)
                    of_job += [counter] * ('jobs' in found)
            batch.append((case, areas, number, expected))
            on_interval = interval_cases.is_placed(case) or any(counter is placed_jobs for counter in of_job)
            share = max({None: SOUNDNESS_SAMPLE, SCRATCH_SIZE: SAMPLE_OF_16}.get(scratch_of(case, areas), 0),
                        SAMPLE_ON_INTERVALS * on_interval)
            if number == 0 and case.entry not in (*ANSWERED, *UNVOUCHED) and (sound_rng.random() < share or case.made):
                soundness.check(sound_rng, case)
                count_sound(case, areas, of_job)
            if len(batch) == BATCH:
                judge()
        judge()

    for entry in entries:
        numbers = ' '.join(f'{n}:{c}' for n, c in sorted(counts[entry].items()))
        print(f'{entry}: {sum(counts[entry].values())} cases (number:cases {numbers})')
    total = sum(sum(c.values()) for c in counts.values())
    others = total - sum(sum(counts[entry].values()) for entry in reports)     # what the other kinds are a share of
    print('accepted cases with a tie:', check_ties(ties, others))
    if 'quotient_of_two' in entries:
        print('pairs of proposals:', check_pairs(pairs, sound['quotient_of_two'], entries, others))
    if scratches:
        print('scratches:', check_scratches(scratches, sound_of_16, entries, others))
    for text in (*check_proposals(made, units, entries, others),
                 *check_tight_roots(tight, tight_jobs, sound['tight_root'], entries, others),
                 *check_intervals(placed, placed_jobs, entries, others),
                 *check_editions(conversions, second_jobs, entries, others),
                 *check_reports(reports, rooms, entries, others, differences == 0)):
        print(text)
    print(f'{total} cases, {differences} differences, {time.perf_counter() - began:.1f} s '
          f'(oracle {oracle_time:.1f} s), '
          f'{sum(sound.values())} checked for soundness, seed {options.seed}')
    if (options.plant or options.leave) and not planted:
        stop('nothing was planted')
    for entry in entries:                           # every refusal of an entry, and no other
        assert set(counts[entry]) == {SHORT_AREA, *WITNESSES[entry]}, entry
    sys.exit(1 if differences else 0)


if __name__ == '__main__':
    try:
        main()
    except Exception:                               # never mistaken for a difference
        traceback.print_exc()
        stop('a check of the oracle itself failed')
