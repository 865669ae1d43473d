"""The mirror (document 02, S-11, on intervals S-24) through the library, without the oracle: a call and its counterpart, some of
whose coefficients are negated, must have answers that are each other's mirror.

  mirror.py                                    plain C
  mirror.py --library libferruntzo.a           the product
  mirror.py --program target/bin/jobcheck      counterparts of jobs must also print the same text
  mirror.py --plant                            spoils an answer of every kind; status 1 then says that each was found

Exits with 0 when every pair agrees, 1 when any does not, 2 when something could not be built or run, or the pairs are too few.
The same pairs are put to plain C with ties upwards and downwards, which must fail: so many pairs have a tie that shows.  So must
evaluations at -p in place of l + u - p.
"""

import argparse
import subprocess
import sys
import tempfile
import traceback
from array import array
from collections import Counter
from itertools import islice
from operator import mul
from pathlib import Path
from random import Random
from typing import NamedTuple

import cases
import interval_cases
import job_cases
import jobs
import oracle as o
import series_cases
from area_cases import AREAS, CURVE, FOUR, WITNESSES, area_cases
from cases import HIGHEST, LOWEST, Case
from compare import BATCH, PLAIN, ROOT, build_harness, lent_areas, perhaps_shortened, run_harness, stop
from header import (BLOCK_BYTES, COEFFICIENTS, HELPER_NOT_POSITIVE, MAX_RESULTS, MODEL_SIZE, NOT_CONTRACTING, PLACE_RADIUS, S,
                    SHORT_AREA)
from oracle import model
from slips import NEAR, TIES_DOWN, TIES_UP, spoiled_plain
from soundness import ROOTS

SAME, NEGATED = (1,) * COEFFICIENTS, (-1,) * COEFFICIENTS
MIRRORED = tuple((-1) ** k for k in range(COEFFICIENTS))
# Kinds of counterparts: the entry, signs of the inputs' coefficients, signs of the answer's.
KINDS = {
    'multiply, first negated': ('multiply', (NEGATED, SAME), NEGATED),
    'multiply, second negated': ('multiply', (SAME, NEGATED), NEGATED),
    'multiply, both mirrored': ('multiply', (MIRRORED, MIRRORED), MIRRORED),
    'integrate, negated': ('integrate', (NEGATED,), NEGATED),
    'evaluate, mirrored at l + u - p': ('evaluate', (MIRRORED,), SAME),
    'from_series, negated': ('from_series', (NEGATED,), NEGATED),
    'from_series, mirrored': ('from_series', (MIRRORED,), MIRRORED),
}
SIGNED_JOB, MIRRORED_JOB = 'job, signs of its loads', 'job, mirrored'
ENTRY = {**{kind: entry for kind, (entry, _, _) in KINDS.items()}, SIGNED_JOB: 'check', MIRRORED_JOB: 'check'}
BLOCKS = {o.LOAD: 1, o.LOAD_ON: 1, o.QUOTIENT: 2, o.ROOT: 2, o.TIGHT_ROOT: 2}
# Of each kind at least: pairs, accepted ones, accepted ones on another interval than the standard one (not of series, which have
# none), pairs that a wrong rule of ties shows in.
PAIRS, ACCEPTED, PLACED, SHOWN = 600, 300, 200, 50
ANSWER_AREAS = ('out', 'bounds', 'work', 'answer')


class Pair(NamedTuple):
    """signs: those of the coefficients of each model of the answer."""
    kind: str
    case: Case
    counterpart: Case
    signs: tuple


def opposite(n):
    """-2^31 has no negation in 32 bits: a model with it is bad, a point outside, and neither has a counterpart."""
    return within_32_bits(-n)


def within_32_bits(n):
    if not LOWEST <= n <= HIGHEST:
        raise OverflowError
    return n


def mirrored_point(case):
    """l + u - p."""
    m, = case.inputs
    return within_32_bits(m.lower + m.upper - case.scalar)


def times(m, signs):
    """A model, candidate or series with its coefficients times these signs."""
    return m._replace(coefficients=tuple(c if sign > 0 else opposite(c) for c, sign in zip(m.coefficients, signs)))


# ---- Twins of jobs --------------------------------------------------------------------

def job_parts(job):
    """The bytes of the edition; the commands that make a result, as far as they are whole and name results that are there; the
    bytes behind."""
    commands, position = [], len(jobs.EDITION_1)
    for byte, operands in list(jobs.read_commands(job))[1:] if job[:2] in jobs.EDITIONS else ():
        names = operands[:o.RESULT_BYTES.get(byte, 0)]
        if (byte not in o.RESULT_BYTES or len(operands) < o.OPERAND_WIDTH[byte]
                or any(name >= len(commands) for name in names)):
            break
        commands.append((byte, operands))
        position += 1 + len(operands)
    return job[:len(jobs.EDITION_1)], commands, job[position:]


def written(edition, commands, rest, signs):
    """The job with the blocks of each command times their signs."""
    job = bytearray(edition)
    for (byte, operands), rows in zip(commands, signs):
        data = bytearray(operands)
        for i in range(BLOCKS.get(byte, 0)):
            start = o.RESULT_BYTES[byte] + i * BLOCK_BYTES
            data[start:start + BLOCK_BYTES] = jobs.block(times(o.read_block(operands, start), rows[i]))
        job += bytes([byte]) + data
    return bytes(job) + rest


def solution(rng, masks, count):
    """Random bits, of which an even number stand in each mask."""
    leading = {}
    for mask in masks:
        while mask and mask.bit_length() - 1 in leading:
            mask ^= leading[mask.bit_length() - 1]
        if mask:
            leading[mask.bit_length() - 1] = mask
    bits = 0
    for i in range(count):                          # a mask's lower bits are chosen before its leading one
        if (bits & leading[i]).bit_count() % 2 if i in leading else rng.random() < 0.5:
            bits |= 1 << i
    return bits


def load_signs(rng, commands):
    """The sign of each result, True for a negated one: those of the loads at random, equal for both operands of a sum or
    difference, plus under a root; a product or quotient has the product of the signs."""
    masks, equal, loads = [], [], 0                 # the loads whose signs a result's sign is the product of
    for byte, operands in commands:
        named = [masks[name] for name in operands[:o.RESULT_BYTES[byte]]]
        if byte in o.LOADS:
            mask, loads = 1 << loads, loads + 1
        elif byte in ROOTS:
            mask = 0
            equal.append(named[0])
        else:
            mask = named[0] if byte in (o.ADD, o.SUBTRACT) else named[0] ^ named[1]
            if byte in (o.ADD, o.SUBTRACT):
                equal.append(named[0] ^ named[1])
        masks.append(mask)
    bits = solution(rng, equal, loads)
    return [(bits & mask).bit_count() % 2 == 1 for mask in masks]


def job_counterparts(rng, case):
    """The job with some loads negated, and the job with the odd coefficients of all its blocks negated."""
    edition, commands, rest = job_parts(*case.inputs)
    results = [NEGATED if negated else SAME for negated in load_signs(rng, commands)]
    # h has its result's sign, w that of the divisor; below a root all signs are plus.
    blocks = [(sign, results[operands[1]] if byte == o.QUOTIENT else sign)
              for (byte, operands), sign in zip(commands, results)]
    yield SIGNED_JOB, written(edition, commands, rest, blocks), results
    mirrored = [(MIRRORED, MIRRORED)] * len(commands)
    yield MIRRORED_JOB, written(edition, commands, rest, mirrored), [MIRRORED] * len(commands)


# ---- Pairs ------------------------------------------------------------------------------

def counterparts(rng, case):
    """Each counterpart of a call: its kind, the call, the signs of the answer."""
    if case.entry == 'check':
        for kind, job, signs in job_counterparts(rng, case):
            yield kind, case._replace(inputs=(job,)), signs
    if case.entry == 'evaluate':
        case = case._replace(scalar=mirrored_point(case))
    for kind, (entry, signs, answer) in KINDS.items():
        if entry == case.entry:
            yield kind, case._replace(inputs=tuple(map(times, case.inputs, signs))), [answer]


def drawn_cases(rng, wanted):
    """Fixed calls of each entry that has counterparts, as many random ones as wanted; the example jobs, and jobs with ties."""
    fixed = {**cases.FIXED, **job_cases.FIXED, **series_cases.FIXED}
    drawn = {**cases.RANDOM, 'check': job_cases.RandomJobs(), **series_cases.RANDOM}
    for entry in dict.fromkeys(ENTRY.values()):
        yield from area_cases(entry)
        yield from fixed[entry]()
        yield from islice(interval_cases.interval_cases(entry), 0, None, 3)
        for _ in range(wanted):
            yield perhaps_shortened(rng, interval_cases.on_some_interval(rng, drawn[entry](rng)))
    for path in sorted((ROOT / 'examples').glob('*.job')):
        yield job_cases.case(path.read_bytes())
    for _ in range(wanted // 2):
        yield job_cases.case(jobs.tied_builder(rng).job())
    # Every refusal behind a load that no command before it names: its sign is free, and it is not its own mirror.
    head = jobs.EDITION_1 + jobs.load(FOUR) + jobs.load(CURVE)
    signs = [root(0, FOUR, model([0, w])) for root in (jobs.root, jobs.tight_root) for w in (S, -S)]
    for command in (*job_cases.faulty_commands(2), *signs):
        yield job_cases.case(head + command + jobs.END)


def drawn_pairs(rng, wanted):
    for case in drawn_cases(rng, wanted):
        try:
            for kind, counterpart, signs in counterparts(rng, case):
                if counterpart != case:
                    yield Pair(kind, case, counterpart, tuple(signs))
        except OverflowError:
            continue


# ---- Answers ------------------------------------------------------------------------------

class Answer(NamedTuple):
    number: int
    models: list            # in the area out or work
    others: list            # bounds; count and command


def read_answer(case, areas, data):
    number, start, models, others = int.from_bytes(data[:4], 'little'), 4, [], []
    for (code, length, content), (_, size, what) in zip(areas, AREAS[case.entry]):
        width = content.itemsize
        # The work area is not touched by refusal 1, no area if it is itself too short.
        if what in ANSWER_AREAS and length >= size and (what, number) != ('work', SHORT_AREA):
            numbers = list(array(code, data[start:start + width * size]))
            if what in ('out', 'work'):
                models = [numbers[i:i + MODEL_SIZE] for i in range(0, size, MODEL_SIZE)]
            else:
                others += numbers
        start += width * len(content)
    return Answer(number, models, others)


def turned(answer, signs):
    """What the counterpart of a call with this answer has to answer."""
    rows = [*signs, *[SAME] * (MAX_RESULTS - len(signs))]
    return answer._replace(models=[[m[0], *map(mul, row, m[1:PLACE_RADIUS]), *m[PLACE_RADIUS:]]
                                   for m, row in zip(answer.models, rows)])


def sign_refused(pair, first, second):
    """A root's test of the helper's sign is taken at x = 1, which a mirror turns to -1.  Where the two differ w has a zero
    between, so that the next test fails: one job is refused with 7, the other with 5."""
    return pair.kind == MIRRORED_JOB and {first.number, second.number} == {NOT_CONTRACTING, HELPER_NOT_POSITIVE}


def agree(pair, first, second):
    expected = turned(first, pair.signs)
    return second == (expected._replace(number=second.number) if sign_refused(pair, first, second) else expected)


def told(pair, first, second):
    """How the counterpart's answer differs, in words."""
    expected = turned(first, pair.signs)
    models = [(i, m, n) for i, (m, n) in enumerate(zip(second.models, expected.models)) if m != n]
    return (f'number {second.number} with {second.others} instead of {expected.number} with {expected.others}'
            + ''.join(f', model {i} is {m} instead of {n}' for i, m, n in models[:1]))


def answers_of(program, calls):
    """The two answers to each pair, whose calls follow each other."""
    read = []
    for start in range(0, len(calls), BATCH):
        batch = calls[start:start + BATCH]
        read += [read_answer(*call, data) for call, data in zip(batch, run_harness(program, batch, []))]
    return list(zip(read[::2], read[1::2]))


def spoil(pairs, answers):
    """One more or less in the last accepted answer of each kind, at its end; gives where."""
    last = {pair.kind: i for i, (pair, (first, _)) in enumerate(zip(pairs, answers)) if first.number == 0 and pair.signs}
    for i in last.values():
        first, second = answers[i]
        (second.models[0] if second.models else second.others)[-1] ^= 1
    return set(last.values())


# ---- The program --------------------------------------------------------------------------

def same_text(program, pair):
    texts = [subprocess.run([program], input=case.inputs[0], stdout=subprocess.PIPE).stdout
             for case in (pair.case, pair.counterpart)]
    return texts[0] == texts[1] != b''


def program_differences(program, pairs, answers, wanted, rng):
    """Pairs of jobs of equal numbers whose texts differ, of so many."""
    fit = [pair for pair, (first, second) in zip(pairs, answers) if pair.case.entry == 'check' and first.number == second.number]
    chosen = rng.sample(fit, min(wanted, len(fit)))
    different = [pair for pair in chosen if not same_text(program, pair)]
    print(f'{len(chosen)} pairs of jobs through {program}, {len(different)} differences')
    return different


# ---- Counts -------------------------------------------------------------------------------

def answers_by(library, plain, calls):
    with tempfile.TemporaryDirectory() as folder:
        return answers_of(build_harness(folder, sorted(set(ENTRY.values())), library, plain, []), calls)


def shown_by(pairs, calls, rule):
    """How many pairs of each kind fail with plain C and this rule of ties."""
    with tempfile.TemporaryDirectory() as folder:
        answers = answers_by(None, spoiled_plain(folder, NEAR, f'{NEAR}    return {rule};\n'), calls)
    return Counter(pair.kind for pair, both in zip(pairs, answers) if not agree(pair, *both))


def is_placed(case):
    """Whether a model, or a load of a job, is on another interval than the standard one."""
    if case.entry != 'check':
        return interval_cases.is_placed(case)
    return any(byte == o.LOAD_ON and o.read_ends(byte, operands) != o.STANDARD for byte, operands in job_parts(*case.inputs)[1])


def check_opposite(pairs, answers, rng, library, plain):
    """Evaluations at -p in place of l + u - p are found, where both points are of the interval."""
    wrong = [(pair, first) for pair, (first, _) in zip(pairs, answers) if pair.case.entry == 'evaluate' and first.number == 0]
    cases = [pair.counterpart._replace(scalar=opposite(pair.case.scalar)) for pair, _ in wrong]
    calls = [(case, lent_areas(case, rng, True)) for case in cases for _ in range(2)]
    found = sum(second.number == 0 and not agree(pair, first, second)
                for (pair, first), (second, _) in zip(wrong, answers_by(library, plain, calls)))
    print(f'evaluate: mirrored at -p shows in {found}')
    assert found >= SHOWN, 'too few evaluations that show the mirror at -p'


def check_counts(pairs, calls, answers):
    """Enough pairs of each kind, on other intervals too, each with every refusal of its entry, and with ties that show."""
    shown = [shown_by(pairs, calls, rule) for rule in (TIES_UP, TIES_DOWN)]
    for kind, entry in ENTRY.items():
        numbers = Counter(first.number for pair, (first, _) in zip(pairs, answers) if pair.kind == kind)
        ties = [counts[kind] for counts in shown]
        placed = sum(pair.kind == kind and first.number == 0 and is_placed(pair.case) for pair, (first, _) in zip(pairs, answers))
        print(f'{kind}: {numbers.total()} pairs, {numbers[0]} accepted, {placed} of these on other intervals; ties upwards show in '
              f'{ties[0]}, downwards in {ties[1]}')
        missing = {SHORT_AREA, *WITNESSES[entry]} - set(numbers)
        assert not missing, f'{kind}: never {missing}'
        assert numbers.total() >= PAIRS and numbers[0] >= ACCEPTED and min(ties) >= SHOWN, kind
        assert placed >= PLACED or entry == 'from_series', kind
    refused = Counter((first.number, second.number) for pair, (first, second) in zip(pairs, answers)
                      if sign_refused(pair, first, second))
    print(f'{MIRRORED_JOB}: {refused.total()} refused with 5 against 7, or 7 against 5')
    assert len(refused) == 2, 'no root whose helper changes its sign, to plus or to minus'


def main():
    parser = argparse.ArgumentParser()
    parser.add_argument('--library', type=Path, help='static library under test')
    parser.add_argument('--plain', type=Path, default=PLAIN, help='folder of the plain C version to test instead')
    parser.add_argument('--program', type=Path, help='the program jobcheck, for jobs')
    parser.add_argument('--cases', type=int, default=1000, help='random calls of each entry')
    parser.add_argument('--seed', type=int, default=1)
    parser.add_argument('--plant', action='store_true', help='spoil an answer of each kind')
    options = parser.parse_args()
    rng = Random(options.seed)
    pairs = list(drawn_pairs(rng, options.cases))
    calls = [(case, lent_areas(case, rng, True)) for pair in pairs for case in (pair.case, pair.counterpart)]
    answers = answers_by(options.library, options.plain, calls)
    planted = spoil(pairs, answers) if options.plant else set()
    different = {i for i, (pair, both) in enumerate(zip(pairs, answers)) if not agree(pair, *both)}
    for i in sorted(different)[:10]:
        print(f'{pairs[i].kind}: {told(pairs[i], *answers[i])} for {str(pairs[i].case)[:600]}')
    print(f'{len(pairs)} pairs, {len(different)} differences, seed {options.seed}')
    if options.plant:
        if not planted <= different or len(planted) < len(ENTRY):
            stop('a planted answer was not found')
        sys.exit(1)
    if different:
        sys.exit(1)
    check_counts(pairs, calls, answers)
    check_opposite(pairs, answers, rng, options.library, options.plain)
    sys.exit(1 if options.program and program_differences(options.program, pairs, answers, 300, rng) else 0)


if __name__ == '__main__':
    try:
        main()
    except Exception:                               # never mistaken for a difference
        traceback.print_exc()
        stop('the pairs are not enough, or could not be run')
