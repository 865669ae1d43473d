"""Mistakes of solver authors: each must lead `ferruntzo explain` to a line that names it.

  tool_mistakes.py [--verbose]

Each mistake is made in examples/stretch.job, whose commands are known; those that leave every byte in its place also with its
root by 0x22; results counted from 1 also in jobs whose root is what is refused. Those of intervals are made in
examples/machine_time.job, and no other job is told of 0x14.
"""

import struct
import sys
from math import sqrt
from pathlib import Path

ROOT = Path(__file__).resolve().parent.parent
sys.path.insert(0, str(ROOT / 'tools'))

from header import BLOCK_BYTES, COEFFICIENTS, MAX_DEGREE               # noqa: E402
from ferruntzo_tool import explain                                      # noqa: E402
from ferruntzo_tool.reading import Checked, read_block, split, write_block  # noqa: E402
from ferruntzo_tool.tables import BY_NAME, S, WIDTH, is_load            # noqa: E402
import jobs                                                             # noqa: E402
from cases import on                                                    # noqa: E402
from oracle import constant                                             # noqa: E402

GOOD = (ROOT / 'examples' / 'stretch.job').read_bytes()
STEPS = split(GOOD)[0]
ROOT_STEP = next(step for step in STEPS if step.command.name == 'root')
QUOTIENT = next(step for step in STEPS if step.command.name == 'quotient')
LOADS = [step for step in STEPS if step.command.name == 'load']
LITTLE, BIG = f'<{COEFFICIENTS}i', f'>{COEFFICIENTS}i'
H, W = ROOT_STEP.offsets['h'], ROOT_STEP.offsets['w']


def blocks():
    return [step.offsets[name] for step in STEPS for kind, name in step.command.operands
            if kind == 'block']


def put(job, at, change, degree=None):
    """The job with the coefficients of the block at an offset changed."""
    m = read_block(job[at:at + BLOCK_BYTES])
    row = change(m.coefficients, m.degree)
    row = row + [0] * (COEFFICIENTS - len(row))
    return job[:at] + write_block(m._replace(coefficients=row, degree=m.degree if degree is None
                                             else degree(m.degree))) + job[at + BLOCK_BYTES:]


def everywhere(change, places):
    job = GOOD
    for at in places:
        job = put(job, at, change)
    return job


def big(row, _):
    return list(struct.unpack(LITTLE, struct.pack(BIG, *row)))


def big_raw(job, at):
    end = at + BLOCK_BYTES
    return job[:at + 1] + struct.pack(BIG, *struct.unpack(LITTLE, job[at + 1:end])) + job[end:]


def big_all(places):
    job = GOOD
    for at in places:
        job = big_raw(job, at)
    return job


def shorter(keep, job=GOOD):
    """The job with every block, radius and interval as `keep` has it."""
    made = b''
    for step in split(job)[0]:
        made += bytes([step.command.byte])
        for kind, name in step.command.operands:
            at = step.offsets[name]
            made += keep(kind, job[at:at + WIDTH[kind]])
    return made


def power_basis(row, degree):
    """Coefficients of T_k turned into those of powers of x, rounded."""
    terms, polys = [0.0] * COEFFICIENTS, [[1.0], [0.0, 1.0]]
    while len(polys) <= degree:
        one, two = polys[-2:]
        made = [0.0] + [2 * c for c in two]
        for i, c in enumerate(one):
            made[i] -= c
        polys.append(made)
    for k in range(degree + 1):
        for i, c in enumerate(polys[k]):
            terms[i] += c * row[k]
    return [round(c) for c in terms]


def exchanged(step, one, two, size):
    a, b = step.offsets[one], step.offsets[two]
    job = bytearray(GOOD)
    job[a:a + size], job[b:b + size] = GOOD[b:b + size], GOOD[a:a + size]
    return bytes(job)


def from_one():
    job = bytearray(GOOD)
    for step in STEPS:
        for kind, name in step.command.operands:
            if kind == 'result':
                job[step.offsets[name]] += 1
    return bytes(job)


# ---- Intervals ----

TIME = (ROOT / 'examples' / 'machine_time.job').read_bytes()
TIME_LOADS = [step for step in split(TIME)[0] if is_load(step)]


def on_times(change, loads=None, job=TIME):
    """The job with the 8 bytes of the ends of some loads, or of all, as `change` has them for its ends."""
    for step in TIME_LOADS if loads is None else [TIME_LOADS[i] for i in loads]:
        at = step.offsets['interval']
        job = job[:at] + change(*step.values['interval']) + job[at + 8:]
    return job


def packed(form, change=lambda end: end):
    return lambda lower, upper: struct.pack(form, change(lower), change(upper))


def radius_last():
    """Every load by 0x14 with its ends before its radius."""
    job = TIME
    for step in TIME_LOADS:
        at = step.offsets['radius']
        job = job[:at] + job[at + 4:at + 12] + job[at:at + 4] + job[at + 12:]
    return job


def around_zero(change):
    """Two loads on an interval about 0 and their sum, with their ends as `change` has them."""
    good = jobs.load_on(on(constant(S), -3 * S, 2 * S))[:-8] + change(-3 * S, 2 * S)
    return jobs.EDITION_1 + good + good + jobs.add(0, 1) + jobs.END


def loaded_by_10(number):
    """The load of a result by 0x10, without its ends."""
    step = TIME_LOADS[number]
    at = step.offsets['interval']
    return TIME[:step.offset] + bytes([BY_NAME['load'].byte]) + TIME[step.offset + 1:at] + TIME[at + 8:]


def from_one_on_intervals():
    """Results counted from 1, so that the sum of results 1 and 2 is that of 2 and 3, on another interval."""
    rows = [on(constant(S), *ends) for ends in ((0, S), (0, S), (0, 2 * S))]
    return jobs.EDITION_1 + b''.join(map(jobs.load_on, rows)) + jobs.add(1, 2) + jobs.END


def root_from_one(root, refusal):
    """The root of the first result; read as that of the second it is refused with this number."""
    job = (jobs.EDITION_1 + jobs.load(constant(4 * S)) + jobs.load(constant(S))
           + root(1, constant(2 * S), constant(S // 4)) + jobs.END)
    assert Checked(job).refusal == refusal
    return job


def reverse(row, degree):
    return row[:degree + 1][::-1]


LOAD_BLOCKS = [step.offsets['model'] for step in LOADS[1:]]

# The mistake, the job with it, and words that a line of the explanation must hold.
MISTAKES = [
    ('factor 2 forgotten in w of a root', put(GOOD, W, lambda r, n: [2 * c for c in r]), 'factor 2'),
    ('w = 1/(4h)', put(GOOD, W, lambda r, n: [c // 2 for c in r]), 'times 1/(2h) all along'),
    ('h of f/2', put(GOOD, H, lambda r, n: [int(c / sqrt(2)) for c in r]), 'times f all along'),
    ('h mirrored', put(GOOD, H, lambda r, n: [c * (-1) ** k for k, c in enumerate(r)]), 'h runs the other way'),
    ('h reversed', put(GOOD, H, reverse), 'h has its coefficients in reverse'),
    ('h reversed over 33', put(GOOD, H, lambda r, n: r[::-1], lambda n: MAX_DEGREE), 'in reverse (T_32 first)'),
    ('every block reversed', everywhere(reverse, blocks()), 'every block has its coefficients in reverse'),
    ('w reversed', put(GOOD, W, reverse), 'w has its coefficients in reverse'),
    ('c_0 doubled in h', put(GOOD, H, lambda r, n: [2 * r[0], *r[1:]]), 'h has c_0 doubled'),
    ('c_0 doubled in every h and w', everywhere(lambda r, n: [2 * r[0], *r[1:]], [
        step.offsets[name] for step in STEPS for kind, name in step.command.operands
        if kind == 'block' and step.command.name != 'load']), 'every h and w has c_0 doubled'),
    ('c_0 halved in h', put(GOOD, H, lambda r, n: [r[0] // 2, *r[1:]]), 'h has c_0 halved'),
    ('degree byte is the number of coefficients', put(GOOD, H, lambda r, n: r, lambda n: n + 1),
     'the number of coefficients'),
    ('degree byte too low', put(GOOD, H, lambda r, n: r, lambda n: n - 1), 'degree byte is'),
    ('big-endian h', big_raw(GOOD, H), 'h has its coefficients big-endian'),
    ('big-endian loads', big_all(LOAD_BLOCKS + [LOADS[0].offsets['model']]),
     'every load has its coefficients big-endian'),
    ('everything big-endian', big_all(blocks()), 'every block has its coefficients big-endian'),
    ('h in mm', put(GOOD, H, lambda r, n: [round(c / S) for c in r]), 'in millimetres'),
    ('w in mm', put(GOOD, W, lambda r, n: [round(c / S) for c in r]), 'in millimetres'),
    ('loads in mm', everywhere(lambda r, n: [round(c / S) for c in r], LOAD_BLOCKS), 'in millimetres'),
    ('floats for units', everywhere(lambda r, n: list(struct.unpack(LITTLE, struct.pack(
        f'<{COEFFICIENTS}f', *(c / S for c in r)))), blocks()), '32-bit floating-point'),
    ('powers of x in h', put(GOOD, H, power_basis), 'powers of x'),
    ('h and w exchanged', exchanged(ROOT_STEP, 'h', 'w', BLOCK_BYTES), 'h and w are exchanged'),
    ('operands of a quotient exchanged', exchanged(QUOTIENT, 'f', 'g', 1), 'f and g are exchanged'),
    ('sign of h and w', everywhere(lambda r, n: [-c for c in r], [H, W]), 'positive root'),
    ('short blocks', shorter(lambda kind, raw: raw[:1 + 4 * (raw[0] + 1)] if kind == 'block' else raw),
     'only its degree + 1 coefficients'),
    ('one short block', GOOD[:H] + GOOD[H:H + 1 + 4 * (GOOD[H] + 1)] + GOOD[W:], 'h of command 9 alone'),
    ('radius of a load left out', shorter(lambda kind, raw: b'' if kind == 'radius' else raw),
     'the radius of each load is missing'),
    ('radius of one load left out', GOOD[:136] + GOOD[140:], 'radius of command 1 alone'),
    ('32 coefficients', shorter(lambda kind, raw: raw[:129] if kind == 'block' else raw), '32 coefficients'),
    ('no degree byte', shorter(lambda kind, raw: raw[1:] if kind == 'block' else raw), 'no degree byte'),
    ('no end', GOOD[:-1], 'the end is missing'),
    ('two ends', GOOD + b'\0', 'two ends'),
    ('two jobs joined', GOOD + GOOD, 'two jobs were joined'),
    ('newline at the end', GOOD + b'\n', 'newline'),
    ('results counted from 1', from_one(), 'counted from 1'),
    ('results counted from 1, 8', root_from_one(jobs.root, 8), 'counted from 1'),
    ('results counted from 1, 17', root_from_one(jobs.tight_root, 17), 'counted from 1'),
    ('no edition', GOOD[2:], 'the edition is missing'),
    ('text mode', GOOD.replace(b'\n', b'\r\n') if b'\n' in GOOD else
     put(GOOD, H, lambda r, n: [*r[:n], (r[n] & ~255) | 10]).replace(b'\n', b'\r\n'), 'text mode'),
    ('hexadecimal text', GOOD.hex().encode(), 'hexadecimal text'),
    ('a listing', b'# ferruntzo job text 1\nedition 1\nend\n', 'assemble'),
]


def tighter(job):
    """The job with its root by 0x22."""
    return job[:ROOT_STEP.offset] + bytes([BY_NAME['tight_root'].byte]) + job[ROOT_STEP.offset + 1:]


MISTAKES += [(f'{name}, 0x22', tighter(job), words) for name, job, words in MISTAKES
             if len(job) == len(GOOD) and job[ROOT_STEP.offset] == ROOT_STEP.command.byte]


INTERVAL_MISTAKES = [
    ('ends exchanged', on_times(lambda lower, upper: struct.pack('<2i', upper, lower)),
     'every load by 0x14 has its ends exchanged'),
    ('ends of one load exchanged', on_times(lambda lower, upper: struct.pack('<2i', upper, lower), [2]),
     'the load of result 2 has its ends exchanged'),
    ('ends in seconds', on_times(packed('<2i', lambda end: end // S)), 'may be in seconds or millimetres'),
    ('ends of one load in seconds', on_times(lambda lower, upper: struct.pack('<2i', 2, 5), [1], on_times(
        lambda lower, upper: struct.pack('<2i', 2 * S, 5 * S))), 'the load of result 1 has its ends in seconds'),
    ('ends in seconds below 1', on_times(lambda lower, upper: bytes(8)), 'rounded before they were multiplied'),
    ('equal ends', on_times(lambda lower, upper: struct.pack('<2i', lower, lower)), 'is not below its upper end 13,107,200'),
    ('ends big-endian', on_times(packed('>2i')), 'every load by 0x14 has its ends big-endian'),
    ('ends in floats', on_times(packed('<2f', lambda end: end / S)), '32-bit floating-point numbers as its ends'),
    ('ends with a sign bit', around_zero(packed('<2I', lambda end: abs(end) | (end < 0) << 31)),
     'sign of its ends in the highest bit'),
    ('ends unsigned', around_zero(packed('<2I', lambda end: end + (1 << 31))), 'ends unsigned, with 2^31 added'),
    ('ends before the radius', radius_last(), 'has its ends before its radius'),
    ('no ends', shorter(lambda kind, raw: b'' if kind == 'interval' else raw, TIME), 'ends of each load by 0x14 are missing'),
    ('ends of 8 bytes', shorter(lambda kind, raw: struct.pack('<2q', *struct.unpack('<2i', raw)) if kind == 'interval' else raw,
                                TIME), 'have 8 bytes each'),
    ('the bur by 0x10', loaded_by_10(0), 'the load of result 0 is by 0x10, so on -S..S; on 13,107,200'),
    ('a curve by 0x10', loaded_by_10(2), 'the load of result 2 is by 0x10, so on -S..S; on 13,107,200'),
    ('a curve on other ends', on_times(lambda lower, upper: struct.pack('<2i', 0, upper), [3]),
     'the load of result 3 is by 0x14 with other ends; on 13,107,200'),
    ('an end one unit off', on_times(lambda lower, upper: struct.pack('<2i', lower, upper + 1), [4]), 'differ by only 1 unit'),
    ('results counted from 1, 19', from_one_on_intervals(), 'counted from 1'),
]


def main():
    missed = 0
    for name, job, words in MISTAKES + INTERVAL_MISTAKES:
        checked = Checked(job)
        lines = list(explain.explanation(job, checked))
        said = checked.text().splitlines()[-1]
        named = [line for line in lines if words in line]
        if '--verbose' in sys.argv or not named:
            print(f'{name}: {said}: {named[0].strip() if named else "NOT NAMED"}')
            if not named:
                print('\n'.join('      ' + line for line in lines[-6:]))
        missed += not named
        if '0x14' in ''.join(lines) and (name, job, words) in MISTAKES:
            print(f'{name}: a job without 0x14 is told of it')
            missed += 1
    for job in (GOOD, tighter(GOOD), TIME):
        good = '\n'.join(explain.explanation(job, Checked(job)))
        if 'mistake' in good or 'CAUTION' in good:
            print('a good job is said to have a mistake')
            missed += 1
    print(f'{len(MISTAKES + INTERVAL_MISTAKES)} mistakes, {missed} not named')
    sys.exit(1 if missed else 0)


if __name__ == '__main__':
    main()
