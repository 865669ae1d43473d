"""Likely causes when a job does not read: other ways of writing it are tried on the bytes."""

from .reading import Checked, split, write_step
from .tables import BY_BYTE, WIDTH

HEX = set(b'0123456789abcdefABCDEF \t\r\n')

# How a block, a radius or an interval may have been written instead: name, kind of the operand, its bytes at a place.
LAYOUTS = [
    ('each block holds only its degree + 1 coefficients; it must always hold 33 (133 bytes)', 'block',
     lambda job, at: 1 + 4 * (job[at] + 1)),
    ('the radius of each load is missing (4 bytes behind the block)', 'radius', lambda job, at: 0),
    ('the radius of each load has 8 bytes; it has 4', 'radius', lambda job, at: 8),
    ('the radius of each load has 1 byte; it has 4', 'radius', lambda job, at: 1),
    ('the blocks have no degree byte', 'block', lambda job, at: 132),
    ('each block holds 32 coefficients; it holds 33, T_0 to T_32', 'block', lambda job, at: 129),
    ('the degree of each block has 4 bytes; it has 1', 'block', lambda job, at: 136),
    ('the coefficients have 8 bytes each; they have 4', 'block', lambda job, at: 1 + 8 * 33),
    ('the coefficients have 2 bytes each; they have 4', 'block', lambda job, at: 1 + 2 * 33),
    ('the ends of each load by 0x14 are missing (4 bytes each, behind the radius)', 'interval', lambda job, at: 0),
    ('the ends of each load by 0x14 have 8 bytes each; they have 4', 'interval', lambda job, at: 16),
]


def walk(job, other_kind, other_bytes, chosen):
    """Commands read in another layout at the chosen commands and operands, and whether there is such a one and the last
    byte is then the end."""
    at = number = 0
    met = other_kind is None
    while at < len(job):
        command = BY_BYTE.get(job[at])
        if command is None or (command.name == 'edition') != (number == 0):
            return number, False
        if command.name == 'end':
            return number, met and at == len(job) - 1
        at += 1
        for kind, name in command.operands:
            if at >= len(job):
                return number, False
            other = kind == other_kind and chosen(number, name)
            at += other_bytes(job, at) if other else WIDTH[kind]
            met = met or other
        number += 1
    return number, False


def other_layouts(job, at):
    """Layouts with which the job ends well: everywhere, else, if it does not end well as it is, at the refused command or
    the one before."""
    for name, kind, other_bytes in LAYOUTS:
        number, ended = walk(job, kind, other_bytes, lambda number, name: True)
        if ended and number > 1:
            yield f'read so, the job ends well: {name}'
            return
    # A job that ends well as it is has no block of another length.
    if walk(job, None, None, lambda number, name: False)[1]:
        return
    for place in (at, at - 1):
        for operand in ('radius', 'h', 'w', 'model', 'interval'):
            for name, kind, other_bytes in LAYOUTS:
                if walk(job, kind, other_bytes, lambda number, name: (number, name) == (place, operand))[1]:
                    yield f'read so at {operand} of command {place} alone, the job ends well: {name}'
                    return


def whole_file(job):
    """Mistakes of the file as a whole."""
    if not job:
        return
    if job[:2] == b'\x1f\x8b' or job[:4] == b'PK\x03\x04':
        yield 'the file is compressed; unpack it first'
    elif set(job) <= HEX and len(job) > 8:
        yield 'the file is hexadecimal text; a job is the bytes themselves'
    elif job[:4].lower() in (b'# fe', b'edit', b'load') or (job[:1] == b'{' and b'"' in job[:40]):
        yield ('the file is text; `ferruntzo assemble` makes a job of a listing, `ferruntzo solve` '
               'of a curve')
    elif job[:3] == b'\xef\xbb\xbf':
        yield 'the file begins with a byte order mark (ef bb bf) of a text editor'
    if b'\r\n' in job and Checked(job.replace(b'\r\n', b'\n')).refusal not in (9, 10, 11, 12, 13):
        yield 'each byte 0a became 0d 0a: the file was written or copied in text mode'
    if job[0] != 1 and Checked(b'\x01\x01' + job).command > 1:
        yield 'the edition is missing: a job begins with the bytes 01 01 or 01 02'


def after_end(job, checked):
    """What the bytes behind the end may be."""
    behind = job[checked.offset + 1:]
    if behind.strip(b'\r\n') == b'':
        yield 'a newline was written behind the end'
    elif behind.strip(b'\0') == b'':
        yield 'only zero bytes follow: two ends, or a job padded to a fixed length'
    elif len(split(behind)[0]) > 1 and behind[0] == 1:
        yield 'another job follows: two jobs were joined into one file'


def counted_from_one(job):
    """The job with each named result lowered by one."""
    steps, offset = split(job)
    if any(step.values[name] == 0 for step in steps
           for kind, name in step.command.operands if kind == 'result'):
        return None
    return b''.join(write_step(step.command, {
        name: step.values[name] - 1 if kind == 'result' else step.values[name]
        for kind, name in step.command.operands}) for step in steps) + job[offset:]


def causes(job, checked):
    """Lines that name a likely mistake of writing, for a refused job."""
    found = list(whole_file(job))
    if checked.refusal == 11:
        found += after_end(job, checked)
    if checked.refusal == 10 and checked.offset == len(job) and Checked(job + b'\0').accepted:
        found.append('the end is missing: a job ends with the byte 00')
    if checked.refusal in (2, 9, 10, 11, 12, 13, 18) or checked.command < 3:
        found += other_layouts(job, checked.command)
    if checked.refusal in (3, 5, 6, 8, 12, 17, 19):
        lowered = counted_from_one(job)
        other = Checked(lowered) if lowered is not None else checked
        if other.accepted or (checked.refusal == 12 and other.command > checked.command):
            found.append('results seem to be counted from 1; they are counted from 0')
    return found
