"""Finding and running jobcheck, which alone decides about a job."""

import os
import select
import shutil
import stat
import subprocess
import sys
import time
from collections import namedtuple
from pathlib import Path

from .tables import MAX_JOB_BYTES, PROGRAM_BYTES

TIME_LIMIT = 60                 # seconds for one job; a job takes about a millisecond
PIPE_WAIT = 5                   # seconds in which somebody must begin to write to a named pipe
PIECE = 1 << 16                 # bytes that are read at once
MOST_BYTES = 1 << 28            # of a curve or a text that are taken into memory; a device may have no end

# accepted: radii and degrees by result. refused: refusal and command.
Answer = namedtuple('Answer', 'accepted degrees radii refusal command text')


class NotChecked(Exception):
    """No verdict was given: exit status 2."""


def shown(name):
    """A file name as it may be printed: in one line, control characters and bytes that are no UTF-8 escaped."""
    def letter(c):
        if '\udc80' <= c <= '\udcff':
            return f'\\x{ord(c) - 0xdc00:02x}'
        return c if c.isprintable() else c.encode('unicode_escape').decode('ascii')
    return ''.join(map(letter, str(name)))


def quoted(given):
    """What a file holds, as it may stand in a line: its beginning in quotes."""
    text = str(given)
    return repr(text[:40]) + ('…' if len(text) > 40 else '')


def find(named=None):
    """The program: as named, by FERRUNTZO_JOBCHECK, beside the tool, of the repository, on the PATH."""
    here = Path(sys.argv[0]).resolve().parent
    named = named or os.environ.get('FERRUNTZO_JOBCHECK')
    places = [Path(named)] if named else [here / 'jobcheck', here.parent / 'target/bin/jobcheck']
    for place in places:
        if place.is_file() and os.access(place, os.X_OK):
            return str(place.resolve())
    found = None if named else shutil.which('jobcheck')
    if found:
        return found
    raise NotChecked(f'the program jobcheck is not at {shown(named)}; --jobcheck or FERRUNTZO_JOBCHECK '
                     'names it' if named else
                     'the program jobcheck was not found; install it, build it '
                     '(scripts/build_program), or name it with --jobcheck')


def _piped(descriptor, most):
    """The bytes of a named pipe. Somebody must have it open for writing soon; then it may take its time."""
    found, begun, until = b'', False, time.monotonic() + PIPE_WAIT
    waiting = select.poll()
    waiting.register(descriptor, select.POLLIN)
    while len(found) < most:
        try:
            piece = os.read(descriptor, min(PIECE, most - len(found)))
        except BlockingIOError:
            # Somebody has it open and has not written yet.
            begun = True
            waiting.poll()
            continue
        if not piece and not begun and not waiting.poll(0):
            if time.monotonic() > until:
                raise NotChecked(f'a pipe to which nobody wrote in {PIPE_WAIT} s')
            time.sleep(0.02)
            continue
        if not piece:
            break
        found, begun = found + piece, True
    return found


def first_bytes(name, most):
    """The first bytes of a file, or of standard input, which is -."""
    try:
        if name == '-':
            if sys.stdin is None:
                raise NotChecked('standard input is closed, or a folder')
            return sys.stdin.buffer.read(most)
        # A pipe that nobody writes to would hold an ordinary open for ever.
        descriptor = os.open(name, os.O_RDONLY | os.O_NONBLOCK)
        with open(descriptor, 'rb') as file:
            if stat.S_ISFIFO(os.fstat(descriptor).st_mode):
                return _piped(descriptor, most)
            return file.read(most)
    except OSError as error:
        raise NotChecked(f'{shown(name)}: cannot be read: {error.strerror or error}') from error
    except ValueError as error:
        raise NotChecked(f'{shown(name)}: cannot be read: {error}') from error
    except NotChecked as error:
        raise NotChecked(f'{shown(name)}: {error}') from error


def read_file(name):
    """The bytes of a file; - is standard input."""
    found = first_bytes(name, MOST_BYTES + 1)
    if len(found) > MOST_BYTES:
        raise NotChecked(f'{shown(name)}: more than the {MOST_BYTES:,} bytes that are taken into memory')
    return found


def read_job(name):
    """The bytes of a job, and no more of a larger file than shows that it is too long."""
    job = first_bytes(name, PROGRAM_BYTES + 1)
    if len(job) > PROGRAM_BYTES:
        raise NotChecked(f'{shown(name)}: more than the {PROGRAM_BYTES:,} bytes that the program reads; a job has at '
                         f'most {MAX_JOB_BYTES:,}')
    return job


def _lines(text):
    """The answer that a text holds, or ValueError."""
    lines = text.split('\n')
    if lines.pop() != '':
        raise ValueError
    words = lines[-1].split(' ')
    if words[0] == 'refused' and len(lines) == 1 and len(words) == 3:
        return Answer(False, [], [], int(words[1]), int(words[2]), text)
    rows = [list(map(int, line.split(' '))) for line in lines[:-1]]
    if (words[0] != 'accepted' or len(words) != 2 or int(words[1]) != len(rows)
            or any(len(row) != 3 or row[0] != i for i, row in enumerate(rows))):
        raise ValueError
    return Answer(True, [row[1] for row in rows], [row[2] for row in rows], 0, 0, text)


def older(job, answer):
    """A sentence about a program that does not know the edition of a job, or nothing."""
    if job[:2] != b'\x01\x02' or (answer.refusal, answer.command) != (9, 0):
        return ''
    return (' The job is of edition 2, which jobcheck knows from version 5.0.0 on, and this one does not; `ferruntzo convert` '
            'makes a job of edition 1 of it.')


def run(program, job, name='the job'):
    """The program's answer to a job."""
    name, program_name = shown(name), shown(program)
    try:
        done = subprocess.run([program], input=job, stdout=subprocess.PIPE,
                              stderr=subprocess.DEVNULL, timeout=TIME_LIMIT, check=False)
    except subprocess.TimeoutExpired as error:
        raise NotChecked(f'{name}: {program_name} did not end in {TIME_LIMIT} s') from error
    except OSError as error:
        raise NotChecked(f'{program_name}: cannot be run: {error.strerror or error}') from error
    if done.returncode < 0:
        raise NotChecked(f'{name}: {program_name} was ended by signal {-done.returncode}')
    text = done.stdout.decode('ascii', 'replace')
    if text == 'too long\n':
        raise NotChecked(f'{name}: {len(job):,} bytes; the program reads at most {PROGRAM_BYTES:,}')
    if text == 'unreadable\n':
        raise NotChecked(f'{name}: the program could not read its input')
    try:
        return _lines(text)
    except (ValueError, IndexError) as error:
        raise NotChecked(f'{name}: {program_name} answered {text[:60]!r}, which is no verdict') from error
