"""Tests of the program: jobs by standard input, the printed text compared with
the oracle's; and inputs of which a read fails, for which it prints `unreadable`.

  program.py target/bin/jobcheck [--cases N] [--seed K] [--plant]

Exits with 0 when every text agrees, 1 on any difference, 2 when the program
could not be run.  Only what is printed on standard output is compared, and
that the program ends by itself; its exit status is open in document 01.
--plant spoils printed texts: status 1 then says that each of them was found.
"""

import argparse
import os
import signal
import socket
import subprocess
import sys
import tempfile
import time
import traceback
from collections import Counter
from contextlib import contextmanager
from fcntl import F_SETPIPE_SZ, fcntl
from pathlib import Path
from random import Random
from threading import Timer
from typing import Callable, NamedTuple

import jobs
import oracle as o
from examples_of_01 import check_examples, edition_jobs, example_job, interval_jobs, root_job, root_jobs
from header import MAX_RESULTS, PROGRAM_JOB_BYTES as LONGEST
from job_cases import RandomJobs, fixed_check

TIME_LIMIT = 20             # seconds for one run
UNREADABLE = b'unreadable\n'


class Run(NamedTuple):
    """What the program has to print when the job is handed to it so."""
    name: str
    way: Callable
    job: bytes
    text: bytes


def read_whole(name, way, job):
    return Run(name, way, job, o.printed(job).encode())


class Feed:
    """Ways to hand a job to the program; each gives its status and output.
    Output goes to a file, so that no side can wait for the other for ever, and
    a program that does not end is killed (status below zero)."""

    def __init__(self, program):
        self.program = program

    def _run(self, stdin, write=None, command=()):
        with tempfile.TemporaryFile() as output:
            process = subprocess.Popen([*command, self.program], stdin=stdin, stdout=output,
                                       stderr=subprocess.DEVNULL)
            watch = Timer(TIME_LIMIT, process.kill)
            watch.start()
            try:
                if write is not None:
                    self._write(process, write)
                status = process.wait()
            finally:
                watch.cancel()
            output.seek(0)
            return status, output.read()

    @staticmethod
    def _write(process, write):
        """A program that has read enough may close its end early."""
        try:
            write(process)
        except BrokenPipeError:
            pass
        try:
            process.stdin.close()
        except BrokenPipeError:
            pass

    def at_once(self, job):
        return self._run(subprocess.PIPE, lambda process: process.stdin.write(job))

    def from_file(self, job):
        with tempfile.TemporaryFile() as file:
            file.write(job)
            file.seek(0)
            return self._run(file)

    def in_pieces(self, job, sizes, pause, stop=False):
        """Writes pieces of the given sizes in turn, with pauses between. If
        asked, the program is stopped for a part of each pause."""
        def write(process):
            start, turn = 0, 0
            while start < len(job):
                size = sizes[turn % len(sizes)]
                process.stdin.write(job[start:start + size])
                process.stdin.flush()
                start, turn = start + size, turn + 1
                time.sleep(pause)
                if stop:
                    process.send_signal(signal.SIGSTOP)
                    time.sleep(pause)
                    process.send_signal(signal.SIGCONT)
        return self._run(subprocess.PIPE, write)

    def from_source(self, source, job):
        with source(job) as descriptor:
            return self._run(descriptor)

    def closed(self, job):
        return self._run(None, command=('/bin/sh', '-c', 'exec "$0" <&-'))


# ---- inputs whose reads do not wait, or fail

@contextmanager
def pipe_not_waited_for(job, ended):
    """Without an end, a read behind the job's bytes fails: the writer is not
    done, and writes the rest when the program is over."""
    reader, writer = os.pipe()
    fcntl(writer, F_SETPIPE_SZ, 8 * LONGEST)
    os.set_blocking(reader, False)
    os.write(writer, job)
    if ended:
        os.close(writer)
    yield reader
    if not ended:
        os.write(writer, b'\xff')
        os.close(writer)
    os.close(reader)


def ended_pipe(job):
    return pipe_not_waited_for(job, True)


def waiting_pipe(job):
    return pipe_not_waited_for(job, False)


@contextmanager
def reset_socket(job):
    """The other side closes before it has read all that was sent to it."""
    ours, theirs = socket.socketpair()
    with theirs:
        theirs.send(b'?')
        with ours:
            ours.sendall(job)
        yield theirs.fileno()


@contextmanager
def opened(path, flags):
    descriptor = os.open(path, flags)
    yield descriptor
    os.close(descriptor)


def directory(job):
    return opened('/', os.O_RDONLY)


def only_for_writing(job):
    return opened(os.devnull, os.O_WRONLY)


def check_that_it_fails(source, job):
    """From the source the job's bytes come, and then a read fails."""
    came, failed = b'', False
    with source(job) as descriptor:
        try:
            while more := os.read(descriptor, LONGEST):
                came += more
        except OSError:
            failed = True
    if came != job or not failed:
        raise RuntimeError(f'{source.__name__}: no read fails behind {len(job)} bytes')


def padded(job, length, filler=b'\0'):
    return job + filler * (length - len(job))


def fixed_runs(feed):
    example = example_job()
    ways = {
        'at once': feed.at_once,
        'file': feed.from_file,
        'no waiting': lambda job: feed.from_source(ended_pipe, job),
        'one byte at a time': lambda job: feed.in_pieces(job, (1,), 0.0005),
        'a few bytes at a time': lambda job: feed.in_pieces(job, (1, 2, 7, 3, 130), 0.002),
        'slow': lambda job: feed.in_pieces(job, (3, 200), 0.2),
        'stopped': lambda job: feed.in_pieces(job, (2, 100), 0.02, stop=True),
    }
    for name, way in ways.items():
        yield read_whole(name, way, example)
        yield read_whole(name, way, b'')
        yield read_whole(name, way, example[:-1])
        yield read_whole(name, way, example + b'\0')
        yield read_whole(name, way, b'\xff')
    large = {
        'at once': feed.at_once,
        'file': feed.from_file,
        'no waiting': lambda job: feed.from_source(ended_pipe, job),
        'pages': lambda job: feed.in_pieces(job, (4096,), 0.002),
        'uneven': lambda job: feed.in_pieces(job, (1, 65535, 1, 1), 0.02),
        'last byte late': lambda job: feed.in_pieces(job, (LONGEST, 1), 0.05),
    }
    for name, way in large.items():
        for length in (LONGEST - 1, LONGEST, LONGEST + 1, LONGEST + 2, 2 * LONGEST, 300000):
            yield read_whole(name, way, padded(example, length))        # 11, or too long
            yield read_whole(name, way, bytes(length))                  # 9, or too long
    # The longest that is read to its end: a load behind 32 results, cut off.
    full = jobs.full_builder(Random(3)).prefix()
    yield read_whole('at once', feed.at_once, padded(full, LONGEST, jobs.load(o.constant(o.S))[:1]))
    yield read_whole('at once', feed.at_once, b'\x01' * LONGEST)
    yield read_whole('at once', feed.at_once, b'\x01' * (LONGEST + 1))


def root_runs(feed):
    """Roots by 0x21 and 0x22 as command 2, 3 and 7, with texts that are written out and not the oracle's; and a root by
    0x22 that is cut off or has a byte behind it."""
    for job, text in root_jobs():
        yield Run('root', feed.at_once, job, text.encode())
    job = root_job(0x22, 4 * o.S, 0, 2 * o.S, o.S // 4)
    for text, spoiled in (('refused 10 2', job[:141]), ('refused 10 2', job[:-2]), ('refused 10 3', job[:-1]),
                          ('refused 11 3', job + b'\0'), ('refused 12 2', job[:141] + b'\x01' + job[142:]),
                          ('refused 2 2', job[:142] + b'\x21' + job[143:])):
        yield Run('root by 0x22, spoiled', feed.from_file, spoiled, f'{text}\n'.encode())


def interval_runs(feed):
    """Jobs with 0x14, with texts that are written out and not the oracle's; in pieces too."""
    for job, text in interval_jobs():
        for way in (feed.at_once, lambda job: feed.in_pieces(job, (97, 50, 311), 0.001)):
            yield Run('interval', way, job, text.encode())


def edition_runs(feed):
    """Jobs of both editions, with texts that are written out and not the oracle's; then T_1·T_1 = (T_0 + T_2)/2 and
    T_1·T_3 = (T_2 + T_4)/2: 0xFF keeps both terms in edition 1, and drops the second in edition 2."""
    for job, text in edition_jobs():
        yield Run('edition', feed.at_once, job, text.encode())
    loads = b''.join(jobs.load(o.model([0] * k + [o.S])) for k in (1, 3))
    whole, cut = '2 2 0\n3 4 0\naccepted 4\n', '2 1 524288\n3 3 524288\naccepted 4\n'
    for edition, kept, end in ((1, (255, 255), whole), (2, (255, 255), cut), (1, (1, 3), cut), (2, (32, 4), whole)):
        job = bytes([o.EDITION, edition]) + loads + jobs.multiply(0, 0, kept[0]) + jobs.multiply(1, 0, kept[1]) + jobs.END
        yield Run('edition', feed.at_once, job, f'0 1 0\n1 3 0\n{end}'.encode())
    for job, text in ((b'\1\2\0', 'accepted 0'), (b'\1\3\0', 'refused 9 0'), (b'\1\0\0', 'refused 9 0'), (b'\1\2', 'refused 10 1'),
                      (b'\1\2\1\2', 'refused 9 1'), (b'\1\2' + loads + jobs.multiply(0, 1, 33), 'refused 9 3'),
                      (b'\1\2' + loads + jobs.multiply(0, 2, 255), 'refused 12 3')):
        yield Run('edition', feed.from_file, job, f'{text}\n'.encode())


def failing_runs(feed):
    """A read fails: nothing is said of the job, unless it was too long before."""
    example, empty = example_job(), b'\x01\x01\x00'
    starts = (b'', empty, empty[:2], empty + b'\xff', example, example[:-1], bytes(5000))
    for source, jobs_before in (
        (waiting_pipe, (*starts, padded(example, LONGEST), padded(example, LONGEST + 1))),
        (reset_socket, starts),
        (directory, (b'',)),
        (only_for_writing, (b'',)),
    ):
        for job in jobs_before:
            check_that_it_fails(source, job)
            yield Run(source.__name__, lambda job, source=source: feed.from_source(source, job), job,
                      UNREADABLE if len(job) <= LONGEST else b'too long\n')
    yield Run('closed', feed.closed, b'', UNREADABLE)


def random_runs(feed, count, rng):
    """Random jobs and a draw from the fixed job cases of compare.py."""
    draw = RandomJobs()
    fixed = [case.inputs[0] for case in fixed_check()]
    for _ in range(count):
        job = draw(rng).inputs[0] if rng.random() < 0.7 else rng.choice(fixed)
        yield read_whole('random', rng.choice((feed.at_once, feed.at_once, feed.from_file)), job)
    for _ in range(10):
        job = jobs.random_builder(rng, rng.choice((3, 8, 20, MAX_RESULTS))).job()
        yield read_whole('random, slow', lambda job: feed.in_pieces(job, (97, 5, 311), 0.001), job)


def planted_text(run):
    """Where a read fails, what would be right if the input had ended there."""
    if run.text == UNREADABLE:
        return o.printed(run.job).encode()
    return run.text.replace(b'accepted', b'refused').replace(b'\n', b'1\n', 1)


def main():
    parser = argparse.ArgumentParser()
    parser.add_argument('program', type=Path)
    parser.add_argument('--cases', type=int, default=1000, help='random jobs')
    parser.add_argument('--seed', type=int, default=1)
    parser.add_argument('--plant', action='store_true', help='spoil one printed text, and each `unreadable`')
    options = parser.parse_args()
    check_examples()
    if not options.program.is_file():
        print(f'program: {options.program} is not there', file=sys.stderr)
        sys.exit(2)
    feed = Feed(str(options.program.resolve()))
    rng = Random(options.seed)
    began, differences, missed, kinds = time.perf_counter(), 0, 0, Counter()
    runs = [*fixed_runs(feed), *root_runs(feed), *interval_runs(feed), *edition_runs(feed),
            *random_runs(feed, options.cases, rng), *failing_runs(feed)]
    for i, (name, way, job, expected) in enumerate(runs):
        kinds[expected.split(b'\n')[-2].split()[0].decode()] += 1
        status, output = way(job)
        planted = options.plant and (i == len(runs) // 2 or expected == UNREADABLE)
        if planted:
            output = planted_text(runs[i])
        if output != expected or status < 0:
            differences += 1
            if differences <= 10:
                print(f'{name}, {len(job)} bytes: printed {output[:200]!r} instead of '
                      f'{expected[:200]!r}, status {status}')
        elif planted:
            missed += 1
    told = ' '.join(f'{kind}:{count}' for kind, count in sorted(kinds.items()))
    print(f'{len(runs)} runs ({told}), {differences} differences, '
          f'{time.perf_counter() - began:.1f} s, seed {options.seed}')
    if missed:
        raise RuntimeError(f'{missed} planted texts were not found')
    sys.exit(1 if differences else 0)


if __name__ == '__main__':
    try:
        main()
    except Exception:                               # never mistaken for a difference
        traceback.print_exc()
        sys.exit(2)
