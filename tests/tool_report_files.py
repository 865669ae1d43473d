"""Tests of `ferruntzo report` (document 02, S-30), run by tool_commands.py: wrong libraries, at which the tool must stop; options,
files and streams. tool_reports.py has what is reported.

Each function takes `expect`, which counts what is wrong, and `run`, which runs the tool."""

import contextlib
import itertools
import json
import os
import pty
import re
import resource
import shutil
import subprocess
import sys

from tool_reports import EXAMPLES, ROOT, SIZES, STRETCH

from ferruntzo import _library as package


# ---- Wrong libraries ----

# A line of C about `room`, `record` (its bytes), `answer` and `number`, and what the tool says; the readings in which it is tried.
BOTH, ONE = ('workshop', 'service'), ('service',)
WRONG = [
    ('', '', BOTH),
    ('room[record * 9] = 8;', 'number of result 9 is by the library 8, by jobcheck 9, by this tool 9', BOTH),
    ('room[record * 9 + 1]++;', 'degree of result 9 is by the library 17, by jobcheck 16, by this tool 16', BOTH),
    ('room[record * 9 + record - 4]++;', 'radius of result 9 is by the library 11, by jobcheck 10, by this tool 10', BOTH),
    ('room[record * 9 + record - 1] = 1;', 'radius of result 9 is by the library 16,777,226', BOTH),
    ('room[record * 15] = 15;', "the library's bytes and this tool's differ from byte", BOTH),
    ('room[32 * record - 1] = 1;', "the library's bytes and this tool's differ from byte", BOTH),
    ('memset(room, 0, 32 * record);', 'radius of result 0 is by the library 0, by jobcheck 1, by this tool 1', BOTH),
    ('memmove(room + record, room, 14 * record);', 'number of result 1 is by the library 0', BOTH),
    ('for (i = 0; i < 15; i++) swap(room + record * i + record - 4);', 'radius of result 0 is by the library 16,777,216', BOTH),
    ('answer[0] = 14;', 'the library says "accepted, 14 results", jobcheck "accepted, 15 results", this tool "accepted, 15 results"', BOTH),
    ('answer[0] = 16;', 'the library says "accepted, 16 results"', BOTH),
    ('answer[0] = 33;', 'the answer of the library: ', BOTH),
    ('answer[0] = 0; answer[1] = 3; number = 5;', 'the library says "refused with 5 at command 3", jobcheck "accepted', BOTH),
    ('number = 99;', 'answered 99', BOTH),
    ('room[18 * 9 + 2]++;', 'm of result 9 is by the library 26,770, by this tool 26,769', ONE),
    ('room[18 * 9 + 6]++;', 'N of result 9 is by the library 54, by this tool 53', ONE),
    ('room[18 * 9 + 10] = 0;', 'b of result 9 is by the library 0, by this tool 9', ONE),
    ('room[18 * 7 + 2] = 1;', 'm of result 7 is by the library 1, by this tool 0', ONE),
    ('room[18 * 8 + 13] = 1;', 'b of result 8 is by the library 16,777,231, by this tool 15', ONE),
    ('for (i = 0; i < 4; i++) { room[146 + i] ^= room[150 + i]; room[150 + i] ^= room[146 + i]; room[146 + i] ^= room[150 + i]; }',
     'm of result 8 is by the library 182, by this tool 26,772', ONE),
]
REFUSED = [
    ('number = 0; answer[0] = 1;', 'the library says "accepted, 1 result", jobcheck "refused with 7 at command 2"', BOTH),
    ('number = 5;', 'the library says "refused with 5 at command 2", jobcheck "refused with 7 at command 2"', BOTH),
    ('answer[1] = 1;', 'the library says "refused with 7 at command 1", jobcheck "refused with 7 at command 2"', BOTH),
]


def wrong_library(folder):
    """A library that hands a job on to the one that is tested, and then does what the line says that FAULT names."""
    lines = ''.join(f'case {i}: {line} break;\n' for i, (line, *_) in enumerate(WRONG + REFUSED))
    stubs = [name for name in package._FUNCTIONS if name not in ('version', 'check_workshop', 'check_service')]
    areas = ('const unsigned char *job, size_t job_len, int *work, size_t work_len, long long *scratch, size_t scratch_len, '
             'unsigned char *room, size_t room_len, unsigned *answer, size_t answer_len')
    names = ', '.join(re.findall(r'(\w+)(?:,|$)', areas))
    (folder / 'wrong.c').write_text(f'''#include <dlfcn.h>
#include <stdlib.h>
#include <string.h>
static void *real(const char *name) {{ return dlsym(dlopen("{package._open()[1]}", RTLD_NOW), name); }}
static void swap(unsigned char *p) {{ unsigned char a = p[0], b = p[1]; p[0] = p[3]; p[1] = p[2]; p[2] = b; p[3] = a; }}
unsigned ferruntzo_version(void) {{ return ((unsigned (*)(void))real("ferruntzo_version"))(); }}
static unsigned reported(const char *name, int record, {areas})
{{ unsigned number = ((unsigned (*)({areas}))real(name))({names}); int i = 0; (void)i; (void)swap;
   switch (atoi(getenv("FAULT"))) {{ {lines} }} return number; }}
''' + ''.join(f'unsigned ferruntzo_check_{name}({areas}) {{ return reported("ferruntzo_check_{name}", {size}, {names}); }}\n'
              for name, size in SIZES.items()) + ''.join(f'unsigned ferruntzo_{name}(void) {{ return 0; }}\n' for name in stubs))
    subprocess.run([os.environ.get('CC', 'gcc'), '-shared', '-fPIC', str(folder / 'wrong.c'), '-ldl', '-o', str(folder / 'wrong.so')], check=True)


def libraries(expect, run, folder):
    """A wrong answer of the library, and one that is not there: status 2, a message, nothing printed or written."""
    wrong_library(folder)
    out = folder / 'out'
    # Each fault in one form of the report, each form with many faults.
    forms = itertools.cycle(([], ['--json'], ['--bytes'], ['--bytes', '-o', out], []))
    for i, (line, words, tried) in enumerate(WRONG + REFUSED):
        for name, form in zip(tried, forms):
            job = EXAMPLES / 'refused.job' if i >= len(WRONG) else STRETCH
            done = run('report', job, *(['--service'] if name == 'service' else []), *form,
                       variables={'FERRUNTZO_LIBRARY': str(folder / 'wrong.so'), 'FAULT': str(i)})
            if not line:
                expect('a right library', done.returncode == 0 and not done.stderr, done.stderr)
                continue
            expect('a wrong library', done.returncode == 2 and words in done.stderr and 'NOT checked' in done.stderr
                   and 'Traceback' not in done.stderr, f'{line} {form}: {done.returncode} {done.stdout} {done.stderr}')
            expect('nothing by a wrong library', not out.exists() and (json.loads(done.stdout)['verdict'] == 'not checked'
                   if form == ['--json'] else done.stdout == ''), f'{line} {form}: {done.stdout}')
    for variables, words in (({'FERRUNTZO_LIBRARY': str(folder / 'nosuch.so')}, 'FERRUNTZO_LIBRARY names'),
                             ({'FERRUNTZO_JOBCHECK': str(folder / 'nosuch')}, 'the program jobcheck is not at')):
        done = run('report', STRETCH, STRETCH, variables=variables)
        expect('no library, no program', done.returncode == 2 and done.stderr.count(words) == 1 and done.stdout == ''
               and 'Traceback' not in done.stderr, done.stderr)
    # A package of version 5.0.0 converts, and does not report.
    shutil.copytree(ROOT / 'tools', folder / 'alone' / 'tools')
    former = folder / 'alone' / 'python' / 'ferruntzo'
    former.mkdir(parents=True)
    (former / '_library.py').write_text('')
    (former / '__init__.py').write_text('convert_edition = check = None\n')
    done = subprocess.run([sys.executable, '-B', '-I', '-S', folder / 'alone/tools/ferruntzo', 'report', STRETCH], check=False,
                          capture_output=True, encoding='utf-8')
    expect('a former package', done.returncode == 2 and f'{former}/__init__.py is no package ferruntzo of version 5.1.0 or later, which '
           'writes report records' in done.stderr and 'Traceback' not in done.stderr and done.stdout == '', done.stderr)


# ---- Options, files and streams ----

def files(expect, run, folder):
    """Odd options, names and streams; what cannot be written leaves every file as it was."""
    job, out, link = folder / 'good.job', folder / 'kept', folder / 'link'
    job.write_bytes(STRETCH.read_bytes())
    out.write_bytes(b'former')
    out.chmod(0o640)
    link.symlink_to(job)
    (folder / 'long.job').write_bytes(bytes(70000))
    (folder / 'one').mkdir()
    (folder / 'one' / 'A.JOB').write_bytes(job.read_bytes())
    (folder / 'one' / 'beside').write_bytes(b'')
    (folder / 'none').mkdir()
    before = {path: path.read_bytes() for path in folder.iterdir() if path.is_file()}
    rows = [
        (2, (job, '--json', '--bytes'), 'argument --bytes: not allowed with argument --json'), (2, (), 'the following arguments are required: JOB'),
        (2, (job, '-o', out), '-o names the file for --bytes; > FILE takes a table or JSON'), (2, (job, '--json', '-o', out), '-o names the file for'),
        (2, (job, job, '--bytes', '-o', out), '--bytes writes the records of one job, and 2 are named'),
        (2, (job, '--bytes', '-o', job), 'is the job itself'), (2, (job, '--bytes', '-o', link), 'is the job itself'),
        (2, (job, '--bytes', '-o', folder / 'no' / 'out'), 'cannot be written: No such file'), (2, (job, '--bytes', '-o', folder), 'Is a directory'),
        (2, (folder / 'nosuch', '--bytes', '-o', out), 'cannot be read: No such file'), (2, (folder / 'long.job',), 'more than the 65,536 bytes'),
        (1, (EXAMPLES / 'refused.job', '--bytes', '-o', out), 'REFUSED with 7'), (2, (folder / 'none',), 'holds no file *.job. NOT checked'),
        (0, (folder / 'one',), 'passed over: beside (no *.job)'), (0, (folder / 'one', '--json'), 'passed over: beside'),
        (2, (job, folder / 'one', EXAMPLES / 'refused.job', folder / 'nosuch'), '4 jobs: 2 accepted, 1 refused, 1 not checked.'),
    ]
    for status, words, said in rows:
        done = run('report', *words)
        expect('odd options and files', done.returncode == status and said in done.stdout + done.stderr and 'Traceback' not in done.stderr,
               f'{words}: {done.returncode} {done.stdout} {done.stderr}')
    done = run('report', job, '--bytes', '-o', out, preexec_fn=lambda: resource.setrlimit(resource.RLIMIT_FSIZE, (100, 100)))
    expect('no room', done.returncode == 2 and 'cannot be written: File too large' in done.stderr, done.stderr)
    expect('every file as it was', {path: path.read_bytes() for path in folder.iterdir() if path.is_file()} == before)
    done = run('report', job, '--bytes', '-o', out)
    expect('a file is replaced', done.returncode == 0 and len(out.read_bytes()) == 192 and out.stat().st_mode & 0o777 == 0o640, done.stderr)
    done = run('report', folder / 'one', folder / 'nosuch', '--json')
    expect('JSON alone on standard output', len([json.loads(line) for line in done.stdout.splitlines()]) == 2 and done.returncode == 2, done.stdout)
    streams(expect, run, folder, job)


def streams(expect, run, folder, job):
    """Standard input and output: a terminal, a pipe, a full device, closed ones; names that are no UTF-8."""
    with open(job, 'rb') as given:
        done = run('report', '-', stdin=given)
    expect('standard input', done.returncode == 0 and done.stdout.startswith('-: accepted, 15 results; results 13, 14, which no later command '
                                                                              'names, at most 0.0153 µm off the loaded curves.'), done.stderr)
    with open(job, 'rb') as given:
        done = run('report', '-', '--bytes', '-o', job, stdin=given)
    expect('standard input is the file', done.returncode == 2 and 'is the job itself' in done.stderr and job.read_bytes()[:1] == b'\1', done.stderr)
    reader, writer = os.pipe()
    done = run('report', job, '--service', '--bytes', '-o', '/dev/stdout', stdout=writer)
    os.close(writer)
    with open(reader, 'rb') as piped:
        expect('standard output by its name', len(piped.read()) == 576 and '576 bytes for the service' in done.stderr, done.stderr)
    ours, theirs = pty.openpty()
    done = run('report', job, '--bytes', stdout=theirs)
    os.set_blocking(ours, False)
    expect('no bytes onto a terminal', done.returncode == 2 and 'report records are bytes; name a file with -o' in done.stderr, done.stderr)
    with contextlib.suppress(BlockingIOError):
        expect('nothing on the terminal', os.read(ours, 1) == b'')
    os.close(theirs)
    os.close(ours)
    with open('/dev/full', 'wb') as full:
        for form in ([], ['--json'], ['--bytes']):
            done = run('report', job, *form, stdout=full)
            expect('a full device', done.returncode == 2 and 'No space' in done.stderr and 'Traceback' not in done.stderr, f'{form}: {done.stderr}')
    for number, words in ((0, 'standard input is closed'), (1, 'standard output is closed')):
        done = run('report', '-', stdin=None, stdout=None, preexec_fn=lambda number=number: os.close(number))
        expect('a closed stream', done.returncode == 2 and words in done.stderr and 'Traceback' not in done.stderr, done.stderr)
    named = folder / os.fsdecode(b'\xff\n.job')
    named.write_bytes(job.read_bytes())
    for form in ([], ['--json']):
        done = run('report', named, *form)
        expect('a name that is no UTF-8', done.returncode == 0 and r'\xff' in done.stdout, f'{done.stdout} {done.stderr}')
