"""Tests of tools/ferruntzo on editions (document 02, S-27), run by tool_commands.py and tool_solve.py: convert by the library and
by the tool itself, what explain, list and assemble make of a kept degree that is left open, and solve --edition.

Each function takes `expect`, which counts what is wrong."""

import os
import re
import resource
import shutil
import subprocess
import sys
from pathlib import Path

ROOT = Path(__file__).resolve().parent.parent
sys.path[:0] = [str(ROOT / 'tools'), str(ROOT / 'python')]

from ferruntzo import _library as package                               # noqa: E402
from ferruntzo_tool import convert, explain, library                    # noqa: E402
from ferruntzo_tool.reading import Checked, split                       # noqa: E402
from ferruntzo_tool.tables import DEFAULT_KEPT, MAX_DEGREE, S           # noqa: E402
from ferruntzo_tool.text import assemble, listing                       # noqa: E402
from cases import on                                                    # noqa: E402
from jobs import END, add, load, load_on, multiply, quotient, root, subtract, tight_root       # noqa: E402
from oracle import constant, model                                      # noqa: E402

OPEN = DEFAULT_KEPT
FIRST, SECOND = bytes([1, 1]), bytes([1, 2])
EXAMPLES = ROOT / 'examples'


def curve(degree, fill=S):
    """A model of a degree; a degree byte above 32 makes it a bad one, which reads well."""
    return model([fill] * (min(degree, MAX_DEGREE) + 1), 0, degree)


def bodies():
    """Commands in which kept degrees are left open, with a ? for each; and what these stand for in edition 1 and in edition 2,
    written out from 02."""
    two, five, large = load(curve(2)), load(curve(5)), load(curve(40))
    h = curve(7)
    yield two + five, [(0, 1)], [32], [5]
    yield two + five, [(1, 0)], [32], [5]
    yield two + five, [(1, 1), (2, 2)], [32, 32], [5, 5]
    yield two + five, [(0, 0), (1, 2)], [32, 32], [2, 5]
    yield two + five + multiply(0, 1, 6), [(2, 0)], [32], [6]                   # the stated 6 is below the sum
    yield two + five + multiply(0, 1, 32), [(2, 0), (3, 1)], [32, 32], [7, 7]   # the sum, 7, is below the stated 32
    yield two + five + multiply(1, 1, 0), [(2, 0)], [32], [2]
    yield two + five + add(0, 1), [(2, 0)], [32], [5]
    yield two + five + subtract(1, 0), [(0, 2)], [32], [5]
    yield two + large, [(0, 1), (0, 0)], [32, 32], [32, 2]
    yield large + large, [(0, 1), (2, 2)], [32, 32], [32, 32]
    yield two + load_on(on(curve(9), 0, 255)), [(1, 1)], [32], [9]
    for test in (quotient(0, 1, h, curve(1)), root(0, h, curve(1)), tight_root(0, h, curve(1))):
        yield two + five + test, [(2, 0)], [32], [7]
    yield two + five + root(0, curve(255), curve(1)), [(2, 1)], [32], [32]
    # 0xFF that is no kept degree: in a block, a radius, an end and a degree byte.
    filled = model([-1] * 3, 0xFFFFFFFF, 2)
    yield load_on(on(filled, -1, -1)) + load(filled) + load(curve(255, -1)), [(0, 1), (2, 2)], [32, 32], [2, 32]
    yield two, [], [], []


def made(head, body, factors, kept):
    return head + body + b''.join(multiply(a, b, d) for (a, b), d in zip(factors, kept)) + END


def unread():
    """Commands behind an edition whose reading is refused: number and command, as 02 and docs/FORMAT.md say."""
    one, bad = load(constant(S)), load(curve(33))
    yield bad + b'\x7f', 9, 2                   # check says 2 at command 1
    yield one + multiply(0, 0, 33) + END, 9, 2
    yield one + multiply(0, 0, 254) + END, 9, 2
    yield one + FIRST + END, 9, 2
    yield b'', 10, 1
    yield one, 10, 2
    yield one[:-1], 10, 1
    yield one + multiply(0, 0, OPEN)[:-1], 10, 2
    yield load_on(on(constant(S), 1, 0))[:-1], 10, 1
    yield one + tight_root(0, constant(S), constant(S))[:-1], 10, 2
    yield one + END + END, 11, 2
    yield bad + END + SECOND, 11, 2
    yield one + multiply(0, 1, OPEN) + END, 12, 2
    yield load_on(on(constant(S), 1, 0)) + tight_root(1, constant(S), constant(S)) + END, 12, 2
    yield 33 * one + END, 13, 33
    yield 32 * one + multiply(0, 0, OPEN) + END, 13, 33
    yield 32 * one + multiply(0, 32, OPEN) + END, 12, 33


def conversions(expect):
    """Written out: by the tool and by the library, in both directions; and converted again."""
    for body, factors, *degrees in bodies():
        for head, other, kept in zip((FIRST, SECOND), (SECOND, FIRST), degrees):
            job = made(head, body, factors, [OPEN] * len(factors))
            wanted = made(other, body, factors, kept)
            found, said = convert.own(job), library.convert(job)
            expect('a conversion', found.job == wanted, f'{job[:60].hex()}: {found.stated}, not {kept}')
            expect("the library's conversion", said == (wanted, 0, 0), f'{job[:60].hex()}: {said[1:]}')
            expect('converted twice', convert.own(wanted).job == library.convert(wanted).job == head + wanted[2:],
                   wanted[:60].hex())
            expect('nothing is open in a converted job', not convert.own(wanted).stated, wanted[:60].hex())
    for body, number, command in unread():
        for head in (FIRST, SECOND):
            last, said = convert.own(head + body).last, library.convert(head + body)
            expect('the refusal of a reading', (last.refusal, last.number) == (number, command) == said[1:],
                   f'{number} at {command}: {last.refusal} {last.number}, {said[1:]}')
    for job in (b'', b'\x00', b'\x01', b'\x01\x00', b'\x01\x03\x00', b'\x02\x01\x00', b'\x01\xff\x00'):
        last, said = convert.own(job).last, library.convert(job)
        number = 10 if job in (b'', b'\x01') else 9
        expect('the refusal of an edition', (last.refusal, last.number) == said[1:] == (number, 0),
               f'{job.hex()}: {last.refusal}, {said[1:]}')


def corpus(expect, jobs):
    """Every job of the corpus: tool and library convert alike, and what the tool checks is the same before and after."""
    kinds = {'converted': 0, 'refused': 0, 'stated': 0}
    for job in jobs:
        found = convert.own(job)
        expect('the tool converts as the library does', not convert.differs(library.convert(job), found), job[:60].hex())
        kinds['refused' if found.job is None else 'converted'] += 1
        kinds['stated'] += bool(found.stated)
        if found.stated:
            expect('equal outcomes', Checked(found.job).text() == Checked(job).text(), job[:60].hex())
            expect('no kept degree is left open', not any(step.values.get('kept') == OPEN for step in split(found.job)[0]))
    expect('kinds of conversions', min(kinds.values()) >= 200, str(kinds))


# ---- explain, list and assemble ----

def opened(expect):
    """What explain and list say of an open kept degree, and the text back."""
    body = load(curve(2)) + load(curve(5)) + multiply(0, 1, OPEN) + multiply(0, 1, 5)
    for head, words, remark in ((FIRST, 'open (32)', '32'), (SECOND, 'open (the larger degree of the two factors, 5)', '5')):
        job = head + body + END
        said = '\n'.join(explain.explanation(job, Checked(job)))
        expect('an open kept degree is explained', f'result 0 × result 1, kept degree {words} makes result 2' in said
               and 'result 0 × result 1, kept degree 5 makes result 3' in said, said)
        radii = [m.radius for m in Checked(job).results], Checked(FIRST + body + END).results[2].radius
        dropped = ('the coefficients beyond T_5 were dropped into the radius; with kept degree 32 the degree is 7 and the radius '
                   f'{radii[1]} ')
        expect('what was dropped', said.count(dropped) == said.count('dropped into the radius') == (1 if head == FIRST else 2)
               and radii[0][3] > radii[1], said)
        text = '\n'.join(listing(job))
        expect('an open kept degree as text', re.search(rf'^multiply 0 1 kept open +# .*result 2; open is {remark}$', text, re.M)
               and re.search(r'^multiply 0 1 kept 5 +# .*result 3$', text, re.M) and f'\nedition {head[1]} ' in text, text)
        expect('text and back', assemble(text) == job)
        degrees = [m.degree for m in Checked(job).results]
        expect('the degree of a product', degrees == [2, 5, 7 if head == FIRST else 5, 5], str(degrees))
    for body in (multiply(0, 1, OPEN), load(curve(2)) + multiply(0, 1, OPEN)):
        job = SECOND + body + END
        said = '\n'.join(explain.explanation(job, Checked(job)))
        expect('open without its factors', 'kept degree open (the larger degree of the two factors)\n' in said, said)
        expect('text without its factors', assemble('\n'.join(listing(job))) == job and 'open is' not in '\n'.join(listing(job)))
    said = Checked(b'\x01\x03\x00').cause
    expect('another edition', said == 'edition 3 at byte 1 is not known; there are 1 and 2', said)


# ---- The command ----

def wrong_library(folder, line):
    """A library whose converter changes the edition byte, then does what the line of C says."""
    major, minor, patch = package.MAJOR, package.MINOR, package.PATCH
    source, names = folder / 'wrong.c', [name for name in package._FUNCTIONS if name not in ('version', 'convert_edition')]
    source.write_text(f'''unsigned ferruntzo_version(void) {{ return {65536 * major + 256 * minor + patch}; }}
unsigned ferruntzo_convert_edition(const unsigned char *job, unsigned long n, unsigned char *out, unsigned long m, unsigned *answer)
{{ unsigned long i; for (i = 0; i < n && i < m; i++) out[i] = job[i]; out[1] = 3 - job[1];
   answer[0] = n; answer[1] = 0; {line} return 0; }}
''' + ''.join(f'unsigned ferruntzo_{name}(void) {{ return 0; }}\n' for name in names))
    subprocess.run([os.environ.get('CC', 'gcc'), '-shared', '-fPIC', str(source), '-o', str(folder / 'wrong.so')], check=True)
    return {'FERRUNTZO_LIBRARY': str(folder / 'wrong.so')}


def libraries(expect, run, folder):
    """A wrong answer of the library, and a library that is not there: status 2, a message, and nothing is written."""
    job, out = folder / 'job', folder / 'out'
    job.write_bytes(made(SECOND, load(curve(2)) + load(curve(5)), [(0, 1)], [OPEN]))
    rows = [
        ('', "the library's job and this tool's differ from byte 281 on"),          # 0xFF is kept
        ('out[n - 2] = 7;', 'differ from byte 281 on'),                             # the sum of the degrees
        ('out[n - 2] = 5; out[1] = 2;', 'differ from byte 1 on'),
        ('out[n - 2] = 5; out[9] ^= 1;', 'differ from byte 9 on'),
        ('out[n - 2] = 5; answer[0] = n - 1;', 'differ from byte 282 on'),
        ('answer[0] = 0; answer[1] = 3; return 9;', 'the library says "refused with 9 at command 3", this tool "converted"'),
    ]
    for line, words in rows:
        done = run('convert', job, '-o', out, variables=wrong_library(folder, line))
        expect('a wrong library', done.returncode == 2 and words in done.stderr and 'Nothing was written' in done.stderr,
               f'{line}: {done.returncode} {done.stdout} {done.stderr}')
        expect('nothing by a wrong library', not out.exists(), line)
    done = run('convert', job, '-o', out, variables=wrong_library(folder, 'out[n - 2] = 5;'))
    expect('a right one', done.returncode == 0 and out.exists(), done.stderr)
    out.unlink(missing_ok=True)
    (folder / 'unread').write_bytes(SECOND)
    done = run('convert', folder / 'unread', '-o', out, variables=wrong_library(folder, ''))
    expect('a library that converts what does not read', done.returncode == 2 and not out.exists()
           and 'the library says "converted", this tool "refused with 10 at command 1"' in done.stderr, done.stderr)
    done = run('convert', job, '-o', out, variables={'FERRUNTZO_LIBRARY': str(folder / 'nosuch.so')})
    expect('no library', done.returncode == 2 and not out.exists() and 'FERRUNTZO_LIBRARY names' in done.stderr
           and 'Traceback' not in done.stderr, done.stderr)
    packages(expect, folder, job, out)


def packages(expect, folder, job, out):
    """The tool by itself, without the Python package, and beside one that is too old."""
    tool = folder / 'alone' / 'tools'
    shutil.copytree(ROOT / 'tools', tool)
    package_folder = folder / 'alone' / 'python' / 'ferruntzo'
    package_folder.mkdir(parents=True)
    for content, words in ((None, 'the Python package ferruntzo, by which the library is called, was not found'),
                           ('', f'{package_folder}/__init__.py is no package ferruntzo of version 5.0.0 or later'),
                           ('import nosuch', "was not found (No module named 'nosuch')")):
        if content is not None:
            for name in ('__init__.py', '_library.py'):
                (package_folder / name).write_text(content)
        # -I -S: no package that is installed on this machine.
        done = subprocess.run([sys.executable, '-B', '-I', '-S', tool / 'ferruntzo', 'convert', job, '-o', out], check=False,
                              capture_output=True, encoding='utf-8')
        expect('no package', done.returncode == 2 and words in done.stderr and 'Traceback' not in done.stderr
               and not out.exists(), done.stderr)


def command(expect, run, folder):
    """Words, statuses and files of convert."""
    job, out, back = folder / 'some.job', folder / 'other.job', folder / 'back.job'
    source = made(FIRST, load(curve(2)) + load(curve(5)), [(0, 1), (1, 1)], [OPEN, OPEN])
    job.write_bytes(source)
    out.write_bytes(b'former')
    out.chmod(0o640)
    done = run('convert', job, '-o', out)
    wanted = made(SECOND, load(curve(2)) + load(curve(5)), [(0, 1), (1, 1)], [32, 32])
    expect('converted', done.returncode == 0 and done.stdout == f'{job}: edition 1 to edition 2, written to {out}; 2 kept degrees '
           'that were left open are stated: 32 at command 3, 32 at command 4.\n' and out.stat().st_mode & 0o777 == 0o640
           and out.read_bytes() == wanted, done.stdout + done.stderr)
    expect('the source stays', job.read_bytes() == source)
    done = run('convert', out, '-o', back)
    expect('converted back', done.returncode == 0 and 'edition 2 to edition 1' in done.stdout and 'no kept degree was left open'
           in done.stdout and back.read_bytes() == FIRST + out.read_bytes()[2:], done.stdout + done.stderr)
    job.write_bytes(SECOND + source[2:])
    done = run('convert', job, '-o', back)
    expect('converted from 2', done.returncode == 0 and '5 at command 3, 5 at command 4' in done.stdout, done.stdout + done.stderr)
    job.write_bytes(made(SECOND, load(curve(2)), [(0, 0)], [OPEN]))
    done = run('convert', job, '-o', back)
    expect('one', '1 kept degree that was left open is stated: 2 at command 2.' in done.stdout, done.stdout)
    for path in sorted(EXAMPLES.glob('*.job')):
        done = run('convert', path, '-o', back)
        expect('examples are converted', done.returncode == 0 and Checked(back.read_bytes()).text()
               == path.with_suffix('.expected').read_text(), path.name)
    files(expect, run, folder, source)


def files(expect, run, folder, source):
    """What is refused or cannot be written leaves every file as it was, and none beside."""
    job, out, link = folder / 'good.job', folder / 'kept.job', folder / 'link.job'
    job.write_bytes(source)
    out.write_bytes(b'former')
    link.symlink_to(job)
    (folder / 'unread.job').write_bytes(FIRST + load(curve(33)) + b'\x7f')
    (folder / 'long.job').write_bytes(bytes(70000))
    before = {path: path.read_bytes() for path in folder.iterdir() if path.is_file()}
    rows = [
        (1, ('convert', folder / 'unread.job', '-o', out), 'its reading is REFUSED with 9 at command 2 (byte 140): 0x7f at byte '
         '140 is no command. Nothing was written'),
        (2, ('convert', job, '-o', job), 'is the job itself'),
        (2, ('convert', job, '-o', link), 'is the job itself'),
        (2, ('convert', job, '-o', folder / 'no' / 'out'), 'cannot be written: No such file'),
        (2, ('convert', job, '-o', folder), 'cannot be written: Is a directory'),
        (2, ('convert', folder / 'nosuch', '-o', out), 'cannot be read: No such file'),
        (2, ('convert', folder / 'long.job', '-o', out), 'more than the 65,536 bytes'),
        (2, ('convert', job), 'the following arguments are required: -o'),
    ]
    for status, words, said in rows:
        done = run(*words)
        expect('nothing is written', done.returncode == status and said in done.stdout + done.stderr
               and 'Traceback' not in done.stderr, f'{words}: {done.returncode} {done.stdout} {done.stderr}')
    done = run('convert', job, '-o', out, preexec_fn=lambda: resource.setrlimit(resource.RLIMIT_FSIZE, (100, 100)))
    expect('no room', done.returncode == 2 and 'cannot be written: File too large' in done.stderr, done.stderr)
    expect('every file as it was', {path: path.read_bytes() for path in folder.iterdir() if path.is_file()} == before)
    with open(job, 'rb') as standard_input:
        done = run('convert', '-', '-o', out, stdin=standard_input)
    expect('standard input', done.returncode == 0 and done.stdout.startswith('-: edition 1 to') and out.read_bytes()[:2] == SECOND)
    with open(job, 'rb') as standard_input:
        done = run('convert', '-', '-o', job, stdin=standard_input)
    expect('standard input is the file', done.returncode == 2 and job.read_bytes() == source, done.stderr)
    reader, writer = os.pipe()
    done = run('convert', job, '-o', '/dev/stdout', stdout=writer)
    os.close(writer)
    with open(reader, 'rb') as piped:
        expect('standard output', piped.read() == convert.own(source).job and 'edition 1 to edition 2' in done.stderr, done.stderr)
    fresh = folder / 'fresh.job'
    run('convert', job, '-o', fresh, preexec_fn=lambda: os.umask(0o027))
    expect('the mode of a new file', fresh.exists() and fresh.stat().st_mode & 0o777 == 0o640)
    former = folder / 'former'
    former.write_text('#!/bin/sh\ncat >/dev/null; echo "refused 9 0"\n')
    former.chmod(0o755)
    for name in ('check', 'explain'):
        done = run(name, out, '--jobcheck', former)
        expect('an earlier jobcheck', '`ferruntzo convert` makes a job of edition 1 of it. Do not mill' in done.stdout + done.stderr
               and done.returncode == (1 if name == 'check' else 2), done.stdout + done.stderr)
        done = run(name, job, '--jobcheck', former)
        expect('edition 1 is no matter of versions', 'ferruntzo convert' not in done.stdout + done.stderr, done.stderr)


# ---- solve ----

def solved(expect, run, folder):
    """Jobs of edition 2: every kept degree is open, no product is larger than its factors, and the radii cover the error."""
    out = folder / 'two'
    done = run('solve', EXAMPLES / 'margin.json', '--edition', 2, '--stretches', 2, '--verify', 12, '-o', out)
    expect('solve --edition 2', done.returncode == 0 and '8 stretches, accepted by jobcheck' in done.stdout,
           done.stdout + done.stderr)
    products = 0
    for path in out.glob('*'):
        checked = Checked(path.read_bytes())
        expect('a job of edition 2', checked.accepted and checked.edition == 2, path.name)
        for step, m in zip(checked.makers, checked.results):
            if step.command.name == 'multiply':
                products += 1
                expect('left open', step.values['kept'] == OPEN
                       and m.degree == max(checked.results[step.values[name]].degree for name in 'ab'), path.name)
    expect('products of edition 2', products == 32, str(products))
    first = out / 'margin_0000.job'
    expect('the example', first.exists() and first.read_bytes() == (EXAMPLES / 'stretch_edition_2.job').read_bytes())
    done = run('solve', EXAMPLES / 'margin.json', '--edition', 3)
    expect('no edition 3', done.returncode == 2 and 'invalid choice: 3' in done.stderr, done.stderr)
