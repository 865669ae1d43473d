"""Tests of tools/ferruntzo by its command line and modules: exit statuses, explain against the program over
the whole corpus of job tests, list and assemble round trips, the page, the least radius of 0x22, versions;
intervals (tool_intervals.py), editions (tool_editions.py) and report records (tool_reports.py). Libraries and program must be built.

  tool_commands.py [--tool tools/ferruntzo] [--jobcheck target/bin/jobcheck] [--cases N] [--plant]
"""

import argparse
import os
import re
import resource
import subprocess
import sys
import tempfile
import xml.etree.ElementTree as ET
from concurrent.futures import ThreadPoolExecutor
from html.parser import HTMLParser
from pathlib import Path
from random import Random

ROOT = Path(__file__).resolve().parent.parent
sys.path.insert(0, str(ROOT / 'tools'))

from examples_of_01 import example_job                                  # noqa: E402
from ferruntzo_tool import __version__, explain, program                # noqa: E402
from ferruntzo_tool import arithmetic as ar                             # noqa: E402
from ferruntzo_tool.reading import Checked, split                       # noqa: E402
from ferruntzo_tool.tables import (BY_NAME, COMMANDS, LIMIT, MAX_DEGREE, MAX_JOB_BYTES, REFUSALS, S,    # noqa: E402
                                   in_micrometres, is_load, is_tight)
from ferruntzo_tool.text import assemble, listing                       # noqa: E402
from job_cases import RandomJobs, fixed_check                           # noqa: E402
import tool_editions                                                    # noqa: E402
import tool_intervals                                                   # noqa: E402
import tool_report_files                                                # noqa: E402
import tool_reports                                                     # noqa: E402

EXAMPLES = sorted((ROOT / 'examples').glob('*.job'))
wrong = []


def expect(name, good, told=''):
    if not good:
        wrong.append(name)
        print(f'WRONG  {name} {told}')


def corpus(cases, rng):
    """Examples, every fixed case of the job tests, random and mutated jobs, bytes that mean nothing."""
    draw = RandomJobs()
    found = [path.read_bytes() for path in EXAMPLES]
    found += [case.inputs[0] for case in fixed_check()]
    found += [draw(rng).inputs[0] for _ in range(cases)]
    found += [rng.randbytes(rng.randrange(500)) for _ in range(cases // 4)]
    # Jobs of edition 1 with a product, as jobs of edition 2.
    found += [b'\1\2' + job[2:] for job in found if job[:2] == b'\1\1' and any('kept' in step.values for step in split(job)[0])]
    return [job for job in dict.fromkeys(found) if len(job) <= 65536]


def explain_agrees(jobs, checker, plant):
    """The tool's own arithmetic and the program, on every job of the corpus."""
    def differs(job):
        text = Checked(job).text()
        if plant and job == jobs[len(jobs) // 2]:
            text = text.replace('d', 'e')
        return program.run(checker, job).text != text
    with ThreadPoolExecutor(os.cpu_count() or 1) as pool:
        bad = [job for job, found in zip(jobs, pool.map(differs, jobs)) if found]
    expect('explain against the program', not bad, f'{len(bad)} jobs differ, first {bad[0][:40].hex() if bad else ""}')


def explained(jobs, rng):
    """A whole explanation of a draw of jobs: it never fails and names the refusal."""
    good = (ROOT / 'examples/stretch.job').read_bytes()
    spoiled = [good[:at] + b'\0\0\0\x80' + good[at + 4:] for at in (4, 144, 706, 843, 980)]     # a coefficient -2^31
    for job in rng.sample(jobs, 250) + spoiled + [path.read_bytes() for path in EXAMPLES]:
        checked = Checked(job)
        text = '\n'.join(explain.explanation(job, checked))
        expect('explanation names the refusal', checked.accepted or f'REFUSED with {checked.refusal}' in text,
               job[:40].hex())


SIDES = re.compile(r'r = ([\d,]+): 2·M·r² \+ b·S² = ([\d,]+), \(S-m\)·S·r = ([\d,]+)(: passes|: does not pass|)')


def least_radii(rng):
    """Of random M, m and b, and of the borders: r satisfies and r - 1 does not, or none satisfies. Those that satisfy
    follow one another, so that the two whole numbers about the middle of them decide whether there are any."""
    found = none = above = behind = 0
    for i in range(20000):
        big_m, m = int(2 ** rng.uniform(0, 28)), S - int(2 ** rng.uniform(0, 20))
        most = (S - m) ** 2 // (8 * big_m)              # the largest b with which a real r satisfies
        b = rng.choice((0, 1, 3, most // 2, most - 1, most, most + 1, most + rng.randrange(1, S), (S - m) - 2, (S - m) - 1,
                        rng.randrange(S + 2)))
        if i % 3 == 0:                                  # M is the largest for b: few numbers satisfy, or none
            b = int(2 ** rng.uniform(0, 20))
            big_m = (S - m) ** 2 // (8 * b)
        if b < 0 or not 1 <= big_m <= LIMIT:
            continue
        n, most = {'M': big_m, 'm': m, 'b': b}, (S - m) ** 2 // (8 * big_m)
        v, r = (S - m) * S // (4 * big_m), ar.least_radius(n)

        def good(r):
            return 2 * big_m * r * r + b * S * S <= (S - m) * S * r
        if r is None:
            none, above = none + 1, above + (b <= most)
            expect('no radius', not any(good(min(k, S)) for k in (v, v + 1)), str(n))
        else:
            found, behind = found + 1, behind + (r == v + 1)
            expect('least radius', 0 <= r <= S and good(r) and not (r and good(r - 1)), f'{n}: {r}')
            expect('never larger than by 0x21', r <= ar.by_discriminant(n)['radius'], f'{n}: {r}')
    expect('kinds of least radii', min(found, none, above, behind) >= 20, f'{found} {none} {above} {behind}')


def explained_roots(jobs, rng):
    """The lines about a root by 0x22 show that its radius is the least, or that there is none; those about the other
    test say what it gives."""
    kinds = {True: 0, False: 0}
    byte = bytes([BY_NAME['tight_root'].byte])
    with_byte = [job for job in jobs if byte in job]
    for job in rng.sample(with_byte, min(1500, len(with_byte))):
        checked = Checked(job)
        for outcome in checked.outcomes:
            n = outcome.numbers
            if not is_tight(outcome.step) or 'b' not in n:
                continue
            lines = list(explain.test_lines(outcome))
            rows = [(*(int(word.replace(',', '')) for word in row[:3]), row[3]) for row in SIDES.findall('\n'.join(lines))]
            for r, left, right, _ in rows:
                expect('sides', left == 2 * n['M'] * r * r + n['b'] * S * S and right == (S - n['m']) * S * r, lines)
            kinds[outcome.model is not None] += 1
            other = 'accepts' if (S - n['m']) ** 2 >= 8 * n['b'] * n['M'] else 'refuses'
            expect('the other test', lines[-1].startswith(f'the root test (0x21) {other} the same candidates'), lines)
            if outcome.model is None:
                expect('17 is explained', outcome.refusal == 17 and rows and all(
                    left > right and not said for _, left, right, said in rows), lines)
                continue
            radius = outcome.model.radius
            expect('a least radius is explained', [(row[0], row[1] <= row[2], row[3]) for row in rows] == [
                (radius, True, ': passes'), (radius - 1, False, ': does not pass')][:2 if radius else 1], lines)
    expect('roots by 0x22 are explained', kinds[True] >= 20 and kinds[False] >= 5, str(kinds))


def round_trips(jobs):
    for job in jobs:
        expect('list and assemble', assemble('\n'.join(listing(job))) == job, job[:60].hex())


class Tags(HTMLParser):
    def __init__(self):
        super().__init__()
        self.seen = set()

    def handle_starttag(self, tag, attrs):
        self.seen.add(tag)
        names = [name for name, _ in attrs]
        expect('page without scripts or links outside', tag not in ('script', 'link', 'iframe', 'img')
               and not any(name.startswith('on') or name in ('src', 'href') for name in names), f'{tag} {names}')


def pages(run, folder):
    for path in EXAMPLES:
        page = folder / 'page.html'
        done = run('show', path, '-o', page)
        accepted = 'accepted' in path.with_suffix('.expected').read_text()
        expect('status of show', done.returncode == (0 if accepted else 1), path.name)
        text = page.read_text(encoding='utf-8')
        tags = Tags()
        tags.feed(text)
        # The page is written so that it is XML as well: every element is closed.
        tree = ET.fromstring(text.split('\n', 1)[1])
        curves = [node for node in tree.iter('figure') if node.get('id', '').startswith('result-')]
        results = len(path.with_suffix('.expected').read_text().splitlines()) - 1 if accepted else 0
        expect('a drawing for each result', len(curves) == results, f'{path.name}: {len(curves)}')
        expect('drawings hold finite numbers', not re.search(r'\b(nan|inf)\b', text), path.name)


def statuses(run, folder, checker):
    example, refused = ROOT / 'examples/stretch.job', ROOT / 'examples/refused.job'
    tight, none = ROOT / 'examples/stretch_tight.job', ROOT / 'examples/no_radius.job'
    wide = ROOT / 'examples/accident_degree_12.job'
    cut = ROOT / 'examples/accident.job'
    (folder / 'long.job').write_bytes(bytes(70000))
    (folder / 'empty.job').write_bytes(b'')
    (folder / 'none.job').write_bytes(b'\x01\x01\x00')
    padded = bytearray(cut.read_bytes())
    for at in [step.offsets['model'] for step in split(cut.read_bytes())[0] if is_load(step)]:
        padded[at] = MAX_DEGREE
    (folder / 'padded.job').write_bytes(padded)
    stub = {'silent': '', 'unreadable': 'echo unreadable', 'odd': 'echo accepted 3', 'killed': 'kill -9 $$',
            'liar': 'cat >/dev/null; printf "0 0 0\\naccepted 1\\n"'}
    for name, body in stub.items():
        path = folder / name
        path.write_text(f'#!/bin/sh\n{body}\n')
        path.chmod(0o755)
    rows = [
        (0, 'check', example), (0, 'check', example, '--limit-um', '0.02'), (1, 'check', example, '--limit-um', '0.01'),
        (0, 'check', example, '--results', '13,14'), (1, 'check', example, '--results', '15'),
        (0, 'check', wide, '--limit-um', 'none'), (1, 'check', wide), (1, 'check', refused),
        (1, 'check', example, refused), (2, 'check', example, folder / 'nosuch'), (2, 'check', folder / 'long.job'),
        (1, 'check', folder / 'empty.job'), (1, 'check', folder / 'none.job'), (0, 'check', cut),
        (1, 'check', cut, '--strict'), (2, 'check', folder), (1, 'check', folder / 'padded.job', '--strict'),
        (2, 'check', example, '--jobcheck', folder / 'nosuch'),
        *((2, 'check', example, '--jobcheck', folder / name) for name in ('silent', 'unreadable', 'odd', 'killed',
                                                                               'liar')),
        (2, 'check', example, '--limit-um', 'x'), (2, 'check', example, '--results', '40'), (2, 'check'),
        (2, 'check', example, '--limit-um', '-1'), (2, 'nosuch'),
        (0, 'explain', example), (1, 'explain', refused), (2, 'explain', folder / 'nosuch'),
        (2, 'explain', example, '--jobcheck', folder / 'liar'), (2, 'explain', folder / 'long.job'),
        (2, 'explain', example, '--jobcheck', folder / 'silent'),
        (0, 'check', tight), (0, 'explain', tight), (1, 'check', none), (1, 'explain', none), (0, 'list', none),
        (0, 'list', example), (2, 'list', folder / 'nosuch'), (2, 'assemble', example),
        (2, 'assemble', folder / 'nosuch'),
        (2, 'show', example, '-o', folder / 'no' / 'page'), (2, 'show', folder / 'nosuch', '-o', folder / 'p'),
        (2, 'show', example, '-o', folder / 'p', '--jobcheck', folder / 'liar'), (0, '--help'), (0, '--version'),
        *((0, name, '--help') for name in ('check', 'explain', 'report', 'convert', 'list', 'assemble', 'show', 'solve')),
    ]
    with ThreadPoolExecutor(os.cpu_count() or 1) as pool:
        for row, done in zip(rows, pool.map(lambda row: run(*row[1:]), rows)):
            told = ' '.join(map(str, row[1:]))
            expect('exit status', done.returncode == row[0],
                   f'{told}: {done.returncode}, not {row[0]}; {done.stderr[-200:]}')
            expect('no traceback', 'Traceback' not in done.stdout + done.stderr, told)
            if row[0] == 2:
                expect('a message', done.stderr.strip() or 'NOT checked' in done.stdout, told)


def lacks(run, folder):
    """Not enough room or memory, and file names that are no UTF-8: a status, and no traceback."""
    example = ROOT / 'examples/stretch.job'
    named = folder / os.fsdecode(b'\xff.job')
    named.write_bytes(example.read_bytes())
    for command in (('check', named), ('explain', named), ('list', named), ('show', named, '-o', folder / 'page.html')):
        done = run(*command)
        expect('a file name that is no UTF-8', done.returncode == 0, f'{command[0]}: {done.stderr[-300:]}')
    with open('/dev/full', 'wb') as full:
        for command in (('check', example), ('check', *[example] * 300), ('explain', example), ('list', example),
                        ('solve', ROOT / 'examples/accident.json')):
            done = run(*command, stdout=full)
            expect('output that cannot be written', done.returncode == 2 and 'Traceback' not in done.stderr
                   and 'No space' in done.stderr, f'{command[0]}: {done.returncode} {done.stderr[-300:]}')
    large = folder / 'large'
    large.touch()
    os.truncate(large, 3 << 30)
    done = run('list', large, preexec_fn=lambda: resource.setrlimit(resource.RLIMIT_AS, (1 << 30, 1 << 30)))
    large.unlink()
    expect('not enough memory', done.returncode == 2 and 'memory' in done.stderr and 'Traceback' not in done.stderr,
           f'{done.returncode} {done.stderr[-300:]}')


def differences(run, folder):
    """A program that differs from the tool only in a radius is told by the line."""
    example = ROOT / 'examples/root_of_4.job'
    other = folder / 'other'
    other.write_text('#!/bin/sh\ncat >/dev/null; printf "0 0 0\\n1 0 7\\naccepted 2\\n"\n')
    other.chmod(0o755)
    for command, wanted in ((('explain', example), 'line 2 of jobcheck is "1 0 7", of this explanation "1 0 0"'),
                            (('show', example, '-o', folder / 'page.html'), 'another version. No page')):
        done = run(*command, '--jobcheck', other)
        expect('a difference is named', done.returncode == 2 and wanted in done.stderr, done.stderr)


def words(run, folder):
    """What a technician reads."""
    said = run('check', ROOT / 'examples/accident.job').stdout
    expect('the accident gets a caution', 'CAUTION: results 1 to 4' in said, said)
    said = run('explain', ROOT / 'examples/accident.job').stdout
    expect('explain says what is not covered', 'results 0 to 4' in said and 'NOT covered' in said)
    said = run('check', ROOT / 'examples/refused.job').stdout
    expect('a refused job is not milled', 'REFUSED with 7' in said and 'Do not mill' in said)
    none = ROOT / 'examples/no_radius.job'
    said = run('check', none).stdout
    expect('17 in words', 'REFUSED with 17 at command 2 (byte 140): the proposed root fits too badly for the tighter root test'
           in said and 'Do not mill' in said, said)
    said = run('explain', none).stdout
    expect('17 is explained in words', all(text in said for text in (
        'square root of result 0 (tighter root test)', 'for a whole r from 0 to S: FAILS',
        'the root test (0x21) accepts the same candidates, with radius 2,097,152 (2000 µm)',
        'What to do: bring h nearer to the root and w nearer to 1/(2h)', 'It says "refused 17 2", as explained'))
        and 'read so' not in said, said)
    said = run('explain', ROOT / 'examples/stretch.job').stdout
    expect('0x21 is told what 0x22 gives', 'the tighter root test (0x22) accepts the same candidates, with radius' in said, said)
    expect('a root by 0x22 as text', '\ntight_root 0            # command 2' in run('list', none).stdout)
    text = folder / 'bad.txt'
    for line, wanted in (('load radius 0\nend', 'lacks its block model'), ('lode', 'is no command'),
                         ('multiply 1 2', '"kept"'), ('add 1', 'lacks its operand b'), ('add 1 300', "'300'"),
                         ('bytes 0x1', 'no byte'), ('load radius 0\n model degree 0: 1.5', 'coefficient')):
        text.write_text(line)
        done = run('assemble', text, '-o', folder / 'out.job')
        expect('assemble names line and mistake', done.returncode == 2 and wanted in done.stderr
               and 'line ' in done.stderr, f'{line!r}: {done.stderr}')
    many = folder / 'many'
    many.mkdir()
    good, bad = (ROOT / 'examples/root_of_4.job').read_bytes(), (ROOT / 'examples/refused.job').read_bytes()
    for i in range(600):
        (many / f'{i:04}.job').write_bytes(bad if i == 77 else good)
    done = run('check', many, '--quiet')
    expect('many jobs', done.returncode == 1 and '600 jobs: 599 accepted, 1 refused' in done.stdout
           and '0077.job: REFUSED' in done.stdout, done.stdout[-300:])


def texts():
    """The text of a job in docs/FORMAT.md is that of its worked example."""
    section = (ROOT / 'docs/FORMAT.md').read_text(encoding='utf-8').split('### The text of a job')[1]
    block = [line for line in section.split('\n## ')[0].splitlines() if line.startswith('    ')]
    expect('the text in FORMAT', assemble('\n'.join(block)) == (ROOT / 'examples/root_of_4.job').read_bytes())


def numbers():
    for units, text in ((0, '0 µm'), (1, '0.000954 µm'), (2097, '2.00 µm'), (2098, '2.01 µm'), (56, '0.0535 µm'),
                        (1 << 20, '1000 µm'), (1 << 28, '256000 µm')):
        expect('micrometres, never rounded down', in_micrometres(units) == text, f'{units}: {in_micrometres(units)}')
    header = (ROOT / 'include/ferruntzo.h').read_text()
    version = re.search(r'#define FERRUNTZO_VERSION "(.*)"', header)[1]
    parts = [re.search(rf'#define FERRUNTZO_VERSION_{part} (\d+)', header)[1] for part in ('MAJOR', 'MINOR', 'PATCH')]
    expect('one version', version == __version__ == '.'.join(parts)
           and all(f'version = "{version}"' in (ROOT / path).read_text() for path in ('wrapper/Cargo.toml', 'python/pyproject.toml'))
           and f"__version__ = '{version}'" in (ROOT / 'python/ferruntzo/_library.py').read_text()
           and f'## {version}\n' in (ROOT / 'CHANGELOG.md').read_text()
           and all(f'Ferruntzo {version}' in page.read_text() for page in (ROOT / 'man').iterdir()), version)
    named = dict(re.findall(r'FERRUNTZO_([A-Z_]+) = (\d+)', header))
    named.pop('ACCEPTED')
    expect('refusals as in the header', {r.name: str(r.number) for r in REFUSALS} == named, str(named))
    bytes_of = dict(re.findall(r'#define FERRUNTZO_COMMAND_([A-Z_]+) 0x([0-9a-f]+)', header))
    expect('commands as in the header', {c.name.upper(): f'{c.byte:02x}' for c in COMMANDS} == bytes_of, str(bytes_of))
    expect('limits as in the header', f'#define FERRUNTZO_MAX_JOB_BYTES {MAX_JOB_BYTES}\n' in header
           and f'#define FERRUNTZO_MAX_END {LIMIT} ' in header)


def main():
    parser = argparse.ArgumentParser()
    parser.add_argument('--tool', default=str(ROOT / 'tools/ferruntzo'))
    parser.add_argument('--jobcheck', default=str(ROOT / 'target/bin/jobcheck'))
    parser.add_argument('--cases', type=int, default=600)
    parser.add_argument('--seed', type=int, default=1)
    parser.add_argument('--plant', action='store_true', help='spoil one text of the tool')
    options = parser.parse_args()
    os.environ['FERRUNTZO_JOBCHECK'] = options.jobcheck
    environment = {**os.environ, 'PYTHONDONTWRITEBYTECODE': '1'}

    def run(*words, stdin=subprocess.DEVNULL, stdout=subprocess.PIPE, variables=None, **more):
        return subprocess.run([options.tool, *map(str, words)], stdin=stdin, stdout=stdout, stderr=subprocess.PIPE,
                              env={**environment, **(variables or {})}, check=False, encoding='utf-8', errors='replace',
                              **more)

    rng = Random(options.seed)
    jobs = corpus(options.cases, rng)
    jobs = jobs[::40] if options.plant else jobs
    explain_agrees(jobs, options.jobcheck, options.plant)
    if not options.plant:
        assert example_job() in jobs
        with tempfile.TemporaryDirectory() as name:
            folder = Path(name)
            explained(jobs, rng)
            explained_roots(jobs, rng)
            least_radii(rng)
            tool_intervals.explained(expect, jobs, rng)
            tool_intervals.places(expect, options.jobcheck)
            tool_intervals.words(expect, run, folder)
            tool_intervals.pages(expect, run, folder)
            tool_editions.conversions(expect)
            tool_editions.corpus(expect, jobs)
            tool_editions.opened(expect)
            for test in (tool_reports.records, tool_reports.pairs, tool_reports.papers):
                test(expect)
            tool_reports.noticed(expect, tool_reports.report)
            tool_reports.corpus(expect, jobs, rng)
            for test in (tool_editions.libraries, tool_editions.command, tool_report_files.libraries, tool_report_files.files,
                         tool_reports.commands):
                with tempfile.TemporaryDirectory() as own:
                    test(expect, run, Path(own))
            round_trips(jobs)
            statuses(run, folder, options.jobcheck)
            lacks(run, folder)
            differences(run, folder)
            words(run, folder)
            pages(run, folder)
        numbers()
        texts()
    print(f'tool: {len(jobs)} jobs, {len(wrong)} wrong')
    sys.exit(1 if wrong else 0)


if __name__ == '__main__':
    main()
