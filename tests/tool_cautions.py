"""Tests of the cautions about loads that may have been cut, of what check prints of cautions, of folders, and of closed and odd
inputs: each sentence about them in docs/MEANING.md and man/ferruntzo.1.

  tool_cautions.py [--tool tools/ferruntzo] [--jobcheck target/bin/jobcheck]
"""

import argparse
import os
import shlex
import subprocess
import sys
import tempfile
import threading
from concurrent.futures import ThreadPoolExecutor
from pathlib import Path
from random import Random

ROOT = Path(__file__).resolve().parent.parent
sys.path.insert(0, str(ROOT / 'tools'))

from ferruntzo_tool import covered, program                             # noqa: E402
from ferruntzo_tool import solve as solver                              # noqa: E402
from ferruntzo_tool.arithmetic import Refused, model                    # noqa: E402
from ferruntzo_tool.curve import read_curve                             # noqa: E402
from ferruntzo_tool.tables import S                                     # noqa: E402
from tool_solve import Options                                          # noqa: E402

EXAMPLES = ROOT / 'examples'
wrong = []


def expect(name, good, told=''):
    if not good:
        wrong.append(name)
        print(f'WRONG  {name} {told}')


# ---- Loads that were cut ----

def stretches(name, count):
    """The stretches of each run of an example curve."""
    curve = read_curve(str(EXAMPLES / name))
    for run in curve.runs:
        ends = solver.uniform(run, count)
        yield from ((solver.cut_out(run, low, high), curve) for low, high in zip(ends, ends[1:]))


def rows_of(stretch, scale, sign, degree):
    """Margin and normal, both cut to a degree."""
    parts = [solver.plain(stretch, 0), solver.plain(stretch, 1), solver.derived(stretch, 1, scale, -sign),
             solver.derived(stretch, 0, scale, sign)]
    return [solver.fitted(stretch, part, degree) for part in parts]


def job_of(rows, bur, radius=0):
    """The job of a stretch whose loads have these coefficients, or None if it cannot be made."""
    job = solver.Job()
    try:
        solver.add_loads(job, job.load(solver.bur_load(bur)), [model(row, radius) for row in rows])
    except Refused:
        return None
    return job


def noisy(row, places, rng):
    """The coefficients with noise of a unit at some places behind them."""
    made = row + [0] * (max(places) + 1 - len(row))
    for k in places:
        made[k] += rng.choice((-1, 1))
    return made


def cut_loads(run, folder):
    """Margin and normal cut and loaded with radius 0, and the same with noise of a unit behind the cut: each job gets a caution
    where its path is more than 2 µm off the true one."""
    rng, seen, cut = Random(3), {3: 0, 5: 0}, folder / 'cut'
    cut.mkdir()
    for stretch, curve in stretches('margin.json', 2):
        sign = 1 if curve.side == 'left' else -1
        whole = solver.solve_stretch(stretch, curve.bur, curve.side)
        for degree in (3, 5):
            rows = rows_of(stretch, whole.scale, sign, degree)
            kinds = [rows, [noisy(row, range(17, 21), rng) for row in rows],
                     [noisy(row, range(degree + 1, 15), rng) for row in rows]]
            for kind in kinds:
                job = job_of(kind, curve.bur)
                error = solver.verified(whole._replace(results=job.results), 60) if job else 0
                if error * 1000 <= 2 * S:
                    continue
                seen[degree] += 1
                (cut / f'{sum(seen.values())}.job').write_bytes(job.ended())
                expect('a cut load gets a caution', covered.suspects(job.ended()), f'degree {degree}, {error} units off')
    for strict, status in (((), 0), (('--strict',), 1)):
        done = run('check', cut, *strict)
        expect('check of cut loads', done.returncode == status and done.stdout.count('may have been cut off') == sum(seen.values()),
               done.stdout)
    expect('cut jobs', min(seen.values()) >= 12, str(seen))


def pieces(folder):
    """A piece of a spline is exact: no caution where the normal is a power of two times the derivative of the margin. There is one
    where the normal is three times that, is another curve's, or where there is none."""
    count = 0
    text = folder / 'line.json'
    text.write_text('{"bur_mm": 0.3, "series_mm": [{"x": [0, 1], "y": [0]}]}')
    straight = read_curve(str(text)).runs[0]
    single = [(solver.cut_out(straight, straight[0].low, straight[0].high), None)]
    points = read_curve(str(EXAMPLES / 'margin_points.txt')).runs[0]
    single += [(solver.cut_out(points, piece.low, piece.high), None) for piece in points[::4]]
    single += [(solver.cut_out(points, piece.low, piece.low + (piece.high - piece.low) // 64), None) for piece in points[::9]]
    for stretch, _ in single:
        solved = solver.solve_stretch(stretch, Options.limit_um, 'left')
        low = [m.degree <= covered.PIECE_DEGREE for m in solved.loads[:2]]
        expect('a piece of a spline gets no caution', not covered.suspects(solved.job.ended()), str(solved.loads))
        count += all(low)
    expect('pieces', count >= 20, count)
    # y = x²/4 over 2 mm, exactly: derivative S/2·T_1 and S.
    margin = [[0, S], [S // 8, 0, S // 8]]
    for name, normal, good in (('once', [[0, -S // 2], [S]], True), ('four times', [[0, -2 * S], [4 * S]], True),
                               ('on the other side', [[0, S // 2], [-S]], True), ('half', [[0, -S // 4], [S // 2]], True),
                               ('three times', [[0, -3 * S // 2], [3 * S]], False), ('not turned', [[0, S // 2], [S]], False),
                               ("another curve's", [[0, -S // 2, 0, S // 50], [S]], False)):
        found = covered.suspects(job_of(margin + normal, Options.limit_um).ended())
        expect('a normal that is the derivative', bool(found) != good, f'{name}: {found}')
    job = solver.Job()
    job.multiply(job.load(model([S, S // 4])), job.load(model([S // 3])))
    expect('a load of degree 1 without a normal', [i for i, _, _ in covered.suspects(job.ended())] == [0])


def covered_loads():
    """What solve makes of the example curves gets no caution about cuts, at any length of its stretches."""
    count = 0
    for name, numbers in (('margin.json', (1, 3, 8, 40, 128)), ('margin_points.txt', (3, 20, 60)), ('groove.txt', (16, 40)),
                          ('noisy_scan.txt', (90,))):
        for number in numbers:
            for stretch, curve in list(stretches(name, number))[::max(1, number // 8)]:
                try:
                    job = solver.solve_stretch(stretch, curve.bur or Options.limit_um, 'right').job.ended()
                except Refused:
                    continue
                count += 1
                expect('a covered load gets no caution', not covered.suspects(job), f'{name} {number}: {covered.cautions(job)}')
    expect('covered jobs', count >= 80, count)


# ---- What check prints ----

def quiet(run):
    """--quiet prints cautions and refusals; summaries count cautions."""
    accident, good, refused = (EXAMPLES / f'{name}.job' for name in ('accident', 'stretch', 'refused'))
    done = run('check', accident, '--quiet')
    expect('--quiet prints a caution', done.returncode == 0 and 'CAUTION: results 1 to 4' in done.stdout, done.stdout)
    done = run('check', accident, '--quiet', '--strict')
    expect('--quiet --strict', done.returncode == 1 and 'CAUTION: results 1 to 4' in done.stdout, done.stdout)
    done = run('check', good, '--quiet', '--strict')
    expect('--quiet prints nothing of a good job', done.returncode == 0 and done.stdout == '', done.stdout)
    done = run('check', accident, good, refused, '--quiet')
    expect('a summary counts cautions', done.returncode == 1 and 'REFUSED with 7' in done.stdout and done.stdout.endswith(
        '3 jobs: 2 accepted, 1 refused or beyond the limit, 0 not checked; 1 with a caution.\n'), done.stdout)
    done = run('check', accident, good, '--strict')
    expect('a strict summary', done.returncode == 1 and done.stdout.endswith(
        '2 jobs: 1 accepted, 1 refused, beyond the limit or with a caution, 0 not checked; 1 with a caution.\n'), done.stdout)


def folders(run, folder):
    """B.JOB is a job; what is no job and what lies in folders is passed over, and that is said; -r looks into folders."""
    good, refused = ((EXAMPLES / f'{name}.job').read_bytes() for name in ('stretch', 'refused'))
    crown = folder / 'crown'
    (crown / 'sub' / 'deep').mkdir(parents=True)
    for name in ('a.job', 'B.JOB', 'c.job.bak', 'sub/deep/e.job'):
        (crown / name).write_bytes(good)
    (crown / 'sub/d.job').write_bytes(refused)
    (crown / 'sub' / 'round').symlink_to(crown)
    done = run('check', crown)
    expect('a folder', done.returncode == 0 and f'{crown}/a.job: accepted' in done.stdout
           and f'{crown}/B.JOB: accepted' in done.stdout and f'{crown}: passed over: c.job.bak (no *.job); the folder sub (-r looks into it).' in done.stdout
           and '2 jobs: 2 accepted' in done.stdout, done.stdout)
    done = run('check', '-r', crown)
    expect('-r', done.returncode == 1 and all(words in done.stdout for words in (
        f'{crown}/sub/d.job: REFUSED', '4 jobs: 3 accepted, 1 refused', 'passed over: c.job.bak (no *.job).',
        'sub: passed over: the folder round')), done.stdout)
    for i in range(9):
        (crown / f'note {i}.txt').touch()
    done = run('check', crown, '--quiet')
    expect('many are counted', 'c.job.bak, note 0.txt, note 1.txt, note 2.txt and 6 more (no *.job)' in done.stdout, done.stdout)
    done = run('check', crown / 'sub' / 'deep')
    expect('nothing is passed over', done.returncode == 0 and 'passed over' not in done.stdout, done.stdout)
    (crown / 'sub/d.job').unlink()
    done = run('check', crown / 'sub')
    expect('a folder without jobs', done.returncode == 2 and 'holds no file *.job. NOT checked' in done.stdout
           and 'the folders deep, round (-r looks into them)' in done.stdout, done.stdout)


# ---- Closed and odd inputs ----

def closed_streams(shell, folder):
    """Status 2, one line and no traceback, whatever standard input and output are."""
    job, page = EXAMPLES / 'stretch.job', folder / 'page.html'
    rows = [(2, f'check - <{folder}', 'a folder'), (2, 'check - <&-', 'closed'), (2, f'check {job} >&-', 'output is closed'),
            (0, f'check {job} <&-', ''), (0, f'check {job} <{folder}', ''), (0, f'check {job} 2>&-', ''),
            (2, 'check nosuch 2>&- <&-', ''), (0, f'check - <{job}', ''), (2, f'check {job} {folder}/nosuch >&- 2>&- <&-', '')]
    for name in ('explain', 'list', 'assemble', 'solve'):
        rows += [(2, f'{name} - <&-', 'closed'), (2, f'{name} - <{folder}', 'a folder'),
                 (2, f'{name} {job} >&-', 'output is closed'), (2, f'{name} {folder}', 'directory')]
    rows += [(2, f'show - -o {page} <&-', 'closed'), (0, f'show {job} -o {page} <&-', ''),
             (0, f'solve {EXAMPLES}/accident.json <&-', '')]
    with ThreadPoolExecutor(2) as pool:
        for (status, command, words), done in zip(rows, pool.map(lambda row: shell(row[1]), rows)):
            said = done.stdout + done.stderr
            expect('status of an odd input', done.returncode == status, f'{command}: {done.returncode} {said[-300:]}')
            expect('words of an odd input', words in said and 'Traceback' not in said and 'Fatal' not in said,
                   f'{command}: {said[-300:]}')


def pipes(run, folder):
    """A named pipe that nobody writes to is given up, with a word; one that is written to late is read."""
    pipe = folder / 'pipe.job'
    os.mkfifo(pipe)
    former, program.PIPE_WAIT = program.PIPE_WAIT, 0.3
    try:
        program.read_job(str(pipe))
        expect('a pipe without a writer', False)
    except program.NotChecked as error:
        expect('a pipe without a writer', 'nobody wrote' in str(error), str(error))
    program.PIPE_WAIT = former
    content = (EXAMPLES / 'stretch.job').read_bytes()
    writer = threading.Timer(1, lambda: pipe.write_bytes(content))
    writer.start()
    done = run('check', pipe)
    writer.join()
    expect('a pipe with a late writer', done.returncode == 0 and 'accepted' in done.stdout, done.stdout)
    done = run('check', pipe)
    expect('check of a pipe without a writer', done.returncode == 2 and 'nobody wrote in 5 s. NOT checked' in done.stdout,
           done.stdout)


def long_lines(run, folder):
    """A file of zeros is named in a short line, and file names are printed in one line without control characters."""
    zeros = folder / 'zeros'
    zeros.touch()
    os.truncate(zeros, 20 << 20)
    for name in ('check', 'explain', 'solve', 'assemble'):
        done = run(name, zeros)
        said = done.stdout + done.stderr
        expect('a file of zeros', done.returncode == 2 and len(said) < 500 and '\0' not in said, f'{name}: {said[:200]}')
    odd = folder / 'a\x1b[2K\r\nb.job: accepted\u202e.job'
    odd.write_bytes((EXAMPLES / 'refused.job').read_bytes())
    page = folder / 'page.html'
    for words in (('check', odd), ('check', folder), ('explain', odd), ('solve', odd), ('assemble', odd), ('check', f'{odd}x'),
                  ('solve', f'{odd}x'), ('show', odd, '-o', f'{folder}/nosuch/{odd.name}'),
                  ('solve', EXAMPLES / 'accident.json', '-o', odd), ('check', f'--{odd}'), ('check', EXAMPLES / 'stretch.job', '--jobcheck', odd), ('list', f'{odd}x')):
        done = run(*words)
        said = done.stdout + done.stderr
        expect('a file name with control characters', done.returncode and not any(c in said for c in '\x1b\r\u202e')
               and '\nb.job' not in said and 'Traceback' not in said, f'{words[0]}: {said[:300]!r}')
    run('show', odd, '-o', page)
    expect('the page of such a file', '\x1b' not in page.read_text(encoding='utf-8'))


def main():
    parser = argparse.ArgumentParser()
    parser.add_argument('--tool', default=str(ROOT / 'tools/ferruntzo'))
    parser.add_argument('--jobcheck', default=str(ROOT / 'target/bin/jobcheck'))
    options = parser.parse_args()
    environment = {**os.environ, 'FERRUNTZO_JOBCHECK': options.jobcheck, 'PYTHONDONTWRITEBYTECODE': '1'}
    shared = {'env': environment, 'check': False, 'encoding': 'utf-8', 'errors': 'replace', 'timeout': 120}

    def run(*words):
        return subprocess.run([options.tool, *map(str, words)], stdin=subprocess.DEVNULL, capture_output=True, **shared)

    def shell(words):
        return subprocess.run(['bash', '-c', f'{shlex.quote(options.tool)} {words}'], stdin=subprocess.DEVNULL, capture_output=True,
                              **shared)

    with tempfile.TemporaryDirectory() as name:
        folder = Path(name)
        cut_loads(run, folder)
        pieces(folder)
        covered_loads()
        quiet(run)
        folders(run, folder)
        closed_streams(shell, folder)
        pipes(run, folder)
    with tempfile.TemporaryDirectory() as name:
        long_lines(run, Path(name))
    print(f'cautions: {len(wrong)} wrong')
    sys.exit(1 if wrong else 0)


if __name__ == '__main__':
    main()
