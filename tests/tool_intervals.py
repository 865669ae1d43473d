"""Tests of tools/ferruntzo on intervals (document 02, S-24), run by tool_commands.py and tool_solve.py: the places of 18 and 19,
what explain, show and assemble make of a load by 0x14, and what solve makes of a curve on its own interval.

Each function takes `expect`, which counts what is wrong."""

import json
import re
import sys
import xml.etree.ElementTree as ET
from fractions import Fraction
from pathlib import Path

ROOT = Path(__file__).resolve().parent.parent
sys.path.insert(0, str(ROOT / 'tools'))

import oracle as o                                                      # noqa: E402
from cases import on, random_interval                                   # noqa: E402
from ferruntzo_tool import explain, program, saving                     # noqa: E402
from ferruntzo_tool import solve as solver                              # noqa: E402
from ferruntzo_tool.curve import read_curve                             # noqa: E402
from ferruntzo_tool.reading import Checked, split                       # noqa: E402
from ferruntzo_tool.tables import LIMIT, S, STANDARD, is_load           # noqa: E402
from ferruntzo_tool.text import assemble                                # noqa: E402
from jobs import EDITION_1, END, add, load, load_on, multiply, quotient, root, subtract     # noqa: E402
from oracle import constant, model                                      # noqa: E402

ONE, BAD = constant(S), model([1], 0, 33)
HERE, ELSEWHERE = (0, 3 * S), (1, 3 * S + 1)        # equal extents
TWO = load_on(on(ONE, *HERE)) + load_on(on(ONE, *ELSEWHERE))


def place_rows():
    """Commands, and the number that the job is refused with (0: accepted) at its last command but the end."""
    def ends(lower, upper, m=ONE):
        return load_on(on(m, lower, upper))
    yield from ((ends(*pair), 18) for pair in ((0, 0), (1, 0), (5, -5), (-LIMIT - 1, 0), (0, LIMIT + 1), (LIMIT, LIMIT),
                                               (-1 << 31, 0), (0, (1 << 31) - 1), (LIMIT + 1, LIMIT + 2)))
    yield from ((ends(*pair), 0) for pair in ((0, 1), (-LIMIT, LIMIT), (LIMIT - 1, LIMIT), (-LIMIT, 1 - LIMIT), (-S, S)))
    yield from ((ends(1, 0, m), 2) for m in (BAD, constant(LIMIT + 1), constant(0, LIMIT + 1)))
    yield from ((TWO + command, 19) for command in (
        add(0, 1), subtract(1, 0), multiply(0, 1, 0), quotient(0, 1, ONE, ONE),
        quotient(0, 1, ONE, constant(0)), quotient(1, 0, constant(LIMIT), ONE)))        # 5 and 6 come behind 19
    yield from ((TWO + command, 2) for command in (quotient(0, 1, BAD, ONE), quotient(0, 1, ONE, BAD)))
    yield TWO + multiply(0, 1, 33), 9
    yield TWO + add(0, 2), 12
    yield ends(0, 1, constant(LIMIT)) + ends(0, 2, constant(LIMIT)) + add(0, 1), 19     # 3 comes behind 19
    yield from ((TWO + command, 0) for command in (add(1, 1), multiply(0, 0, 255), quotient(1, 1, ONE, ONE),
                                                   root(1, ONE, constant(S // 2))))
    yield load(ONE) + ends(0, S) + add(0, 1), 19
    yield load(ONE) + ends(-S, S) + add(0, 1), 0


def places(expect, checker):
    """The tool, the program and 02 on each row."""
    for commands, number in place_rows():
        job = EDITION_1 + commands + END
        checked = Checked(job)
        last = len(split(job)[0]) - 2
        expect('place of a refusal', (checked.refusal, checked.command) == (number, last if number else last + 1),
               f'{number}: {checked.text()}')
        expect('place of a refusal in the program', program.run(checker, job).text == checked.text(), f'{number}')


SHOWN = re.compile(r'    interval ([-\d,]+) to ([-\d,]+) \(x from (\S+) to (\S+)\)')


def explained(expect, jobs, rng):
    """The interval of each result stands below it wherever it is not the standard one; both intervals stand at 19."""
    kinds = {'accepted': 0, 'several': 0, 18: 0, 19: 0}
    with_load = [job for job in jobs if any(step.command.name == 'load_on' for step in split(job)[0])]
    for job in rng.sample(with_load, min(1500, len(with_load))):
        checked = Checked(job)
        own = {m.interval for m in checked.results} - {STANDARD}
        kinds['accepted'] += checked.accepted and bool(own)
        kinds['several'] += checked.accepted and len(own) > 1
        if checked.refusal in (18, 19):
            kinds[checked.refusal] += 1
        for outcome in checked.outcomes:
            lines = [found for found in map(SHOWN.fullmatch, explain.outcome_lines(outcome, checked)) if found]
            ends = [tuple(int(word.replace(',', '')) for word in found.groups()[:2]) for found in lines]
            wanted = [outcome.model.interval] if outcome.model and outcome.model.interval != STANDARD else []
            expect('the interval of a result', ends == wanted, f'{ends} {wanted}')
            expect('x at the ends', all(round(float(x) * S) == end for found, pair in zip(lines, ends)
                                        for x, end in zip(found.groups()[2:], pair)), lines)
        if checked.accepted:
            verdict, _, results = o.check_job(job)
            expect('the ends are those of the oracle', verdict == 'accepted'
                   and [tuple(m.interval) for m in checked.results] == list(map(o.interval, results)))
        if checked.refusal == 19:
            step = checked.outcomes[-1].step
            ends = [f'{end:,}' for kind, name in step.command.operands if kind == 'result'
                    for end in checked.results[step.values[name]].interval]
            expect('19 with both intervals', re.findall(r'on ([-\d,]+) to ([-\d,]+)', checked.cause)
                   == [tuple(ends[:2]), tuple(ends[2:])], checked.cause)
    expect('jobs on intervals are explained', min(kinds.values()) >= 10, str(kinds))


def words(expect, run, folder):
    """What a person reads of 18 and 19, and the text of a load by 0x14."""
    for name, wanted in (
            ('bad_ends', ('REFUSED with 18: the interval at byte 140: its lower end 5,242,880 is not below its upper end '
                          '2,097,152', 'the load of result 0 has its ends exchanged', 'It says "refused 18 1"')),
            ('different_intervals', ('the first operand is on -1,048,576 to 1,048,576 (x from -1 to 1), the second on 2,097,152 '
                                     'to 5,242,880 (x from 2 to 5)', 'the load of result 0 is by 0x10, so on -S..S; on '
                                     '2,097,152 to 5,242,880 (x from 2 to 5) the job goes on', 'It says "refused 19 3"'))):
        said = run('explain', ROOT / 'examples' / f'{name}.job').stdout
        expect('18 and 19 in words', all(text in said for text in wanted), said)
    said = run('check', ROOT / 'examples/different_intervals.job').stdout
    expect('19 is not milled', 'REFUSED with 19 at command 3 (byte 286): the two operands' in said and 'Do not mill' in said)
    said = run('list', ROOT / 'examples/machine_time.job').stdout
    expect('a load by 0x14 as text', '\nload_on radius 1 interval 13107200 16567501 # command 1, byte 2, result 0\n' in said)
    one = assemble('edition 1\nload_on radius 7 interval -3 2147483647\n  model degree 1: 4 -5\nend')
    expect('a load by 0x14 from text', one == EDITION_1 + load_on(on(model([4, -5], 7), -3, (1 << 31) - 1)) + END)
    text = folder / 'bad.txt'
    for line, wanted in (('load_on radius 0', '"interval" and its two ends'), ('load_on interval 0 1', '"radius"'),
                         ('load_on radius 0 interval 5', 'lacks its operand interval'),
                         ('load_on radius 0 interval 0 x', "'x' is no end of an interval"),
                         ('load_on radius 0 interval 0 2147483648', 'no end of an interval'),
                         ('load_on radius 0 interval 0 1 2', "'2' does not belong"),
                         ('load radius 0 interval 0 1', "'interval 0 1' does not belong")):
        text.write_text(f'{line}\n  model degree 0: 1\nend')
        done = run('assemble', text, '-o', folder / 'out.job')
        expect('assemble names a mistake of an interval', done.returncode == 2 and wanted in done.stderr
               and 'line 1' in done.stderr, f'{line!r}: {done.stderr}')


# ---- Pages ----

def below(drawing):
    """The numbers below a drawing with their places, from left to right."""
    found = []
    for node in drawing.iter('text'):
        if node.get('class') == 'below' and node.get('x') and re.fullmatch(r'-?\d+(\.\d+)?', node.text):
            found.append((float(node.get('x')), node.text))
    return found


def page_of(run, folder, job):
    (folder / 'one.job').write_bytes(job)
    done = run('show', folder / 'one.job', '-o', folder / 'one.html', '--limit-um', 'none')
    text = (folder / 'one.html').read_text(encoding='utf-8')
    return done.returncode, text, ET.fromstring(text.split('\n', 1)[1])


def pages(expect, run, folder):
    """Each drawing has x of its own interval below it, and room for the numbers; results on two intervals make no path."""
    for pairs in (((0, 1), (LIMIT - 1, LIMIT)), ((-LIMIT, LIMIT), (-S, S)), ((-LIMIT, 1 - LIMIT), (0, 3 * S + 1)),
                  ((7, 10), (7, 10))):
        job = EDITION_1 + b''.join(load_on(on(model([S, S // 3], 9), *pair)) for pair in pairs) + END
        status, text, tree = page_of(run, folder, job)
        figures = [node for node in tree.iter('figure') if node.get('id', '').startswith('result-')]
        expect('a page on intervals', status == 0 and len(figures) == 2, str(pairs))
        for (lower, upper), figure in zip(pairs, figures):
            for drawing in figure.iter('svg'):
                numbers = below(drawing)
                expect('numbers below a drawing', len(numbers) > 1
                       and all(lower / S - 1e-9 <= float(word) <= upper / S + 1e-9 for _, word in numbers)
                       and 2 * (float(numbers[-1][1]) - float(numbers[0][1])) > (upper - lower) / S, f'{lower} {upper} {numbers}')
                expect('room for the numbers', all(v - u >= 7 * len(word) for (u, word), (v, _) in zip(numbers, numbers[1:]))
                       and all(3 * len(word) <= x <= 560 - 3 * len(word) for x, word in numbers), str(numbers))
        different = pairs[0] != pairs[1]
        expect('a path only on one interval', ('class="path"' in text) != different
               and ('are on different intervals' in text) == different, str(pairs))
    time = page_of(run, folder, (ROOT / 'examples/machine_time.job').read_bytes())[1]
    expect('the page of machine time', all(words in time for words in (
        '>x = 12.5<', '>x = 15.80000019<', '<th scope="col">x</th>', '<td>12.5&#160;to&#160;15.80000019</td>')))
    plain = page_of(run, folder, (ROOT / 'examples/stretch.job').read_bytes())[1]
    expect('no intervals on a standard page', '<th scope="col">x</th>' not in plain and '>x = -1<' in plain)


# ---- Curves on their own interval ----

def with_interval(given, pairs):
    """A curve of the file with an interval for each piece."""
    return {**given, 'series_mm': [{**piece, 'interval_units': pair} for piece, pair in zip(given['series_mm'], pairs)]}


def written(folder, given):
    path = folder / 'curve.json'
    path.write_text(json.dumps(given))
    return read_curve(str(path))


def solved_curves(expect, folder, rng, given, samples, options):
    """A random margin on a random interval, uncut and cut: every load by 0x14 on the stretch's ends, which meet; uncut and
    rescaled it is the job of the margin without an interval; the oracle has the same lines and ends."""
    pair = random_interval(rng)
    curve, plain = written(folder, with_interval(given, [pair])), written(folder, given)
    run, = curve.runs
    whole = solver.solve_stretch(solver.cut_out(run, *pair), curve.bur, curve.side)
    former = solver.solve_stretch(solver.cut_out(plain.runs[0], 0, plain.runs[0][0].high), curve.bur, curve.side)
    standard = pair == tuple(STANDARD)
    expect('rescaled, the job is the former one', saving.rescaled(whole.job.ended()) == former.job.ended()
           and (whole.job.ended() == former.job.ended()) == standard, str(pair))
    expect('and its lines are the same', whole.job.text() == former.job.text())
    found = list(solver.solve(curve, curve.bur, curve.side, options))
    expect('stretches meet', [one.stretch.low for one in found] + [pair[1]] == [pair[0]] + [one.stretch.high for one in found],
           str(pair))
    for one in found:
        ends = one.stretch.low, one.stretch.high
        job = one.job.ended()
        loads = [step for step in split(job)[0] if is_load(step)]
        expect('loads by 0x14', ends == tuple(STANDARD) or len(loads) == 5 and all(
            step.command.byte == 0x14 and step.values['interval'] == ends for step in loads), str(ends))
        expect('the oracle has the ends', o.printed(job) == one.job.text()
               and {o.interval(m) for m in o.check_job(job)[2]} == {ends}, str(ends))
        expect('the radius on an interval', solver.verified(one, samples) <= solver.final(one), str(ends))
        for p in (rng.randint(*ends) for _ in range(4)):
            expect('a rescaled point', saving.point_error(one, p) == moved(one, p), f'{ends} {p}')
        extent = ends[1] - ends[0]
        expect('a power of two maps exactly', extent & extent - 1 or extent > 2 * S or not saving.largest_point_error(one))
    return len(found)


def moved(one, p):
    """By the oracle's mapped point and its values in the power basis."""
    worst = 0
    for m in one.results[-2:]:
        made = o.Model(m.degree, tuple(m.coefficients), m.radius, *m.interval)
        true, rounded = o.position(made, Fraction(p, S)), Fraction(o.mapped_point(made, p)[0], S)
        values = [Fraction(o.value_numerator(made.coefficients, at.numerator, at.denominator), at.denominator ** o.MAX_DEGREE)
                  for at in (true, rounded)]
        worst = max(worst, abs(values[0] - values[1]))
    return worst


def curves(expect, run, folder, rng, draw, samples, options, count):
    """Random margins, the example, and curves whose interval cannot be used."""
    stretches = sum(solved_curves(expect, folder, rng, draw(rng), samples, options) for _ in range(count))
    expect('curves on intervals', stretches >= count, stretches)
    print(f'curves on their own interval: {count}, {stretches} stretches')
    example, out = ROOT / 'examples/machine_time.json', folder / 'on_time'
    done = run('solve', example, '-o', out, '--verify', '10')
    expect('machine time', done.returncode == 0 and all(text in done.stdout for text in (
        'x from 12.5 to 15.80000019\n', 'x from 15.80000019 to 19\n', 'have the same radii',
        'moves the path by up to 1.972 units (0.00188 µm), which no radius covers')), done.stdout + done.stderr)
    expect('the job of machine time is the example', (out / 'machine_time_0000.job').read_bytes()
           == (ROOT / 'examples/machine_time.job').read_bytes())
    given = {'bur_mm': 0.3, 'series_mm': [{'x': [0, 1], 'y': [0, 0, 0.1]}]}
    path = folder / 'own.json'
    for pair, status, wanted in (
            ([0, 2 * S], 0, 'a point of the interval would need no rounding at 65 points'),
            ([0, 8], 0, 'CAUTION: the interval 0 to 8 (x from 0 to 7.629394531e-06) is very short'), ([0, 1], 0, '1 stretch,'),
            ([-LIMIT, LIMIT], 0, 'x from -256 to 256'), ([0, LIMIT + 1], 2, 'upper end 268,435,457 is outside'),
            ([5, 5], 2, 'lower end 5 is not below'), ([8, 0], 2, 'lower end 8 is not below'),
            ([0, 6.5], 2, '6.5 is no whole number of units'), ([0], 2, 'two whole numbers'), (8, 2, 'two whole numbers'),
            ([0, 'x'], 2, 'is no number'), ([0, 1, 2], 2, 'two whole numbers'), ([0, True], 2, 'is no number')):
        path.write_text(json.dumps(with_interval(given, [pair])))
        done = run('solve', path)
        expect('an interval of a curve', done.returncode == status and wanted in done.stdout + done.stderr
               and 'Traceback' not in done.stderr, f'{pair}: {done.returncode} {done.stdout[-300:]} {done.stderr[-300:]}')
    former = folder / 'former_jobcheck'
    former.write_text('#!/bin/sh\ncat >/dev/null; echo refused 9 1\n')
    former.chmod(0o755)
    done = run('solve', example, '--jobcheck', former)
    expect('a jobcheck before 0x14', done.returncode == 2 and 'an own interval needs 4.0.0' in done.stderr, done.stderr)
    path.write_text(json.dumps(with_interval(given, [[0, 3]])))
    done = run('solve', path, '--stretches', '4')
    expect('more stretches than units', done.returncode == 2 and 'has fewer units than 4 stretches' in done.stderr, done.stderr)
    for other, wanted in (({**given, 'interval_units': [0, 8]}, 'belongs into a piece'),
                          ({'bur_mm': 1, 'points_mm': [[0, 0]], 'interval_units': [0, 8]}, 'belongs into a piece'),
                          ({**given, 'series_mm': [{**given['series_mm'][0], 'interval': [0, 8]}]}, "unknown key 'interval'")):
        path.write_text(json.dumps(other))
        done = run('solve', path)
        expect('a misplaced interval', done.returncode == 2 and wanted in done.stderr, done.stderr)
