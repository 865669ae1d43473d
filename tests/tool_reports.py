"""Tests of `ferruntzo report` (document 02, S-30), run by tool_commands.py: records of the library, the tool and the oracle;
tables, JSON and bytes; faults planted in the tool, which these tests must see. tool_report_files.py has wrong libraries and files.

Each function takes `expect`, which counts what is wrong."""

import contextlib
import io
import json
import re
import struct
import sys
import types
from pathlib import Path

ROOT = Path(__file__).resolve().parent.parent
sys.path[:0] = [str(ROOT / 'tools'), str(ROOT / 'python')]

import ferruntzo                                                        # noqa: E402
import oracle as o                                                      # noqa: E402
import report_oracle                                                    # noqa: E402
from ferruntzo_tool import cli, library, program, report                # noqa: E402
from ferruntzo_tool.reading import Checked                              # noqa: E402
from ferruntzo_tool.tables import LIMIT, REFUSAL, S                     # noqa: E402
from cases import on                                                    # noqa: E402
from jobs import EDITION_1, EDITION_2, END, add, load, load_on, multiply, quotient, root, tight_root  # noqa: E402
from oracle import constant, model                                      # noqa: E402

EXAMPLES = ROOT / 'examples'
STRETCH = EXAMPLES / 'stretch_tight.job'
SOURCE = (ROOT / 'tools/ferruntzo_tool/report.py').read_text(encoding='utf-8')
FIELDS = {name: report_oracle.READINGS[f'check_{name}'] for name in ('workshop', 'service')}
SIZES = {name: report_oracle.size(f'check_{name}') for name in FIELDS}
NAMES = {o.LOAD: 'load', o.LOAD_ON: 'load on', o.ADD: 'add', o.SUBTRACT: 'subtract', o.MULTIPLY: 'multiply', o.QUOTIENT: 'quotient',
         o.ROOT: 'root', o.TIGHT_ROOT: 'tight root'}


# ---- Jobs, and what is to be reported of them ----

def written():
    """Jobs, and the bytes of their records for the service, written out from 02 and docs/FORMAT.md."""
    none, third = '00' * 12, constant(349525)
    yield EDITION_1 + END, ''
    yield EDITION_2 + END, ''
    # Equal rooms, of other counts than the jobs without results.
    yield EDITION_1 + load(constant(0)) + END, f'0000 {none} 00000000'
    yield EDITION_1 + load(model([1] * 33, 0x01020304)) + END, f'0020 {none} 04030201'
    yield EDITION_2 + load_on(on(constant(5, LIMIT), -3, 7)) + END, f'0000 {none} 00000010'
    yield EDITION_1 + load(constant(S)) + load(constant(3 * S)) + quotient(0, 1, third, third) + END, (
        f'0000 {none} 00000000 0100 {none} 00000000 0200 01000000 01000000 01000000 02000000')
    for test, f, numbers in ((root, 2 * S, '00000000 00002000 00000800 00001000'), (tight_root, 3 * S, '00000000 00001000 00000400 b1af0400'),
                             (root, 4 * S, '00' * 16), (tight_root, 4 * S, '00' * 16)):
        yield EDITION_2 + load(constant(f)) + test(0, constant(2 * S), constant(S // 4)) + END, f'0000 {none} 00000000 0100 {numbers}'
    # The degree of a test is that of h, not of w.
    yield EDITION_1 + load(constant(4 * S)) + root(0, model([2 * S, 0, 0]), model([S // 4] + 5 * [0])) + END, (
        f'0000 {none} 00000000 0102 {"00" * 16}')
    yield EDITION_1 + b''.join(load(constant(0, 257 * i)) for i in range(32)) + END, ''.join(
        f'{i:02x}00 {none} {i:02x}{i:02x}0000' for i in range(32))


def by_oracle(job):
    """Byte of the command and record for the service of each result; or number and command of the refusal."""
    verdict, *rest = o.check_job(job)
    if verdict == 'refused':
        return None, tuple(rest)
    return list(zip((byte for byte, _ in o.reading(job) if byte in o.RESULT_BYTES), report_oracle.records(job))), (0, 0)


def read_as(name, record):
    """The fields of a record that a reading has."""
    return tuple(getattr(record, field) for field in FIELDS[name])


def readings(module):
    return (module.WORKSHOP, module.SERVICE)


def records(expect, module=report):
    """The written ones: by the library, by the tool itself, and by the oracle."""
    for job, text in written():
        data = bytes.fromhex(text)
        rows = [report_oracle.Record(*struct.unpack('<2B4I', data[i:i + 18])) for i in range(0, len(data), 18)]
        expect('the oracle on a written job', [row for _, row in by_oracle(job)[0]] == rows, text)
        for reading in readings(module):
            wanted = [read_as(reading.name, row) for row in rows]
            found = library.report(ferruntzo, reading.function, job)
            room = data.ljust(576, b'\0') if reading.name == 'service' else b''.join(
                data[i:i + 2] + data[i + 14:i + 18] for i in range(0, len(data), 18)).ljust(192, b'\0')
            expect("the library's records", (list(found.records), found.room) == (wanted, room), f'{text}: {found}')
            own = list(module.own_records(Checked(job), reading))
            expect("the tool's records", own == wanted and module.own_room(own, reading) == room, f'{text}: {own}')


def pairs(expect):
    """Jobs of equal count: other curves, other candidates, and the same bytes; or the same for the workshop alone."""
    def rooms(f, h, w):
        job = EDITION_1 + load(constant(f)) + root(0, constant(h), constant(w)) + END
        return [library.report(ferruntzo, function, job).room for function in ('check_workshop', 'check_service')]
    first, curve, helper = rooms(4 * S, 2 * S, S // 4), rooms(S, S, S // 2), rooms(4 * S, 2 * S, S // 4 + 1)
    expect('another curve, the same rooms', first == curve)
    expect('another helper, another m', first[0] == helper[0] and first[1] != helper[1])
    expect('another radius, other rooms', all(a != b for a, b in zip(first, rooms(4 * S + 1, 2 * S, S // 4))))


def corpus(expect, jobs, rng):
    """Library and tool on every job, the oracle on a draw of them; and rooms of jobs of equal count are equal exactly when the
    records are."""
    kinds, rooms, drawn = {'accepted': 0, 'refused': 0, 'tested': 0, 'equal': 0}, {}, set(rng.sample(jobs, min(900, len(jobs))))
    for job in jobs:
        checked = Checked(job)
        answer = program._lines(checked.text())
        for reading in readings(report):
            found = library.report(ferruntzo, reading.function, job)
            expect('library and tool report alike', not report.differs(found, checked, answer, reading), job[:60].hex())
            if job in drawn:
                rows, refusal = by_oracle(job)
                wanted = [read_as(reading.name, row) for _, row in rows or ()]
                expect('library and oracle', (list(found.records), (found.refusal, found.command)) == (wanted, refusal), job[:60].hex())
                expect('library and oracle, bytes', rows is None or found.room == report_oracle.room(reading.function, job), job[:60].hex())
            if not found.refusal:
                key, triples = (reading.name, len(found.records), found.room), tuple(map(tuple, found.records))
                kinds['equal'] += key in rooms
                expect('equal rooms, equal records', rooms.setdefault(key, triples) == triples, job[:60].hex())
        kinds['accepted' if checked.accepted else 'refused'] += 1
        kinds['tested'] += any(outcome.numbers for outcome in checked.outcomes)
    different = len({key[:2] + (records,) for key, records in rooms.items()})
    expect('other rooms, other records', different == len(rooms), f'{different} {len(rooms)}')
    expect('kinds of reports', min(kinds.values()) >= 200, str(kinds))
    return kinds


# ---- The command in this process ----

def invoke(module, *words):
    """Status, standard output in bytes, and standard error of the command."""
    out, err = io.TextIOWrapper(io.BytesIO(), encoding='utf-8'), io.StringIO()
    with contextlib.redirect_stdout(out), contextlib.redirect_stderr(err):
        try:
            status = module.main(cli.parser().parse_args(['report', *map(str, words)]))
        except SystemExit as ended:
            status = ended.code
        out.flush()
    return status, out.buffer.getvalue(), err.getvalue()


CELL = r' +(-|[\d,]+)'
ROWS = {'workshop': re.compile(r' *(\d+)' + 2 * CELL + r' +([\d.]+)'),
        'service': re.compile(r' *(\d+)  ([a-z]+(?: [a-z]+)?)' + 5 * CELL + r' +([\d.]+)')}


def micrometres(text, units):
    """Whether a text is units in micrometres, three figures, rounded up."""
    value, exact = float(text), units * 1000 / S
    return value == 0 if units == 0 else exact <= value * (1 + 1e-12) and value <= exact * 1.01 + 1e-12


def number(word):
    return None if word == '-' else int(word.replace(',', ''))


def tables(expect, module, name, path, rows):
    """The table of an accepted job, read back."""
    flags = ['--service'] if name == 'service' else []
    status, out, err = invoke(module, path, *flags)
    lines = out.decode().splitlines()
    expect('an accepted job', (status, err) == (0, '') and lines[0].startswith(f'{path}: accepted, {len(rows)} result'), f'{path}: {err}')
    expect('no limit', lines[-1] == 'No limit was applied and no caution looked for: `ferruntzo check` does that.', lines[-1])
    if not rows:
        expect('no results', lines[0].endswith('nothing to read. Do not mill.') and not any(map(ROWS[name].fullmatch, lines)), lines)
        return
    table = lines[1:lines.index('')]
    heads = ['result', 'degree', 'radius, units', 'radius, µm']
    if name == 'service':
        heads[1:1], heads[2:2] = ['made by'], []
        heads[3:3] = ['m', 'N', 'b']
        expect('limits', table.pop(1).split() == ['limit', '<=', '32', '<', '1,048,576', '<=', '268,435,456', '<=', 'radius', '<=',
                                                 '268,435,456'], table)
    expect('the head', re.split(r' {2,}', table[0].strip()) == heads, table[0])
    expect('a row for each result', len(table) == 1 + len(rows), out.decode())
    for line, (byte, row) in zip(table[1:], rows):
        found = ROWS[name].fullmatch(line)
        expect('a row', found, line)
        if not found:
            continue
        words = list(found.groups())
        expect('micrometres of a row', micrometres(words.pop(), row.radius), line)
        if name == 'service':
            expect('the maker of a row', words.pop(1) == NAMES[byte], line)
        wanted = list(read_as(name, row))
        if name == 'service' and byte not in o.TESTS:
            wanted[2:5] = [None] * 3
        expect('numbers of a row', list(map(number, words)) == wanted, f'{line}: {wanted}')


def objects(expect, module, name, path, rows, refusal):
    """The JSON object of a job: keys in their order, and values."""
    flags = ['--service'] if name == 'service' else []
    status, out, err = invoke(module, path, '--json', *flags)
    expect('JSON', (status, err) == (int(rows is None), '') and out.count(b'\n') == 1, f'{path}: {status} {out} {err}')
    head = [('job', str(path)), ('reading', name)]
    if rows is None:
        wanted = [*head, ('verdict', 'refused'), ('refusal', refusal[0]), ('command', refusal[1]), ('cause', REFUSAL[refusal[0]].meaning)]
    else:
        made = []
        for byte, row in rows:
            values = list(read_as(name, row))
            if name == 'service' and byte not in o.TESTS:
                values[2:5] = [None] * 3
            made.append([*zip(FIELDS[name], values), *([('made_by', NAMES[byte])] if name == 'service' else [])])
        wanted = [*head, ('verdict', 'accepted'), ('results', len(rows)), ('records', made)]
    found = json.loads(out, object_pairs_hook=list) if out else None
    expect('a JSON object', found == wanted, f'{path}: {found}')


def raw(expect, module, name, path, rows, refusal, folder):
    """The bytes of a job, to standard output and to a file."""
    flags = ['--bytes', *(['--service'] if name == 'service' else [])]
    out_file = folder / 'room'
    out_file.unlink(missing_ok=True)
    one, two = invoke(module, path, *flags), invoke(module, path, *flags, '-o', out_file)
    if rows is None:
        said = f'{path}: REFUSED with {refusal[0]} at command {refusal[1]} '
        expect('no bytes of a refused job', one[:2] == two[:2] == (1, b'') and one[2].startswith(said) and two[2].startswith(said)
               and 'No bytes were written' in one[2] and not out_file.exists(), f'{one} {two}')
        return
    wanted = report_oracle.room(f'check_{name}', path.read_bytes())
    expect('bytes', one == (0, wanted, ''), f'{path}: {one}')
    expect('bytes in a file', out_file.exists() and out_file.read_bytes() == wanted and two[0] == 0
           and f'{len(wanted)} bytes for the {name}, written to' in two[1].decode(), f'{path}: {two}')


def reported_jobs(folder):
    """Files: the examples, the written jobs and some more, both editions, accepted and refused."""
    two, product = load(model([S] * 3)) + load(model([S] * 6)), multiply(0, 1, 255) + END
    for i, job in enumerate([*(job for job, _ in written()), EDITION_1 + two + product, EDITION_2 + two + product, b'', EDITION_2,
                             EDITION_1 + two + add(0, 2) + END, EDITION_1 + load(model([1], 0, 33)) + END]):
        (folder / f'{i}.job').write_bytes(job)
    return [*EXAMPLES.glob('*.job'), *folder.glob('*.job')]


def told(expect, module, folder, paths):
    """Tables, JSON and bytes of jobs, both readings."""
    counts = set()
    for path in paths:
        rows, refusal = by_oracle(path.read_bytes())
        counts.add(None if rows is None else len(rows))
        for name in FIELDS:
            if rows is not None:
                tables(expect, module, name, path, rows)
            else:
                status, out, err = invoke(module, path)
                expect('a refused job', (status, err) == (1, '') and out.decode().startswith(
                    f'{path}: REFUSED with {refusal[0]} at command {refusal[1]} (byte ') and 'Do not mill.' in out.decode()
                    and REFUSAL[refusal[0]].meaning in out.decode(), f'{out} {err}')
            objects(expect, module, name, path, rows, refusal)
            raw(expect, module, name, path, rows, refusal, folder)
    expect('kinds of jobs', counts >= {None, 0, 2, 15}, str(counts))



def noticed(expect, module):
    """Each number that is another in the library's answer, jobcheck's or the tool's own check."""
    job = STRETCH.read_bytes()
    checked = Checked(job)
    answer = program._lines(checked.text())
    for reading in readings(module):
        found = library.report(ferruntzo, reading.function, job)
        expect('nothing differs', module.differs(found, checked, answer, reading) == '')
        for i in (0, 7, 8, 9, 14):
            for field in reading.fields:
                record = found.records[i]
                other = record._replace(**{field: getattr(record, field) + 1})
                said = module.differs(found._replace(records=(*found.records[:i], other, *found.records[i + 1:])), checked, answer, reading)
                expect('another number in a record', said.startswith(f'{field} of result {i} is by the library '), said)
        for at in (0, 15 * reading.form.size, 32 * reading.form.size - 1):
            room = bytearray(found.room)
            room[at] ^= 1
            said = module.differs(found._replace(room=bytes(room)), checked, answer, reading)
            expect('another byte', said.endswith(f'differ from byte {at} on'), said)
        for room in (found.room[:-1], found.room + b'\0'):
            expect('another length', module.differs(found._replace(room=room), checked, answer, reading))
        for change in ({'degrees': [*answer.degrees[:-1], 17]}, {'radii': [*answer.radii[:-1], 17]}):
            said = module.differs(found, checked, answer._replace(**change), reading)
            expect('another line of jobcheck', ' of result 14 is by the library 16, by jobcheck 17, by this tool 16' in said, said)
        for other in (found._replace(refusal=5, command=9), found._replace(records=found.records[:-1])):
            said = module.differs(other, checked, answer, reading)
            expect('another outcome', said.startswith('the library says "') and '", jobcheck "accepted, 15 results", this tool "accepted, '
                   '15 results"' in said, said)
        said = module.differs(found, Checked(EDITION_1 + END), answer, reading)
        expect('another outcome of the tool', said.endswith('jobcheck "accepted, 15 results", this tool "accepted, 0 results"'), said)
        refused = program.Answer(False, [], [], 9, 0, '')
        expect('another outcome of jobcheck', 'jobcheck "refused with 9 at command 0"' in module.differs(found, checked, refused, reading))


# Faults of the tool: what stands in report.py, and what is planted for it.
PLANTS = [
    ("'<2B4I'", "'>2B4I'"), ("'<2BI'", "'>2BI'"), ("('number', 'degree', 'm', 'N', 'b', 'radius')", "('number', 'degree', 'N', 'm', 'b', 'radius')"),
    ("'check_workshop', (", "'check_service', ("), ("'degree': outcome.model.degree,", "'degree': outcome.step.values.get('w', outcome.model).degree,"),
    ("**outcome.numbers,", ""), (".ljust(MAX_RESULTS * reading.form.size, b'\\0')", ""),
    ("if len(set(said)) > 1:", "if said[0] != said[2]:"), ("if len(set(said)) > 1:", "if said[0] != said[1]:"),
    ("theirs != ours or ", ""), (" or printed.get(field, ours) != ours", ""), ("if found.room != room:", "if False:"),
    ("if not is_test(report.checked.makers[i]):", "if False:"), ("if not is_test(report.checked.makers[i]):", "if not any(report.found.records[i][2:5]):"),
    ("report.checked.makers[i].command", "report.checked.makers[i - 1].command"), ("'-' if value is None", "'0' if value is None"),
    ("f'< {S:,}'", "f'<= {S:,}'"), ("in_micrometres(values['radius'])", "in_micrometres(values['radius'], True)"),
    ("for i in range(len(report.found.records)):\n        values", "for i in range(len(report.found.records) - 1):\n        values"),
    ("'refusal': found.refusal, 'command'", "'refusal': found.command, 'command'"), ("'results': len(records), ", ""),
    ("records = [{**record, 'made_by': maker(report, i)}", "records = [{'made_by': maker(report, i), **record}"),
    ("if report.found.refusal:\n", "if False:\n"), ("write(out, report.found.room)", "write(out, report.found.room.rstrip(b'\\0'))"),
    ("return REFUSED if found.refusal else ACCEPTED", "return ACCEPTED"), ("yield 'No limit was applied", "yield 'A limit was applied"),
    ("raise NotChecked(f'{shown(name)}: {difference}", "print(f'{shown(name)}: {difference}"),
    ("SERVICE if options.service else WORKSHOP", "WORKSHOP if options.service else SERVICE"), ("return max(statuses)", "return min(statuses)"),
]


def stopped(expect, module, folder):
    """The whole command with a jobcheck that differs in one radius: status 2, no table, no file; and another job beside it."""
    liar, out_file = folder / 'liar', folder / 'kept'
    liar.write_text('#!/bin/sh\nread -r x; printf "0 0 0\\n1 0 7\\naccepted 2\\n"\n')
    liar.chmod(0o755)
    path = EXAMPLES / 'root_of_4.job'
    for words in ((path,), (path, '--service'), (path, '--bytes', '-o', out_file), (path, '--bytes')):
        status, out, err = invoke(module, *words, '--jobcheck', liar)
        expect('a jobcheck that differs', (status, out) == (2, b'') and 'radius of result 1 is by the library 0, by jobcheck 7, by this tool 0'
               in err and 'Nothing is reported' in err and not out_file.exists(), f'{words}: {status} {out} {err}')
    status, out, err = invoke(module, path, '--json', '--jobcheck', liar)
    found = json.loads(out)
    expect('a jobcheck that differs, JSON', status == 2 and list(found) == ['job', 'reading', 'verdict', 'cause']
           and found['verdict'] == 'not checked' and 'by jobcheck 7' in found['cause'], f'{out} {err}')
    for refused in (EXAMPLES / 'refused.job', folder / 'nosuch'):
        status, out, err = invoke(module, path, refused)
        expect('one of two jobs', status == (1 if refused.exists() else 2) and f'2 jobs: 1 accepted, {int(status == 1)} refused, '
               f'{int(status == 2)} not checked.' in out.decode(), f'{status} {out} {err}')


def faults(expect, folder):
    """Each planted fault of the tool is seen by the tests above, on a few jobs."""
    empty = folder / 'empty.job'
    empty.write_bytes(EDITION_2 + END)
    few = [empty, STRETCH, *(EXAMPLES / f'{name}.job' for name in ('root_of_4', 'refused'))]
    for old, new in PLANTS:
        expect('a place for a planted fault', SOURCE.count(old) == 1, f'{old}: {SOURCE.count(old)}')
        module = types.ModuleType('ferruntzo_tool.planted')
        module.__package__ = 'ferruntzo_tool'
        exec(compile(SOURCE.replace(old, new), 'planted', 'exec'), module.__dict__)
        wrong = []

        def count(name, good, told=''):
            if not good:
                wrong.append(name)
        try:
            for test in (lambda: records(count, module), lambda: noticed(count, module), lambda: stopped(count, module, folder),
                         lambda: told(count, module, folder, few)):
                if not wrong:
                    test()
        except (KeyError, IndexError, TypeError, AttributeError, ValueError, struct.error) as error:
            wrong.append(repr(error))
        expect('a planted fault is seen', wrong, f'{old} -> {new}')


def commands(expect, _, folder):
    """What the tool itself prints and writes, and that its faults are seen."""
    told(expect, report, folder, reported_jobs(folder))
    stopped(expect, report, folder)
    faults(expect, folder)


# ---- The papers ----

ROW = re.compile(r'^\| (\d+), \w[\w ]* \| (workshop|service) \| (\d+)–(\d+) \| `([0-9a-f ]+)` \|', re.M)


def papers(expect):
    """The bytes of records in docs/FORMAT.md are those of its job."""
    section = (ROOT / 'docs/FORMAT.md').read_text(encoding='utf-8').split('\n### Report records\n')[1].split('\n## ')[0]
    job = (EXAMPLES / 'stretch.job').read_bytes()
    found = ROW.findall(section)
    expect('records in FORMAT', {row[1] for row in found} == set(FIELDS) and len(found) >= 4, found)
    for result, name, first, last, text in found:
        room = library.report(ferruntzo, f'check_{name}', job).room
        expect('a record in FORMAT', int(first) == SIZES[name] * int(result) and room[int(first):int(last) + 1] == bytes.fromhex(text)
               and int(last) + 1 - int(first) == SIZES[name], f'{result} {name}: {text}')
