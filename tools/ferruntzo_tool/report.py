"""report: the report records of jobs, as the proved library wrote them; jobcheck and the tool's own arithmetic must agree."""

import json
import struct
import sys
from collections import namedtuple

from . import check, library, program
from .convert import first_difference, same_file
from .covered import plural
from .program import NotChecked, shown
from .reading import Checked
from .tables import LIMIT, MAX_DEGREE, MAX_RESULTS, S, in_micrometres, is_test
from .text import write

ACCEPTED, REFUSED, NOT_CHECKED = 0, 1, 2

# Who reads the records, the function of the package that writes them, the fields of a record and their bytes.
Reading = namedtuple('Reading', 'name function fields form')
WORKSHOP = Reading('workshop', 'check_workshop', ('number', 'degree', 'radius'), struct.Struct('<2BI'))
SERVICE = Reading('service', 'check_service', ('number', 'degree', 'm', 'N', 'b', 'radius'), struct.Struct('<2B4I'))

TESTED = ('m', 'N', 'b')        # the fields that a record has of a test

# A job, what the library reported of it, and the tool's own check.
Report = namedtuple('Report', 'job found checked')


# ---- What the library says, beside jobcheck and the tool itself ----

def own_records(checked, reading):
    """The records of an accepted job by the tool's own arithmetic."""
    for outcome in checked.outcomes:
        if outcome.result is not None:
            values = {**dict.fromkeys(TESTED, 0), **outcome.numbers, 'number': outcome.result, 'degree': outcome.model.degree,
                      'radius': outcome.model.radius}
            yield tuple(values[field] for field in reading.fields)


def own_room(records, reading):
    """The bytes of the whole room: the records, and zero behind them."""
    return b''.join(reading.form.pack(*record) for record in records).ljust(MAX_RESULTS * reading.form.size, b'\0')


def counted(count):
    return f'{count} result{"" if count == 1 else "s"}'


def outcome_words(refusal, command, count):
    return f'refused with {refusal} at command {command}' if refusal else f'accepted, {counted(count)}'


def differs(found, checked, answer, reading):
    """How library, jobcheck and tool differ, in words, or nothing."""
    said = [outcome_words(found.refusal, found.command, len(found.records)),
            outcome_words(answer.refusal, answer.command, len(answer.radii)),
            outcome_words(checked.refusal, checked.command, len(checked.results))]
    if len(set(said)) > 1:
        return 'the library says "{}", jobcheck "{}", this tool "{}"'.format(*said)
    if found.refusal:
        return ''
    own = list(own_records(checked, reading))
    for i, (record, wanted) in enumerate(zip(found.records, own)):
        printed = {'number': i, 'degree': answer.degrees[i], 'radius': answer.radii[i]}
        for field, theirs, ours in zip(reading.fields, record, wanted):
            if theirs != ours or printed.get(field, ours) != ours:
                line = f', by jobcheck {printed[field]:,}' if field in printed else ''
                return f'{field} of result {i} is by the library {theirs:,}{line}, by this tool {ours:,}'
    room = own_room(own, reading)
    if found.room != room:
        return f"the library's bytes and this tool's differ from byte {first_difference(found.room, room)} on"
    return ''


def reported(name, reading, ferruntzo, checker):
    """The report on a job, once all three agree, or NotChecked."""
    job = program.read_job(name)
    found, checked = library.report(ferruntzo, reading.function, job), Checked(job)
    answer = program.run(checker, job, name)
    difference = differs(found, checked, answer, reading)
    if difference:
        raise NotChecked(f'{shown(name)}: {difference}, so that one of them is wrong or of another version.'
                         f'{program.older(job, answer)} Nothing is reported; please report this')
    return Report(job, found, checked)


# ---- Tables ----

def fields_of(report, i, reading):
    """The fields of record i by name; None are those of a test where none ran, which the commands of the job say."""
    values = dict(zip(reading.fields, report.found.records[i]))
    if not is_test(report.checked.makers[i]):
        values.update({field: None for field in TESTED if field in values})
    return values


def maker(report, i):
    return report.checked.makers[i].command.name.replace('_', ' ')


def cell(value):
    return '-' if value is None else f'{value:,}'


def rows(report, reading):
    """The rows of a table: a head, for the service the limits, and each result."""
    service = reading is SERVICE
    yield ('result', *(('made by',) if service else ()), 'degree', *(TESTED if service else ()), 'radius, units', 'radius, µm')
    if service:
        yield 'limit', '', f'<= {MAX_DEGREE}', f'< {S:,}', f'<= {LIMIT:,}', '<= radius', f'<= {LIMIT:,}', ''
    for i in range(len(report.found.records)):
        values = fields_of(report, i, reading)
        yield (cell(values['number']), *((maker(report, i),) if service else ()), cell(values['degree']),
               *(cell(values[field]) for field in TESTED if service), cell(values['radius']),
               in_micrometres(values['radius'])[:-len(' µm')])


def aligned(table):
    """The lines of a table; words are flush left, numbers flush right."""
    widths = [max(map(len, column)) for column in zip(*table)]
    left = table[0].index('made by') if 'made by' in table[0] else None
    for row in table:
        yield '  '.join(word.ljust(width) if i == left else word.rjust(width)
                        for i, (word, width) in enumerate(zip(row, widths))).rstrip()


def table_lines(name, report, reading):
    """What is printed about an accepted job."""
    radii = [record.radius for record in report.found.records]
    if not radii:
        yield f'{shown(name)}: accepted, 0 results; there is nothing to read. Do not mill.'
        return
    ends = check.ends(report.job)
    yield (f'{shown(name)}: accepted, {counted(len(radii))}; {plural(ends)}, which no later command names, at most '
           f'{in_micrometres(max(radii[i] for i in ends))} off the loaded curves.')
    yield from aligned(list(rows(report, reading)))
    yield ''


def notes(reading):
    """What stands below the tables."""
    yield ('One unit is 2^-20 mm. The radius is the certified figure: how far a result can be off the exact operations on the loaded '
           'curves. That of a step that is not a length (a square, a quotient, a scaled normal) is in thousandths of its own unit.')
    if reading is SERVICE:
        yield ('m, N and b are numbers of the test of a quotient or a root, and by themselves no bounds of its error. Where no test ran '
               'stands -: the record has 0 there, but a test may give 0 too, so which command made a result is read from the job.')
    yield 'No limit was applied and no caution looked for: `ferruntzo check` does that.'


def json_object(name, report, reading):
    """What is said about a checked job, for programs; docs/FORMAT.md has the keys."""
    found = report.found
    head = {'job': shown(name), 'reading': reading.name}
    if found.refusal:
        return {**head, 'verdict': 'refused', 'refusal': found.refusal, 'command': found.command, 'cause': check.cause(found.refusal)}
    records = [fields_of(report, i, reading) for i in range(len(found.records))]
    if reading is SERVICE:
        records = [{**record, 'made_by': maker(report, i)} for i, record in enumerate(records)]
    return {**head, 'verdict': 'accepted', 'results': len(records), 'records': records}


# ---- The command ----

def said(text, **more):
    print(text, flush=True, **more)


def write_bytes(name, report, reading, out):
    """The room to a file or to standard output; the status."""
    if report.found.refusal:
        said(f'{check.refused(shown(name), report.job, report.found)} No bytes were written.', file=sys.stderr)
        return REFUSED
    if not write(out, report.found.room):
        return NOT_CHECKED
    if out:
        # Words do not go where the bytes go.
        said(f'{shown(name)}: accepted, {counted(len(report.found.records))}; {len(report.found.room)} bytes for the '
             f'{reading.name}, written to {shown(out)}.', file=sys.stderr if same_file(1, out) else sys.stdout)
    return ACCEPTED


def fitting(options, jobs):
    """NotChecked if the options contradict each other, or bytes would go where they must not."""
    if options.output and not options.bytes:
        raise NotChecked('-o names the file for --bytes; > FILE takes a table or JSON')
    if options.bytes and len(jobs) != 1:
        raise NotChecked(f'--bytes writes the records of one job, and {len(jobs)} are named')
    if options.bytes and not options.output and sys.stdout.isatty():
        raise NotChecked('report records are bytes; name a file with -o')
    if options.output and same_file(0 if jobs[0][0] == '-' else jobs[0][0], options.output):
        raise NotChecked(f'{shown(options.output)} is the job itself; name another file with -o')


def failed(name, line, reading, options):
    """Says that a job was not checked."""
    said(f'ferruntzo: {line}', file=sys.stderr)
    if options.json:
        said(json.dumps({'job': shown(name), 'reading': reading.name, 'verdict': 'not checked', 'cause': line}))
    return NOT_CHECKED


def told_of(name, report, reading, options):
    """Prints or writes the report on a checked job; the status."""
    found = report.found
    if options.bytes:
        return write_bytes(name, report, reading, options.output)
    if options.json:
        said(json.dumps(json_object(name, report, reading)))
    elif found.refusal:
        said(check.refused(shown(name), report.job, found))
    else:
        said('\n'.join(table_lines(name, report, reading)))
    return REFUSED if found.refusal else ACCEPTED


def main(options):
    reading = SERVICE if options.service else WORKSHOP
    jobs, passed_over = check.named_jobs(options.jobs, options.recursive)
    try:
        fitting(options, jobs)
        checker, ferruntzo = program.find(options.jobcheck), library.package(reading.function)
    except NotChecked as error:
        said(f'ferruntzo: {error}', file=sys.stderr)
        return NOT_CHECKED
    statuses = []
    for name, verdict in jobs:
        if verdict:
            statuses.append(failed(name, verdict.line, reading, options))
            continue
        try:
            report = reported(name, reading, ferruntzo, checker)
        except NotChecked as error:
            statuses.append(failed(name, check.not_checked(shown(name), error), reading, options))
            continue
        statuses.append(told_of(name, report, reading, options))
    plain = not options.json and not options.bytes
    for line in [*passed_over, *(notes(reading) if plain and ACCEPTED in statuses else ())]:
        said(line, file=sys.stdout if plain else sys.stderr)
    if plain and len(jobs) > 1:
        said(f'{len(jobs)} jobs: {statuses.count(ACCEPTED)} accepted, {statuses.count(REFUSED)} refused, '
             f'{statuses.count(NOT_CHECKED)} not checked.')
    return max(statuses)
