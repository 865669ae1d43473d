"""Are the reports sharp?  Puts one wrong rule at a time into the oracle's report records, and demands that some fixed cases of each
reading that has the rule's field show it.

  report_rules.py [part of a rule's name]
"""

import sys
from functools import lru_cache
from random import Random

import compare
import jobs
import oracle as o
import report_oracle as r
from area_cases import AREAS, REPORTS
from edition_rules import answered, replaced
from header import ACCEPTED, MAX_DEGREE, MAX_RESULTS, S, SHORT_AREA
from report_cases import ROOM, SIZES

SHOWN = 2                   # at least so many cases of a reading show each rule
RIGHT = {name: getattr(r, name) for name in ('records', 'field_bytes', 'record_bytes', 'room')}


# ---- Fields ------------------------------------------------------------------------------------------------------------------------------

def fields(**rules):
    """Other numbers in some fields; a rule takes the record, the record before it or None, and the command's byte and operands."""
    def records(job):
        made = [command for command in jobs.read_commands(job) if command[0] in o.RESULT_BYTES]
        right, found = RIGHT['records'](job), []
        for one, command in zip(right, made):
            before = right[one.number - 1] if one.number else None
            found.append(one._replace(**{field: rule(one, before, *command) for field, rule in rules.items()}))
        return found
    return r, 'records', records


def degree_of_helper(one, before, byte, operands):
    return operands[-o.BLOCK_BYTES] if byte in o.TESTS else one.degree


def degree_named(job, right=RIGHT['records']):
    """A test's degree is that of the first result that it names."""
    made = [command for command in jobs.read_commands(job) if command[0] in o.RESULT_BYTES]
    found = right(job)
    return [one._replace(degree=found[operands[0]].degree) if byte in o.TESTS else one for one, (byte, operands) in zip(found, made)]


def radius_named(job, right=RIGHT['records']):
    """A test's radius is that of the first result that it names."""
    made = [command for command in jobs.read_commands(job) if command[0] in o.RESULT_BYTES]
    found = right(job)
    return [one._replace(radius=found[operands[0]].radius) if byte in o.TESTS else one for one, (byte, operands) in zip(found, made)]


def kept_from_before(field):
    """Where no test runs the number of the last test stays."""
    def records(job):
        last, found = 0, []
        for one, (byte, _) in zip(RIGHT['records'](job), (c for c in jobs.read_commands(job) if c[0] in o.RESULT_BYTES)):
            last = getattr(one, field) if byte in o.TESTS else last
            found.append(one._replace(**{field: last}))
        return found
    return r, 'records', records


def nought_of(field, byte):
    """Nothing in a field for one kind of test."""
    return fields(**{field: lambda one, before, made_by, operands: 0 if made_by == byte else getattr(one, field)})


def exchanged(one, other):
    return fields(**{one: lambda record, *_: getattr(record, other), other: lambda record, *_: getattr(record, one)})


def limited(field, most):
    return fields(**{field: lambda one, *_: min(getattr(one, field), most)})


# ---- Bytes -------------------------------------------------------------------------------------------------------------------------------

def bytes_of(wrong, only=None):
    """Bytes of one field, or of all, otherwise; wrong takes the right ones."""
    return r, 'field_bytes', lambda field, value: (
        wrong(RIGHT['field_bytes'](field, value)) if only in (None, field) else RIGHT['field_bytes'](field, value))


def room_by(rule):
    """Another room; rule takes the reading, the job, whether it is accepted, and the right room."""
    return r, 'room', lambda reading, job: rule(reading, job, r.checked(job)[0] == 'accepted', RIGHT['room'](reading, job))


def apart(distance):
    """Records at other distances, a later one over an earlier one; nothing behind the room."""
    def rule(reading, job, accepted, right):
        room = bytearray(len(right) + 2 * MAX_RESULTS)
        for one in r.records(job):
            at = one.number * (r.size(reading) + distance)
            room[at:at + r.size(reading)] = r.record_bytes(reading, one)
        return bytes(room[:len(right)])
    return room_by(rule)


def before_refusal(job):
    """The records of a refused job's results, of which it has none to report."""
    command = r.checked(job)[2]
    commands = list(jobs.read_commands(job))[:command]
    made = b''.join(bytes([byte]) + operands for byte, operands in commands) + jobs.END
    return RIGHT['records'](made)


def kept(which=slice(None)):
    """Records kept after a refusal."""
    def rule(reading, job, accepted, right):
        found = b'' if accepted else b''.join(r.record_bytes(reading, one) for one in before_refusal(job)[which])
        return found + right[len(found):]
    return room_by(rule)


def numbered(reading, job, accepted, right):
    """Records that were not made have their numbers nonetheless."""
    size, room = r.size(reading), bytearray(right)
    for i in range(MAX_RESULTS if accepted else 0):
        room[i * size] = i
    return bytes(room)


def last_left_out(reading, job, accepted, right):
    return right[:-r.size(reading)] + bytes(r.size(reading))


def upside_down(reading, job, accepted, right):
    size = r.size(reading)
    made = right[:size * len(r.records(job))]
    return b''.join(made[at:at + size] for at in range(0, len(made), size)[::-1]) + right[len(made):]


# ---- Areas -------------------------------------------------------------------------------------------------------------------------------

def areas_by(rule, right=compare.answer_to):
    """Other contents of the areas; rule takes the case, the lengths, the number, and the contents."""
    return compare, 'answer_to', lambda case, lengths: rule(case, lengths, *right(case, lengths))


def room_left(after):
    """The room left as it was; after takes the case and the number."""
    return areas_by(lambda case, lengths, number, contents: (
        number, {what: row for what, row in contents.items() if what != 'room' or not after(case, number)}))


def made_only(case, lengths, number, contents):
    """Nothing cleared behind the records of an accepted job."""
    made = r.size(case.entry) * len(r.records(*case.inputs)) if number == ACCEPTED else None
    return number, {what: row[:made] if what == 'room' and number == ACCEPTED else row for what, row in contents.items()}


def behind_cleared(more):
    """So many bytes behind the room cleared, or all of them."""
    def rule(case, lengths, number, contents):
        size = min(lengths[ROOM], SIZES[case.entry] + more)
        return number, {what: bytes(row) + bytes(size - len(row)) if what == 'room' else row for what, row in contents.items()}
    return areas_by(rule)


def cleared_on_1(when):
    """The room, as far as it goes, cleared by refusal 1; when takes the areas that are too short."""
    def rule(case, lengths, number, contents):
        short = {what for length, (_, size, what) in zip(lengths, AREAS[case.entry]) if length < size}
        if number == SHORT_AREA and when(short):
            contents = {**contents, 'room': bytes(min(lengths[ROOM], SIZES[case.entry]))}
        return number, contents
    return areas_by(rule)


def room_of_size(sizes):
    """Rooms of another size are long enough; the records that fit are written."""
    def rule(case, lengths, right=compare.answer_to):
        size = sizes(case)
        fits = lengths[ROOM] >= size
        as_told = [*lengths[:ROOM], SIZES[case.entry] if fits else 0, *lengths[ROOM + 1:]]
        number, contents = right(case, as_told)
        return number, {what: row[:lengths[ROOM]] if what == 'room' else row for what, row in contents.items()}
    return compare, 'answer_to', rule


def short_room_without(area):
    """A room that is too short leaves this area as it was, or clears it."""
    def rule(case, lengths, number, contents):
        alone = lengths[ROOM] < SIZES[case.entry] and all(
            length >= size for i, (length, (_, size, _)) in enumerate(zip(lengths, AREAS[case.entry])) if i != ROOM)
        if alone and area in contents:
            return number, {what: row for what, row in contents.items() if what != area}
        if alone:
            return number, {**contents, area: [0] * next(size for _, size, what in AREAS[case.entry] if what == area)}
        return number, contents
    return areas_by(rule)


def other_reading(reading, job, accepted, right):
    """The other reading's room, cut or with zeros."""
    other = RIGHT['room'](next(one for one in REPORTS if one != reading), job)
    return (other + bytes(len(right)))[:len(right)]


SERVICE = ('check_service',)
RULES = {
    'numbers from 1': (REPORTS, fields(number=lambda one, *_: one.number + 1)),
    'the number always 0': (REPORTS, fields(number=lambda one, *_: 0)),
    'the number below 16': (REPORTS, fields(number=lambda one, *_: one.number % 16)),
    'the number of the command': (REPORTS, fields(number=lambda one, before, byte, operands: one.number + (byte in o.TESTS))),
    "the degree from the helper's block": (REPORTS, fields(degree=degree_of_helper)),
    'the degree of what is named': (REPORTS, (r, 'records', degree_named)),
    'the degree of the result before': (REPORTS, fields(degree=lambda one, before, *_: (before or one).degree)),
    'the degree always 32': (REPORTS, fields(degree=lambda one, *_: MAX_DEGREE)),
    'coefficients counted for the degree': (REPORTS, fields(degree=lambda one, *_: one.degree + 1)),
    'number and degree exchanged': (REPORTS, exchanged('number', 'degree')),
    'm and N exchanged': (SERVICE, exchanged('m', 'N')),
    'N and b exchanged': (SERVICE, exchanged('N', 'b')),
    'm and b exchanged': (SERVICE, exchanged('m', 'b')),
    'b and radius exchanged': (REPORTS, exchanged('b', 'radius')),
    'S - m for m': (SERVICE, fields(m=lambda one, before, byte, operands: S - one.m if byte in o.TESTS else 0)),
    'N for b': (SERVICE, fields(b=lambda one, *_: one.N)),
    'b for the radius': (REPORTS, fields(radius=lambda one, before, byte, operands: one.b if byte in o.TESTS else one.radius)),
    'the radius for b': (SERVICE, fields(b=lambda one, *_: one.radius)),
    'the radius of what is named': (REPORTS, (r, 'records', radius_named)),
    'the radius one more': (REPORTS, fields(radius=lambda one, *_: one.radius + 1)),
    'N up to 2^28 - 1': (SERVICE, limited('N', o.LIMIT - 1)),
    'b up to 2^28 - 1': (SERVICE, limited('b', o.LIMIT - 1)),
    'the radius up to 2^28 - 1': (REPORTS, limited('radius', o.LIMIT - 1)),
    'm up to S - 2': (SERVICE, limited('m', S - 2)),
    'the degree up to 31': (REPORTS, limited('degree', MAX_DEGREE - 1)),
    **{f'{field} kept where no test ran': (SERVICE, kept_from_before(field)) for field in ('m', 'N', 'b')},
    **{f'no {field} of 0x{byte:02x}': (SERVICE, nought_of(field, byte)) for field in ('m', 'N', 'b') for byte in o.TESTS},
    'big-endian': (REPORTS, bytes_of(lambda row: row[::-1])),
    **{f'{field} big-endian': (SERVICE if field in 'mNb' else REPORTS, bytes_of(lambda row: row[::-1], field))
       for field in ('m', 'N', 'b', 'radius')},
    **{f'byte {k} of {field} left out': (SERVICE if field in 'mNb' else REPORTS, bytes_of(lambda row, k=k: row[:k] + b'\0' + row[k + 1:], field))
       for field, width in (('m', 3), ('N', 4), ('b', 4), ('radius', 4)) for k in range(width)},
    'the other reading': (REPORTS, room_by(other_reading)),
    'a byte less between records': (REPORTS, apart(-1)),
    'a byte more between records': (REPORTS, apart(1)),
    'the last record left out': (REPORTS, room_by(last_left_out)),
    'the last record first': (REPORTS, room_by(upside_down)),
    'numbers of records that were not made': (REPORTS, room_by(numbered)),
    'records kept after a refusal': (REPORTS, kept()),
    'the first record kept after a refusal': (REPORTS, kept(slice(1))),
    'the last record kept after a refusal': (REPORTS, kept(slice(-1, None))),
    'the room left after a refusal': (REPORTS, room_left(lambda case, number: number > SHORT_AREA)),
    'the room left after a refusal before any result': (REPORTS, room_left(
        lambda case, number: number > SHORT_AREA and not before_refusal(*case.inputs))),
    'the room left after 11': (REPORTS, room_left(lambda case, number: number == o.BYTES_AFTER_END)),
    'the room left after a job of no result': (REPORTS, room_left(
        lambda case, number: number == ACCEPTED and not r.records(*case.inputs))),
    'what is behind the records left': (REPORTS, areas_by(made_only)),
    'the room cleared on 1': (REPORTS, cleared_on_1(lambda short: True)),
    'a short room cleared': (REPORTS, cleared_on_1(lambda short: 'room' in short)),
    **{f'the room cleared where the {area} is short': (REPORTS, cleared_on_1(lambda short, area=area: short == {area}))
       for area in ('work', 'scratch', 'answer')},
    'bytes behind cleared': (REPORTS, behind_cleared(10 ** 6)),
    'one byte behind cleared': (REPORTS, behind_cleared(1)),
    'a room of a byte less accepted': (REPORTS, room_of_size(lambda case: SIZES[case.entry] - 1)),
    'a room of a byte more needed': (REPORTS, room_of_size(lambda case: SIZES[case.entry] + 1)),
    'a room of the records made accepted': (REPORTS, room_of_size(lambda case: r.size(case.entry) * len(r.records(*case.inputs)))),
    'a room of 192 for the service': (SERVICE, room_of_size(lambda case: 192)),
    'a room of 576 for the workshop': (('check_workshop',), room_of_size(lambda case: 576)),
    'the answer left where the room is short': (REPORTS, short_room_without('answer')),
    'work cleared where the room is short': (REPORTS, short_room_without('work')),
    'scratch cleared where the room is short': (REPORTS, short_room_without('scratch')),
}


def shows(calls):
    """Whether enough of the calls, each with what is right, show a rule that is in place."""
    found = 0
    for call, one in calls:
        found += answered(call) != one
        if found == SHOWN:
            return True
    return False


def main(part=''):
    r.checked = lru_cache(maxsize=None)(o.checked_commands)     # each rule asks again, of the same jobs
    rng, calls = Random(1), {}
    for entry in REPORTS:
        drawn = [(case, compare.lent_areas(case, rng, True)) for case in compare.make_cases([entry], 0, rng)]
        calls[entry] = rng.sample([(call, answered(call)) for call in drawn], len(drawn))
        assert all(one is not None for _, one in calls[entry]) and not shows(calls[entry]), 'the oracle fails'
    few, tried = [], 0
    for name, (entries, change) in RULES.items():
        if part in name:
            with replaced([change]):
                few += [f'{name}, {entry}' for entry in entries if not shows(calls[entry])]
            tried += len(entries)
    assert not few, f'too few fixed cases that show: {few}'
    print(f'reports: {tried} wrong rules, {len(RULES)} but for the reading, each shown by {SHOWN} or more of {len(calls[REPORTS[0]])} '
          'fixed calls of its reading')


if __name__ == '__main__':
    main(*sys.argv[1:])
