"""Cases for the report records, document 02's S-30: rooms of every length around 192 and 576, with and without other areas too short,
after jobs that are accepted and refused; what compare.py demands of them; and what holds of all rooms of a comparison together.

report_jobs.py has the jobs; report_rules.py asks that the fixed cases show each wrong rule.
"""

from collections import Counter
from itertools import combinations
from zlib import crc32

import job_cases
import jobs
import oracle as o
import report_jobs
import report_oracle as r
from area_cases import AREAS, CHECKS, REPORTS, WITNESSES, lengths_around, sized, witness
from cases import Case
from header import (ACCEPTED, BAD_ENDS, BAD_MODEL, BAD_VALUE, BYTES_AFTER_END, JOB_ENDS, MAX_DEGREE, MAX_RESULTS, NOT_A_RESULT, S,
                    SERVICE_ROOM, SHORT_AREA, WORKSHOP_ROOM)
from oracle import LIMIT

ROOM = 3                    # the number of that area
ONE_IN = 4                  # of the checked jobs have their reports behind them
SIZES = {entry: AREAS[entry][ROOM][1] for entry in REPORTS}
# Of both readings: none, up to one record, a byte less, as many, a byte more, and more.
LENGTHS = sorted({*range(20), 96, 300, 1000, *(size + more for size in (WORKSHOP_ROOM, SERVICE_ROOM)
                                               for more in (-18, -6, -2, -1, 0, 1, 2, 6, 17, 18, 19))})


# ---- Cases -------------------------------------------------------------------------------------------------------------------------------

def fixed_reports(entry):
    yield from (Case(entry, (job,)) for job in report_jobs.fixed_jobs())
    one, two = jobs.EDITIONS
    several = two + report_jobs.HEAD + b''.join(report_jobs.commands().values()) + jobs.END
    for job in (report_jobs.full_job(one, o.QUOTIENT), several, one + jobs.END, several[:-1]):
        yield from (Case(entry, (job,), lengths=((ROOM, length),)) for length in LENGTHS)
    for job in report_jobs.limit_jobs():
        yield from (Case(entry, (one + job + jobs.END,), lengths=((ROOM, SIZES[entry] + more),)) for more in (-1, 0, 1))


FIXED = {entry: lambda entry=entry: fixed_reports(entry) for entry in REPORTS}


def random_reports():
    """Random jobs, good, altered and cut; the readings draw from the same ones."""
    draw = job_cases.RandomJobs()
    return {entry: lambda rng, entry=entry: draw(rng)._replace(entry=entry) for entry in REPORTS}


def behind(case, entries):
    """The reports of a job that is checked, of one job in so many."""
    drawn = crc32(case.inputs[0]) % ONE_IN == 0
    return [case._replace(entry=entry) for entry in REPORTS if entry in entries and drawn]


# ---- What the calls are ------------------------------------------------------------------------------------------------------------------

def results_before(job, command):
    """How many results a refused job had made."""
    return sum(byte in o.RESULT_BYTES for byte, _ in list(jobs.read_commands(job))[:command])


def record_kinds(job, found):
    """What is said of the records of an accepted job."""
    made = [(byte, operands) for byte, operands in o.reading(job) if byte in o.RESULT_BYTES]
    degrees = [one.degree for one in found]
    tested = False
    for one, (byte, operands) in zip(found, made):
        names = o.RESULT_BYTES[byte]
        yield from (('made by', byte, job[1]), ('record', one.number))
        yield from [('last made by', byte)] * (one.number == MAX_RESULTS - 1)
        yield from [('no test behind a test', byte)] * (tested and byte not in o.TESTS)
        tested = byte in o.TESTS
        if tested:
            others = {operands[names + o.BLOCK_BYTES], *(degrees[name] for name in operands[:names])}
            yield from [('a degree of its own', byte)] * (one.degree not in others)
            yield from (('nonzero', field, byte) for field in ('m', 'N', 'b') if getattr(one, field))
        yield from ((field, 'at its limit') for field, limit in LIMITS.items() if getattr(one, field) == limit)
        for field in r.Record._fields:
            yield from ((field, 'byte', k) for k, value in enumerate(r.field_bytes(field, getattr(one, field))) if value)


LIMITS = {'number': MAX_RESULTS - 1, 'degree': MAX_DEGREE, 'm': S - 1, 'N': LIMIT, 'b': LIMIT, 'radius': LIMIT}


def kinds(case, lengths, number):
    """What is said of one call."""
    entry, (job,) = case.entry, case.inputs
    room = [('room', lengths[ROOM], number == ACCEPTED), ('room longer', number)]
    if number == SHORT_AREA:
        return [('1 by', *(AREAS[entry][i][2] for i, size in sized(entry) if lengths[i] < size)), ('room', lengths[ROOM], SHORT_AREA)]
    found = ['calls', ('number', number), *room[:1 + (lengths[ROOM] > SIZES[entry])]]
    if number == ACCEPTED:
        records = r.records(job)
        return [*found, ('count', len(records)), *record_kinds(job, records)]
    return [*found, ('refused', number, 'behind results' if results_before(job, r.checked(job)[2]) else 'before any')]


NUMBERS = list(WITNESSES['check'])
FIRST = BAD_MODEL, BAD_VALUE, JOB_ENDS, BYTES_AFTER_END, NOT_A_RESULT, BAD_ENDS     # what a job's first result, or none, can meet
NAMES = 'work', 'scratch', 'room', 'answer'
BYTES = {**r.WIDTHS, 'm': 3}                        # bytes of a field that can be nonzero: m is below 2^20
DEMANDED = [
    *(('number', number) for number in NUMBERS), *(('room longer', number) for number in NUMBERS),
    *(('refused', number, 'behind results') for number in NUMBERS if number), *(('refused', number, 'before any') for number in FIRST),
    *(('1 by', *short) for count in (1, 2, 4) for short in combinations(NAMES, count)),
    *(('count', count) for count in range(MAX_RESULTS + 1)), *(('record', i) for i in range(MAX_RESULTS)),
    *(('made by', byte, edition) for byte in o.RESULT_BYTES for edition in o.EDITIONS),
    *(('last made by', byte) for byte in o.RESULT_BYTES), *(('a degree of its own', byte) for byte in o.TESTS),
    *(('no test behind a test', byte) for byte in o.RESULT_BYTES if byte not in o.TESTS),
    *(('nonzero', field, byte) for field in ('m', 'N', 'b') for byte in o.TESTS),
    *((field, 'at its limit') for field in LIMITS), *((field, 'byte', k) for field, width in BYTES.items() for k in range(width)),
]


def rooms_demanded(entry):
    """Each length that is too short with 1, each other one after jobs that are accepted and refused."""
    for length in (*LENGTHS, *lengths_around(SIZES[entry])):
        yield from (('room', length, what) for what in ((SHORT_AREA,) if length < SIZES[entry] else (True, False)))


def counted(entry, found):
    """The counts of one reading in words; each kind must be there."""
    missing = [kind for kind in (*DEMANDED, *rooms_demanded(entry)) if not found[kind]]
    assert not missing, f'{entry}: no call: {missing}'
    numbers = ' '.join(f'{number}:{found["number", number]}' for number in NUMBERS)
    short = sum(count for kind, count in found.items() if kind[0] == '1 by')
    longer = sum(found['room longer', number] for number in NUMBERS)
    behind_results = sum(found['refused', number, 'behind results'] for number in NUMBERS if number)
    return (f'{entry} {found["calls"]} calls with areas long enough (number:calls {numbers}), {longer} of them with a longer room, '
            f'{behind_results} refused behind results, {short} with an area too short')


# ---- What holds of all calls together ----------------------------------------------------------------------------------------------------

class Rooms:
    """The rooms that the library left, each with its job, against each other and against the check of the same job."""

    def __init__(self):
        self.jobs = {entry: set() for entry in REPORTS}     # what each reading was called with, areas being long enough
        self.tests = {}                             # by accepted job: m, N and b of each result
        self.left = {}                              # by reading and accepted job: its count, its results' fields, the room
        self.checked = None                         # the last check: its job, and what it answered
        self.same_as_check = Counter()

    def expect(self, case, number):
        job, = case.inputs
        if number != SHORT_AREA:
            self.jobs[case.entry].add(hash(job))
        if number == ACCEPTED:
            self.tests[job] = [(one.m, one.N, one.b) for one in r.records(job)]

    def other_than_check(self, case, parts):
        """Whether number, work, scratch or answer of a report are not those of the check of the same job before it."""
        if case.entry == 'check':
            self.checked = case.inputs, parts
        elif self.checked and self.checked[0] == case.inputs:
            self.same_as_check[case.entry] += 1
            return self.checked[1] != parts
        return False

    def keep(self, case, results, room):
        """The room that an accepted job left; results: the models as they stand in its work area."""
        job, = case.inputs
        tests = self.tests[job] if case.entry == 'check_service' else [()] * len(results)
        fields = tuple((m.degree, m.radius, *tested) for m, tested in zip(results, tests))
        self.left[case.entry, job] = len(results), fields, room

    def pairs(self, entry):
        """Of two jobs of equal count the rooms are equal exactly when the fields are: how many pairs of different jobs have equal
        rooms, how many different ones.  No room for two lists of fields, no list for two rooms: that is so of all pairs."""
        rooms, lists, counts = {}, {}, Counter()
        for (reading, _), (count, fields, room) in self.left.items():
            if reading == entry:
                assert rooms.setdefault((count, fields), room) == room, f'{entry}: other rooms where the results agree'
                assert lists.setdefault((count, room), fields) == fields, f'{entry}: equal rooms where the results differ'
                counts[count, fields] += 1
        equal = sum(n * (n - 1) // 2 for n in counts.values())
        every = Counter()
        for (count, _), n in counts.items():
            every[count] += n
        return equal, sum(n * (n - 1) // 2 for n in every.values()) - equal

    def check_named_pairs(self, entry):
        """The pairs of report_jobs.py, as they say; and that equal count is needed."""
        for name, pair in report_jobs.PAIRS.items():
            (count, _, one), (other_count, _, other) = (self.left[entry, job] for job in pair[:2])
            equal = pair.workshop if entry == 'check_workshop' else pair.service
            assert count == other_count and (one == other) == equal and pair.one != pair.other, f'{entry}: {name}'
        (none, _, one), (single, _, other) = (self.left[entry, job] for job in report_jobs.UNEQUAL)
        assert (none, single) == (0, 1) and one == other == bytes(SIZES[entry]), f'{entry}: unequal counts'


def counted_rooms(rooms, entries):
    """The counts of a comparison in words."""
    for entry in (entry for entry in REPORTS if entry in entries):
        rooms.check_named_pairs(entry)
        equal, different = rooms.pairs(entry)
        assert equal and different
        yield (f'{entry} {len(rooms.jobs[entry])} jobs, {equal} pairs of accepted jobs of equal count with equal rooms, {different} with '
               f'different ones, {len(report_jobs.PAIRS)} of them by name; {rooms.same_as_check[entry]} calls like the check before them')


# ---- What the records are, by hand -------------------------------------------------------------------------------------------------------

def check_reports():
    """Of the request: written out, not the oracle's; the sizes; and the pairs as they are meant."""
    assert {entry: MAX_RESULTS * r.size(entry) for entry in REPORTS} == SIZES == {'check_workshop': 192, 'check_service': 576}
    assert set(r.READINGS) == set(REPORTS) < set(CHECKS)
    quotient = jobs.quotient(0, 1, *(o.constant(c) for c in (0, S - 0x12345)))
    job = jobs.EDITION_1 + jobs.load(o.constant(0, 0x0FEDCBA9)) + jobs.load(o.constant(S)._replace(degree=3)) + quotient + jobs.END
    assert r.room('check_workshop', job) == bytes.fromhex('0000a9cbed0f 010300000000 0200aacbed0f') + bytes(192 - 18)
    assert r.room('check_service', job) == bytes.fromhex(
        '0000 00000000 00000000 00000000 a9cbed0f  0103 00000000 00000000 00000000 00000000'
        '0200 45230100 a9cbed0f 10d2cb0e aacbed0f') + bytes(576 - 54)
    for entry in REPORTS:
        assert r.room(entry, job[:-1]) == r.room(entry, jobs.EDITION_1 + jobs.END) == bytes(SIZES[entry])
        for name, pair in report_jobs.PAIRS.items():
            equal = r.room(entry, pair.one) == r.room(entry, pair.other)
            assert equal == (pair.workshop if entry == 'check_workshop' else pair.service), name
        assert all(witness(entry, number) for number in NUMBERS)
    for pair in report_jobs.PAIRS.values():
        assert r.checked(pair.one)[0] == r.checked(pair.other)[0] == 'accepted' and r.checked(pair.one)[1] == r.checked(pair.other)[1]
