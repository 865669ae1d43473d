"""Wrong packages, for python_package.py: by name the entry whose calls must show it, and what is put in the place of what."""

from dataclasses import replace
from struct import Struct

import header
from area_cases import REPORTS

import ferruntzo as package
from ferruntzo import Model, Series, _library

S = header.S


def exchanged(name):
    real = getattr(package, name)
    return package, name, lambda first, second, *rest: real(second, first, *rest)


def candidates_exchanged(name):
    real = getattr(package, name)
    return package, name, lambda *areas: real(*areas[:-2], areas[-1], areas[-2])


def operands_exchanged(name):
    real = getattr(Model, name)
    return Model, name, lambda a, b, *rest: real(b, a, *rest)


def without(name, replaced):
    """Models whose numbers have one of them replaced on the way to the library."""
    real = Model.numbers.fget
    return Model, 'numbers', property(lambda m: real(m)[:name] + (replaced,) + real(m)[name + 1:])


def lending(change):
    """Areas or answers changed at the call."""
    real = _library.number_of
    return _library, 'number_of', lambda entry, *arguments: change(real, entry, arguments)


def after(entry, change):
    def called(real, name, arguments):
        number = real(name, *arguments)
        return change(number, arguments) if name == entry else number
    return lending(called)


def swapped(area, i, j):
    def change(number, arguments):
        arguments[area][i], arguments[area][j] = arguments[area][j], arguments[area][i]
        return number
    return change


def turned(what, by):
    return lambda number, arguments: by if number == what else number


def no_command(number, arguments):
    arguments[-1][1] = 0
    return number


def fewer(number, arguments):
    arguments[-1][0] = max(arguments[-1][0], 1) - 1
    return number


def converted_not(job, real=package.convert_edition):
    real(job)
    return bytes(job)


def records_by(form):
    """The bytes of a record of the service taken for other numbers."""
    return package.jobs, '_SERVICE', Struct(form)


def fields_exchanged(record, one, other):
    """Records in which two fields have each other's numbers."""
    real = getattr(package.jobs, record)

    def exchanged_record(*numbers):
        made = real(*numbers)
        return made._replace(**{one: getattr(made, other), other: getattr(made, one)})
    return package.jobs, record, exchanged_record


def reported(change):
    """Reports changed after the call."""
    real = package.jobs._reported
    return package.jobs, '_reported', lambda *arguments: change(real(*arguments))


def room_filled(number, arguments):
    arguments[-2][-1] = 1
    return number


SLIPS = {
    'f and g of a quotient exchanged': ('quotient', lambda: exchanged('quotient')),
    'f and g of two proposals exchanged': ('quotient_of_two', lambda: exchanged('quotient_of_two')),
    'f and g of a made quotient exchanged': ('make_quotient', lambda: exchanged('make_quotient')),
    'h and w of a quotient exchanged': ('quotient', lambda: candidates_exchanged('quotient')),
    'h and w of a root exchanged': ('root', lambda: candidates_exchanged('root')),
    'h and w of a tighter root exchanged': ('tight_root', lambda: candidates_exchanged('tight_root')),
    'proposals exchanged': ('quotient_of_two', lambda: candidates_exchanged('quotient_of_two')),
    'operands of a difference exchanged': ('subtract', lambda: operands_exchanged('subtract')),
    'a sum for a difference': ('subtract', lambda: (Model, 'subtract', Model.add)),
    'the kept degree left out': ('multiply', lambda: (Model, 'multiply', lambda a, b, kept, real=Model.multiply: real(a, b))),
    'the root test for the tighter one': ('tight_root', lambda: (package, 'tight_root', package.root)),
    'a radius left out': ('add', lambda: without(header.PLACE_RADIUS, 0)),
    'the lower end left out': ('evaluate', lambda: without(header.PLACE_LOWER, -S)),
    'the upper end left out': ('integrate', lambda: without(header.PLACE_UPPER, S)),
    'the degree of a series taken as 32': ('from_series', lambda: (Series, 'numbers', property(lambda s: (32, *s.coefficients)))),
    'bounds exchanged': ('evaluate', lambda: after('evaluate', swapped(2, 0, 1))),
    'm and N exchanged': ('quotient', lambda: after('quotient', swapped(-1, 0, 1))),
    'the change before the last value': ('make_reciprocal', lambda: after('make_reciprocal', swapped(1, -1, -2))),
    'settled for given up': ('make_reciprocal', lambda: (package.proposals, '_outcome', lambda number: package.Outcome.SETTLED)),
    '17 answered as 8': ('tight_root', lambda: after('tight_root', turned(17, 8))),
    'a refusal taken for accepted': ('to_units', lambda: after('to_units', turned(16, 0))),
    'a refused job without its command': ('check', lambda: after('check', no_command)),
    'a result of a job left out': ('check', lambda: after('check', fewer)),
    'the job itself for the converted one': ('convert_edition', lambda: (package, 'convert_edition', converted_not)),
    'a byte of a converted job left out': ('convert_edition', lambda: after('convert_edition', fewer)),
    'a refused conversion without its command': ('convert_edition', lambda: after('convert_edition', no_command)),
    'a conversion refused with 13 as 12': ('convert_edition', lambda: after('convert_edition', turned(13, 12))),
    'the workshop asked for the service': ('check_service', lambda: (package, 'check_service', package.check_workshop)),
    'the service asked for the workshop': ('check_workshop', lambda: (package, 'check_workshop', package.check_service)),
    'records read from the highest byte on': ('check_service', lambda: records_by('>BBIIII')),
    'records of two bytes a number': ('check_service', lambda: records_by('<BBIIIHxx')),
    'number and degree exchanged': ('check_workshop', lambda: fields_exchanged('WorkshopRecord', 'number', 'degree')),
    'degree and radius exchanged': ('check_workshop', lambda: fields_exchanged('WorkshopRecord', 'degree', 'radius')),
    **{f'{one} and {other} of a record exchanged': ('check_service', lambda pair=(one, other): fields_exchanged('ServiceRecord', *pair))
       for one, other in ('mN', 'Nb', ('b', 'radius'), ('number', 'degree'))},
    **{f'a record left out, {entry}': (entry, lambda: reported(lambda job: replace(job, records=job.records[:-1]))) for entry in REPORTS},
    **{f'all 32 records, {entry}': (entry, lambda: reported(lambda job: replace(job, records=job.records + job.records[:1])))
       for entry in REPORTS},
    **{f'the room cut to its records, {entry}': (entry, lambda: reported(lambda job: replace(job, room=job.room[:18 * job.count])))
       for entry in REPORTS},
    **{f'a byte of the room changed, {entry}': (entry, lambda entry=entry: after(entry, room_filled)) for entry in REPORTS},
    **{f'a refused job without its command, {entry}': (entry, lambda entry=entry: after(entry, no_command)) for entry in REPORTS},
    **{f'a result left out, {entry}': (entry, lambda entry=entry: after(entry, fewer)) for entry in REPORTS},
    **{f'19 answered as 18, {entry}': (entry, lambda entry=entry: after(entry, turned(19, 18))) for entry in REPORTS},
    'the former 32 for 255': ('multiply', lambda: (Model, 'multiply', lambda a, b, kept, real=Model.multiply: real(
        a, b, header.MAX_DEGREE if kept == header.DEFAULT_KEPT else kept))),
}
