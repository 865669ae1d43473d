"""Report records of a job's results (document 02, S-30): "number and degree, a byte each, then m, N, b and radius, unsigned 32-bit,
little-endian, with m, N and b zero where no test ran"; the workshop reads number, degree and radius of them."""

from functools import lru_cache
from typing import NamedTuple

import oracle as o
from header import MAX_RESULTS


class Record(NamedTuple):
    number: int
    degree: int
    m: int
    N: int
    b: int
    radius: int


# What each reading has of a record, by its entry; how many bytes.
READINGS = {'check_workshop': ('number', 'degree', 'radius'), 'check_service': Record._fields}
WIDTHS = {field: 1 if field in ('number', 'degree') else 4 for field in Record._fields}

checked = lru_cache(maxsize=4)(o.checked_commands)      # both readings ask, and what is counted of them


def record(number, model, tested):
    """Of one result; tested is m, N and b of its test, or nothing."""
    return Record(number, model.degree, *(tested or (0, 0, 0)), model.radius)


def records(job):
    """Of each result in turn; a refused job has none."""
    verdict, _, *outcome = checked(job)
    return [record(i, *one) for i, one in enumerate(zip(*outcome))] if verdict == 'accepted' else []


def field_bytes(field, value):
    return value.to_bytes(WIDTHS[field], 'little')


def record_bytes(reading, one):
    return b''.join(field_bytes(field, getattr(one, field)) for field in READINGS[reading])


def size(reading):
    """Bytes of a record."""
    return sum(WIDTHS[field] for field in READINGS[reading])


def room(reading, job):
    """What the bytes of 32 records are after a job that is not refused with 1."""
    written = b''.join(record_bytes(reading, one) for one in records(job))
    return written + bytes(MAX_RESULTS * size(reading) - len(written))
