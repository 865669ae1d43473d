"""Numbers are checked before a call: what the library is lent has the right length and fits its type."""

from __future__ import annotations

import operator
from ctypes import Array, c_double, c_int32
from typing import Any, Iterable

#: One unit is 1/S.
S = 1 << 20
#: The largest weight, radius and size of an end of a model, and the largest N of a test.
LIMIT = 1 << 28
#: The largest degree.
MAX_DEGREE = 32
#: Coefficients of a model, a candidate or a series.
COEFFICIENTS = MAX_DEGREE + 1
#: Results of a job at most.
MAX_RESULTS = 32
#: The kept degree of a product that leaves the choice open: the larger degree of the two factors (32 before version 5.0.0).
DEFAULT_KEPT = 255
#: Numbers of a model: degree, coefficients, radius, lower end, upper end.
MODEL_SIZE = 1 + COEFFICIENTS + 3
#: Numbers of a candidate or a series: degree, coefficients.
CANDIDATE_SIZE = 1 + COEFFICIENTS
#: Numbers of a proposal for a quotient: a candidate h, then its helper w.
PROPOSAL_SIZE = 2 * CANDIDATE_SIZE
SCRATCH_SIZE = 16
#: Bytes of a report record: number, degree, radius for the workshop; number, degree, m, N, b, radius for the service.
WORKSHOP_RECORD, SERVICE_RECORD = 6, 18
#: Bytes of the room of 32 report records.
WORKSHOP_ROOM, SERVICE_ROOM = MAX_RESULTS * WORKSHOP_RECORD, MAX_RESULTS * SERVICE_RECORD


def whole(value: Any, what: str, low: int, high: int) -> int:
    """A whole number from low to high."""
    try:
        if isinstance(value, bool):
            raise TypeError
        number = operator.index(value)
    except TypeError:
        raise TypeError(f'{what} is a {type(value).__name__}, not a whole number') from None
    if not low <= number <= high:
        raise ValueError(f'{what} is {number}, which is not from {low} to {high}')
    return number


LOWEST, HIGHEST = -(1 << 31), (1 << 31) - 1


def signed32(value: Any, what: str) -> int:
    return whole(value, what, LOWEST, HIGHEST)


def unsigned32(value: Any, what: str) -> int:
    return whole(value, what, 0, (1 << 32) - 1)


def listed(values: Any, what: str) -> tuple[Any, ...]:
    """The elements of a list; a text has none."""
    if isinstance(values, (str, bytes, bytearray)):
        raise TypeError(f'{what} are a {type(values).__name__}, not a list of numbers')
    try:
        return tuple(values)
    except TypeError:
        raise TypeError(f'{what} are a {type(values).__name__}, not a list of numbers') from None


def wholes(values: Any, what: str) -> tuple[int, ...]:
    """Whole numbers of 32 bits, as many as there are."""
    row = listed(values, what)
    # A call is several times as fast if its lists are not looked at number by number.
    if set(map(type, row)) == {int} and LOWEST <= min(row) and max(row) <= HIGHEST:
        return row
    return tuple(signed32(value, f'{what}[{k}]') for k, value in enumerate(row))


def coefficients_of(values: Any) -> tuple[int, ...]:
    """33 coefficients: those given, at most 33, and zeros."""
    row = wholes(values, 'coefficients')
    if len(row) > COEFFICIENTS:
        raise ValueError(f'{len(row)} coefficients, there are at most {COEFFICIENTS}')
    return row + (0,) * (COEFFICIENTS - len(row))


def sized(numbers: Any, size: int, what: str) -> tuple[int, ...]:
    """Exactly so many whole numbers of 32 bits."""
    row = wholes(numbers, what)
    if len(row) != size:
        raise ValueError(f'{what} are {len(row)}, not {size}')
    return row


def double(value: Any, what: str) -> float:
    if isinstance(value, (bool, str, bytes, bytearray)):
        raise TypeError(f'{what} is a {type(value).__name__}, not a number')
    try:
        return float(value)
    except TypeError:
        raise TypeError(f'{what} is a {type(value).__name__}, not a number') from None
    except OverflowError:
        raise ValueError(f'{what} is {value}, which no double is near') from None


def values_of(values: Any) -> tuple[float, ...]:
    """33 values: those given, at most 33, and zeros."""
    row = tuple(double(value, f'values[{k}]') for k, value in enumerate(listed(values, 'values')))
    if len(row) > COEFFICIENTS:
        raise ValueError(f'{len(row)} values, there are at most {COEFFICIENTS}')
    return row + (0.0,) * (COEFFICIENTS - len(row))


def area(numbers: Iterable[int]) -> Array[c_int32]:
    """An area of 32-bit numbers with this content."""
    row = tuple(numbers)
    return (c_int32 * len(row))(*row)


def doubles(values: Iterable[float]) -> Array[c_double]:
    row = tuple(values)
    return (c_double * len(row))(*row)


def instance(value: Any, kind: type, what: str) -> None:
    """Says what stands where another kind is needed."""
    if not isinstance(value, kind):
        raise TypeError(f'{what} is a {type(value).__name__}, not a {kind.__name__}')
