"""Jobs: docs/FORMAT.md has their format."""

from __future__ import annotations

from ctypes import Array, c_int32, c_int64, c_uint8, c_uint32
from dataclasses import dataclass
from struct import Struct
from typing import Callable, Generic, NamedTuple, TypeVar, Union

from ._library import call
from ._numbers import MAX_RESULTS, MODEL_SIZE, SCRATCH_SIZE, SERVICE_ROOM, WORKSHOP_ROOM
from .models import Model


@dataclass(frozen=True)
class CheckedJob:
    """An accepted job: its results, 0 to 32 of them."""

    results: tuple[Model, ...]

    @property
    def count(self) -> int:
        """How many results there are."""
        return len(self.results)


class WorkshopRecord(NamedTuple):
    """The report record of a result that the workshop reads."""

    number: int
    degree: int
    radius: int


class ServiceRecord(NamedTuple):
    """The report record of a result that the service reads: m, N and b are those of the command's test, 0 where no test ran."""

    number: int
    degree: int
    m: int
    N: int
    b: int
    radius: int


Record = TypeVar('Record', WorkshopRecord, ServiceRecord)


@dataclass(frozen=True)
class ReportedJob(CheckedJob, Generic[Record]):
    """An accepted job: its results, the report record of each, and the bytes of all 32 records, zero where there is no result."""

    records: tuple[Record, ...]
    room: bytes


Job = Union[bytes, bytearray, memoryview]


def _lent(job: Job) -> Array[c_uint8]:
    if not isinstance(job, (bytes, bytearray, memoryview)):
        raise TypeError(f'job is a {type(job).__name__}, not bytes')
    data = bytes(job)
    return (c_uint8 * len(data)).from_buffer_copy(data)


# A byte each for number and degree, then unsigned numbers of 32 bits, little-endian.
_WORKSHOP, _SERVICE = Struct('<BBI'), Struct('<BBIIII')


def _results(entry: str, job: Job, *room: Array[c_uint8]) -> tuple[Model, ...]:
    """The models of an accepted job; the room is filled where one is lent."""
    work, answer = (c_int32 * (MODEL_SIZE * MAX_RESULTS))(), (c_uint32 * 2)()
    call(entry, _lent(job), work, (c_int64 * SCRATCH_SIZE)(), *room, answer, answer=answer)
    numbers = tuple(work)
    return tuple(Model.from_numbers(numbers[MODEL_SIZE * i:MODEL_SIZE * (i + 1)]) for i in range(answer[0]))


def _reported(entry: str, job: Job, room: Array[c_uint8], record: Callable[..., Record], form: Struct) -> ReportedJob[Record]:
    results = _results(entry, job, room)
    data = bytes(room)
    return ReportedJob(results, tuple(record(*form.unpack_from(data, form.size * i)) for i in range(len(results))), data)


def check(job: Job) -> CheckedJob:
    """Checks a job of either edition, of any bytes and any length.

    A refusal has the number of the refused command, counted from 0; the edition is command 0."""
    return CheckedJob(_results('check', job))


def check_workshop(job: Job) -> ReportedJob[WorkshopRecord]:
    """Checks a job, with a report record of each result: number, degree and radius, 6 bytes. Refusals are those of `check`.

    Two accepted jobs of equal count have the same room exactly when their records agree, however their candidates differ.

    >>> from ferruntzo import S
    >>> load = bytes([0x10, 0]) + S.to_bytes(4, 'little') + bytes(4 * 32) + (7).to_bytes(4, 'little')     # the constant 1, radius 7
    >>> job = bytes([1, 1]) + load + bytes([0x11, 0, 0]) + bytes([0])                                   # and its sum with itself
    >>> check_workshop(job).records
    (WorkshopRecord(number=0, degree=0, radius=7), WorkshopRecord(number=1, degree=0, radius=14))
    >>> check_workshop(job).room[:12].hex(' ', 6)
    '000007000000 01000e000000'
    """
    return _reported('check_workshop', job, (c_uint8 * WORKSHOP_ROOM)(), WorkshopRecord, _WORKSHOP)


def check_service(job: Job) -> ReportedJob[ServiceRecord]:
    """Checks a job, with a report record of each result: number, degree, m, N, b and radius, 18 bytes. Refusals are those of `check`."""
    return _reported('check_service', job, (c_uint8 * SERVICE_ROOM)(), ServiceRecord, _SERVICE)


def convert_edition(job: Job) -> bytes:
    """The job of the other edition, of the same length: the edition's byte changes, each kept degree 0xFF becomes the one that it
    stood for (32 in edition 1, the larger degree of the two factors in edition 2), every other byte is copied. Its check gives the same
    results, or the same refusal at the same command.

    Refused are jobs that do not read well, with the first of BAD_VALUE, JOB_ENDS, BYTES_AFTER_END, NOT_A_RESULT, TOO_MANY_RESULTS and
    its command; models are not looked at.

    >>> convert_edition(bytes([1, 2, 0])).hex()
    '010100'
    """
    data, answer = _lent(job), (c_uint32 * 2)()
    out = (c_uint8 * len(data))()
    call('convert_edition', data, out, answer, answer=answer)
    return bytes(out[:answer[0]])
