"""Proposals in double arithmetic: helpers for 1/g and candidates for f/g. Nothing is known of them before `quotient` accepts
them."""

from __future__ import annotations

import enum
from ctypes import c_double, c_int32, c_uint32
from dataclasses import dataclass
from typing import Sequence

from ._library import LibraryError, call
from ._numbers import CANDIDATE_SIZE, COEFFICIENTS, area, doubles, instance, values_of
from .models import Candidate, Model


class Outcome(enum.IntEnum):
    """How the rounds of a maker ended. Neither says anything of the test."""

    #: 12 rounds were not enough.
    GIVEN_UP = 0
    #: The change of the last round is at most 2^-24.
    SETTLED = 1


@dataclass(frozen=True)
class ReciprocalRecord:
    """w as values (coefficients in units over S), each finite, and the change of the last round."""

    coefficients: tuple[float, ...]
    change: float


@dataclass(frozen=True)
class QuotientRecord:
    """f times w as values, each finite, and the record of w."""

    coefficients: tuple[float, ...]
    reciprocal: ReciprocalRecord


@dataclass(frozen=True)
class MadeReciprocal:
    """A helper w made for 1/g, in units and of degree 32."""

    record: ReciprocalRecord
    outcome: Outcome
    w: Candidate


@dataclass(frozen=True)
class MadeQuotient:
    """A candidate h and its helper w made for f/g, in units and of degree 32."""

    record: QuotientRecord
    outcome: Outcome
    h: Candidate
    w: Candidate


def _outcome(number: int) -> Outcome:
    if number not in (0, 1):
        raise LibraryError(f'not a version of the library that this package knows: its outcome is {number}')
    return Outcome(number)


def make_reciprocal(g: Model) -> MadeReciprocal:
    """Makes a helper w for 1/g: w starts as the constant 1/g_0 and becomes w (2 - g w), for at most 12 rounds, until it has settled.

    Refusals, in order: BAD_MODEL, BAD_ENDS, NOT_FINITE (g_0 is zero, or a value is not finite), LARGE_PROPOSAL."""
    instance(g, Model, 'g')
    record, w, outcome = (c_double * (COEFFICIENTS + 1))(), (c_int32 * CANDIDATE_SIZE)(), (c_uint32 * 1)()
    call('make_reciprocal', area(g.numbers), record, w, outcome)
    *values, change = record
    return MadeReciprocal(ReciprocalRecord(tuple(values), change), _outcome(outcome[0]), Candidate.from_numbers(w))


def make_quotient(f: Model, g: Model) -> MadeQuotient:
    """Makes a candidate h for f/g with its helper w: w as make_reciprocal makes it, and h = f w.

    Refusals, in order: of f and of g BAD_MODEL, BAD_ENDS; DIFFERENT_INTERVALS, NOT_FINITE (g_0 is zero, or a value of w or of f w
    is not finite), LARGE_PROPOSAL (the weight of h or of w in units)."""
    instance(f, Model, 'f')
    instance(g, Model, 'g')
    record = (c_double * (2 * COEFFICIENTS + 1))()
    h, w, outcome = (c_int32 * CANDIDATE_SIZE)(), (c_int32 * CANDIDATE_SIZE)(), (c_uint32 * 1)()
    call('make_quotient', area(f.numbers), area(g.numbers), record, h, w, outcome)
    *values, change = record
    kept = QuotientRecord(tuple(values[:COEFFICIENTS]), ReciprocalRecord(tuple(values[COEFFICIENTS:]), change))
    return MadeQuotient(kept, _outcome(outcome[0]), Candidate.from_numbers(h), Candidate.from_numbers(w))


def to_units(values: Sequence[float]) -> Candidate:
    """The candidate of degree 32 whose coefficients are these values in units: the nearest whole number to value times S, a tie to
    the even one. Of the values given, at most 33, the missing ones are zero.

    Refusals, in order: NOT_FINITE, LARGE_PROPOSAL."""
    units = (c_int32 * CANDIDATE_SIZE)()
    call('to_units', doubles(values_of(values)), units)
    return Candidate.from_numbers(units)
