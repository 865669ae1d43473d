"""The tests of proposed quotients and square roots."""

from __future__ import annotations

import enum
from ctypes import c_int32, c_int64, c_uint32, c_uint64
from dataclasses import dataclass
from typing import Sequence

from ._library import LibraryError, call
from ._numbers import CANDIDATE_SIZE, MODEL_SIZE, SCRATCH_SIZE, area, instance, wholes
from .models import Candidate, Interval, Model


@dataclass(frozen=True)
class Certificate:
    """An accepted candidate: the model with the radius that the test gives, and the numbers m, N and b of the test, in units."""

    model: Model
    m: int
    n: int
    b: int


def _tested(entry: str, models: Sequence[Model], candidates: Sequence[Candidate]) -> Certificate:
    for name, model in zip('fg', models):
        instance(model, Model, name)
    for name, candidate in zip('hw', candidates):
        instance(candidate, Candidate, name)
    out, numbers = (c_int32 * MODEL_SIZE)(), (c_uint64 * 3)()
    call(entry, *(area(lent.numbers) for lent in (*models, *candidates)), (c_int64 * SCRATCH_SIZE)(), out, numbers)
    return Certificate(Model.from_numbers(out), *numbers)


def quotient(f: Model, g: Model, h: Candidate, w: Candidate) -> Certificate:
    """Tests the candidate h for f/g, with the helper w near 1/g. Accepted: at every fraction of the interval of f and g no value that
    g allows is zero, and each value of f over one of g is allowed by the model.

    Refusals, in order: of f and of g BAD_MODEL, BAD_ENDS; BAD_MODEL of h or w, DIFFERENT_INTERVALS, NOT_CONTRACTING,
    LARGE_RESIDUAL, LARGE_RESULT."""
    return _tested('quotient', (f, g), (h, w))


def root(f: Model, h: Candidate, w: Candidate) -> Certificate:
    """Tests the candidate h for the square root of f, with the helper w near 1/(2h). Accepted: at every fraction of the interval of
    f each value that f allows is above zero, and its root is within the radius of the value of the model's polynomial.

    Refusals, in order: of f BAD_MODEL, BAD_ENDS; BAD_MODEL of h or w, HELPER_NOT_POSITIVE, NOT_CONTRACTING, LARGE_RESIDUAL,
    NEGATIVE_DISCRIMINANT."""
    return _tested('root', (f,), (h, w))


def tight_root(f: Model, h: Candidate, w: Candidate) -> Certificate:
    """The tighter root test: root up to N and b, with the least whole radius r from 0 to S for which
    2 M r^2 + b S^2 <= (S - m) S r, where M is the weight of w. Where it accepts, root accepts too, with a radius that is never
    smaller; it can refuse what root accepts.

    Refusals, in order: of f BAD_MODEL, BAD_ENDS; BAD_MODEL of h or w, HELPER_NOT_POSITIVE, NOT_CONTRACTING, LARGE_RESIDUAL,
    NO_RADIUS."""
    return _tested('tight_root', (f,), (h, w))


class Chosen(enum.IntEnum):
    """Which of two proposals is chosen."""

    FIRST = 1
    SECOND = 2


@dataclass(frozen=True)
class Selection:
    """The tighter of two proposals: which it is, degree and coefficients of its h, the radius that the test gives, and the interval
    of f and g."""

    chosen: Chosen
    degree: int
    coefficients: tuple[int, ...]
    radius: int
    interval: Interval

    @property
    def model(self) -> Model:
        """The model with these coefficients and this radius on this interval."""
        return Model(self.degree, self.coefficients, self.radius, self.interval)


def proposal(h: Candidate, w: Candidate) -> tuple[int, ...]:
    """The 68 numbers of a proposal: those of h, then those of w."""
    instance(h, Candidate, 'h')
    instance(w, Candidate, 'w')
    return h.numbers + w.numbers


def quotient_of_two(f: Model, g: Model, first: Sequence[int], second: Sequence[int]) -> Selection:
    """Tests two proposals for f/g, each of 68 numbers, as `proposal` makes them. The one with the smaller radius is chosen, the first
    if the radii are equal; if just one passes, that one. Numbers behind the 68 play no part; of fewer the proposal fails by itself.
    At every fraction of the interval of f and g no value that g allows is zero, and each value of f over one of g is allowed by the
    model.

    Refusals, if neither passes: what the first fails with, in order SHORT_AREA (fewer than 68 numbers), then those of quotient."""
    instance(f, Model, 'f')
    instance(g, Model, 'g')
    rows = wholes(first, 'first'), wholes(second, 'second')
    answer = (c_uint32 * 2)()
    call('quotient_of_two', area(f.numbers), area(g.numbers), *map(area, rows), (c_int64 * SCRATCH_SIZE)(), answer)
    number, radius = answer
    if number not in (1, 2):
        raise LibraryError(f'not a version of the library that this package knows: it chose {number}')
    degree, *coefficients = rows[number - 1][:CANDIDATE_SIZE]
    return Selection(Chosen(number), degree, tuple(coefficients), radius, f.interval)
