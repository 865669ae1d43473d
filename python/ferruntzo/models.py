"""Models on their intervals, candidates and power series; every number is a whole number of units of 1/S."""

from __future__ import annotations

from ctypes import c_int32, c_int64
from dataclasses import dataclass, field, replace
from typing import ClassVar, Iterable, Sequence

from ._library import call
from ._numbers import (CANDIDATE_SIZE, DEFAULT_KEPT, MODEL_SIZE, S, area, coefficients_of, instance, signed32, sized,
                       unsigned32)


@dataclass(frozen=True)
class Interval:
    """The ends l and u of an interval, in units: every fraction x from lower/S to upper/S."""

    lower: int
    upper: int

    #: From -S to S: x goes from -1 to 1.
    STANDARD: ClassVar[Interval]

    def __post_init__(self) -> None:
        object.__setattr__(self, 'lower', signed32(self.lower, 'lower'))
        object.__setattr__(self, 'upper', signed32(self.upper, 'upper'))


Interval.STANDARD = Interval(-S, S)


@dataclass(frozen=True)
class _Listed:
    """A degree and 33 coefficients; of those given, at most 33, the missing ones are zero."""

    degree: int
    coefficients: Sequence[int]

    def __post_init__(self) -> None:
        object.__setattr__(self, 'degree', signed32(self.degree, 'degree'))
        object.__setattr__(self, 'coefficients', coefficients_of(self.coefficients))


@dataclass(frozen=True)
class Series(_Listed):
    """A power series: degree, and the coefficients of x^0 to x^32 in units. Any numbers of 32 bits may be put in; the library
    refuses bad ones."""

    @classmethod
    def from_numbers(cls, numbers: Iterable[int]) -> Series:
        """The series in 34 numbers: degree, coefficients."""
        degree, *coefficients = sized(numbers, CANDIDATE_SIZE, 'numbers')
        return cls(degree, coefficients)

    @property
    def numbers(self) -> tuple[int, ...]:
        """34 numbers: degree, coefficients."""
        return (self.degree, *self.coefficients)

    def model(self) -> Model:
        """The model of the series, of the same degree, on the standard interval; it allows the exact value of the series at every
        fraction from -1 to 1.

        Refusals, in order: BAD_SERIES, LARGE_RESULT (rounding can take a weight near 2^28 above it)."""
        out = (c_int32 * MODEL_SIZE)()
        call('from_series', area(self.numbers), out)
        return Model.from_numbers(out)


@dataclass(frozen=True)
class Candidate(_Listed):
    """A proposed answer or a helper: a model without a radius and ends. It is on the interval of the models that it is proposed
    for. Any numbers of 32 bits may be put in; the library refuses bad ones."""

    @classmethod
    def constant(cls, c: int) -> Candidate:
        """The constant c, in units."""
        return cls(0, (c,))

    @classmethod
    def from_numbers(cls, numbers: Iterable[int]) -> Candidate:
        """The candidate in 34 numbers: degree, coefficients."""
        degree, *coefficients = sized(numbers, CANDIDATE_SIZE, 'numbers')
        return cls(degree, coefficients)

    @property
    def numbers(self) -> tuple[int, ...]:
        """34 numbers: degree, coefficients."""
        return (self.degree, *self.coefficients)

    def with_radius(self, radius: int, interval: Interval = Interval.STANDARD) -> Model:
        """The model with these coefficients and this radius on this interval."""
        return Model(self.degree, self.coefficients, radius, interval)


@dataclass(frozen=True)
class Bounds:
    """Bounds of an evaluation, in units: no allowed value is below low or above high."""

    low: int
    high: int


@dataclass(frozen=True)
class Model:
    """A polynomial in the Chebyshev basis with an error radius on an interval: degree, coefficients of T_0 to T_32, radius. T_k is
    taken at (2 S x - l - u)/(u - l), which goes from -1 to 1. Of the coefficients given, at most 33, the missing ones are zero.
    Any numbers of 32 bits may be put in; the library refuses bad ones."""

    degree: int
    coefficients: Sequence[int]
    radius: int = 0
    interval: Interval = field(default=Interval.STANDARD)

    def __post_init__(self) -> None:
        object.__setattr__(self, 'degree', signed32(self.degree, 'degree'))
        object.__setattr__(self, 'coefficients', coefficients_of(self.coefficients))
        object.__setattr__(self, 'radius', signed32(self.radius, 'radius'))
        instance(self.interval, Interval, 'interval')

    @classmethod
    def constant(cls, c: int) -> Model:
        """The constant c, in units, with radius 0, on the standard interval."""
        return cls(0, (c,))

    @classmethod
    def from_series(cls, series: Series) -> Model:
        """series.model()."""
        instance(series, Series, 'series')
        return series.model()

    @classmethod
    def from_numbers(cls, numbers: Iterable[int]) -> Model:
        """The model in 37 numbers: degree, coefficients, radius, lower end, upper end."""
        degree, *coefficients, radius, lower, upper = sized(numbers, MODEL_SIZE, 'numbers')
        return cls(degree, coefficients, radius, Interval(lower, upper))

    @property
    def numbers(self) -> tuple[int, ...]:
        """37 numbers: degree, coefficients, radius, lower end, upper end."""
        return (self.degree, *self.coefficients, self.radius, self.interval.lower, self.interval.upper)

    def on(self, interval: Interval) -> Model:
        """The same degree, coefficients and radius on another interval."""
        return replace(self, interval=interval)

    def add(self, other: Model) -> Model:
        """The sum, on the interval of both.

        Refusals, in order: of each model BAD_MODEL, BAD_ENDS; DIFFERENT_INTERVALS, LARGE_RESULT."""
        return self._with('add', other)

    def subtract(self, other: Model) -> Model:
        """The difference, on the interval of both.

        Refusals, in order: of each model BAD_MODEL, BAD_ENDS; DIFFERENT_INTERVALS, LARGE_RESULT."""
        return self._with('subtract', other)

    def multiply(self, other: Model, kept: int = DEFAULT_KEPT) -> Model:
        """The product, on the interval of both, cut to the kept degree: 0 to 32, or DEFAULT_KEPT for the larger degree of the two.
        What is dropped is paid for in the radius. Before version 5.0.0 DEFAULT_KEPT stood for 32: state 32 for the former results.

        Refusals, in order: of each model BAD_MODEL, BAD_ENDS; DIFFERENT_INTERVALS, BAD_VALUE (the kept degree), LARGE_RESULT."""
        return self._with('multiply', other, unsigned32(kept, 'kept'))

    def _with(self, entry: str, other: Model, *numbers: int) -> Model:
        instance(other, Model, 'other')
        out = (c_int32 * MODEL_SIZE)()
        call(entry, area(self.numbers), area(other.numbers), *numbers, out)
        return Model.from_numbers(out)

    def integrate(self) -> Model:
        """The integral from l/S. Its radius bounds the exact primitive of every list of coefficients within radius units of this
        model's in total. Of any values that the model allows, left-end value times width summed over k >= 1 equal strips from l/S to
        x differs from the integral's polynomial at x by at most its radius plus L (u - l)/(S k) units, where L is the sum of
        |a_k| k^2, at every fraction x of the interval.

        Refusals, in order: BAD_MODEL, BAD_ENDS, LARGE_RESULT (degree 32 always)."""
        out = (c_int32 * MODEL_SIZE)()
        call('integrate', area(self.numbers), out)
        return Model.from_numbers(out)

    def evaluate(self, p: int) -> Bounds:
        """Bounds of every value that the model allows at p/S, p from l to u.

        Refusals, in order: BAD_MODEL, BAD_ENDS, POINT_OUTSIDE."""
        bounds = (c_int64 * 2)()
        call('evaluate', area(self.numbers), signed32(p, 'p'), bounds)
        return Bounds(*bounds)
