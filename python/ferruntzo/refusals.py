"""The numbered refusals, and the exception that carries one."""

from __future__ import annotations

import enum
from typing import Optional


class Refusal(enum.IntEnum):
    """Why the library refuses, by the names and numbers of ferruntzo.h."""

    SHORT_AREA = 1
    BAD_MODEL = 2
    LARGE_RESULT = 3
    POINT_OUTSIDE = 4
    NOT_CONTRACTING = 5
    LARGE_RESIDUAL = 6
    HELPER_NOT_POSITIVE = 7
    NEGATIVE_DISCRIMINANT = 8
    BAD_VALUE = 9
    JOB_ENDS = 10
    BYTES_AFTER_END = 11
    NOT_A_RESULT = 12
    TOO_MANY_RESULTS = 13
    BAD_SERIES = 14
    NOT_FINITE = 15
    LARGE_PROPOSAL = 16
    NO_RADIUS = 17
    BAD_ENDS = 18
    DIFFERENT_INTERVALS = 19
    SHORT_OUTPUT = 20

    @property
    def text(self) -> str:
        """The reason in words."""
        return _TEXTS[self]


_TEXTS = {
    Refusal.SHORT_AREA: 'a proposal has fewer than 68 numbers',
    Refusal.BAD_MODEL: 'degree, weight or radius of a model or candidate, or a nonzero coefficient beyond the degree',
    Refusal.LARGE_RESULT: 'weight or radius of the result above 2^28, or its degree above 32',
    Refusal.POINT_OUTSIDE: 'the point is outside of the interval',
    Refusal.NOT_CONTRACTING: 'm >= S: the helper is too far from the inverse',
    Refusal.LARGE_RESIDUAL: 'N > 2^28: the residual is too large',
    Refusal.HELPER_NOT_POSITIVE: 'the coefficients of the helper of a root have a sum of 0 or below',
    Refusal.NEGATIVE_DISCRIMINANT: 'root test: (S - m)^2 < 8 b M',
    Refusal.BAD_VALUE: 'unknown command, edition or kept degree; edition not first, or again',
    Refusal.JOB_ENDS: 'the job ends inside a command or without an end',
    Refusal.BYTES_AFTER_END: 'bytes follow the end of the job',
    Refusal.NOT_A_RESULT: 'a command names a result that is not there yet',
    Refusal.TOO_MANY_RESULTS: 'a 33rd result',
    Refusal.BAD_SERIES: 'degree or weight of a series, or a nonzero coefficient beyond the degree',
    Refusal.NOT_FINITE: 'the first coefficient of a divisor is zero, or a value is not finite',
    Refusal.LARGE_PROPOSAL: 'the weight of a list turned into units is above 2^28',
    Refusal.NO_RADIUS: 'tighter root test: no whole r from 0 to S has 2 M r^2 + b S^2 <= (S - m) S r',
    Refusal.BAD_ENDS: 'ends of a model: l >= u, or |l| or |u| above 2^28',
    Refusal.DIFFERENT_INTERVALS: 'two operands are on different intervals',
    Refusal.SHORT_OUTPUT: 'the output of a conversion is shorter than the job',
}


class Refused(Exception):
    """A call was refused: nothing is known of its operands' sum, quotient, root, ...

    refusal: why.  command: of a job, the number of the refused command, counted from 0; otherwise None.
    """

    def __init__(self, refusal: Refusal, command: Optional[int] = None) -> None:
        super().__init__(refusal, command)
        self.refusal = refusal
        self.command = command

    def __str__(self) -> str:
        where = '' if self.command is None else f' (command {self.command})'
        return f'refused {self.refusal.value}: {self.refusal.text}{where}'
