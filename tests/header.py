"""Sizes, limits and refusals of documents 01 and 02, by the names of include/ferruntzo.h.

check_header() compares them with the header; compare.py calls it before every comparison.
"""

import re
from pathlib import Path

HEADER = Path(__file__).resolve().parent.parent / 'include' / 'ferruntzo.h'

# ---- Limits

S = 1 << 20                             # one unit is 1/S
MAX_DEGREE = 32
MAX_WEIGHT = MAX_RADIUS = MAX_END = MAX_RESIDUAL = 1 << 28
MAX_RESULTS = 32
DEFAULT_KEPT = 255                      # a kept degree that means the larger degree of the factors; in jobs of edition 1 it is 32
PROGRAM_JOB_BYTES = 65536

# ---- Sizes, in numbers

COEFFICIENTS = MAX_DEGREE + 1
CANDIDATE_SIZE = 1 + COEFFICIENTS       # degree, coefficients
MODEL_SIZE = CANDIDATE_SIZE + 3         # degree, coefficients, radius, lower end, upper end
PROPOSAL_SIZE = 2 * CANDIDATE_SIZE      # h, w
SERIES_SIZE = 1 + COEFFICIENTS          # degree, coefficients of x^0 .. x^32
PLACE_RADIUS, PLACE_LOWER, PLACE_UPPER = range(CANDIDATE_SIZE, MODEL_SIZE)
BOUNDS_SIZE = 2                         # low, high
SCRATCH_SIZE = 16
NUMBERS_SIZE = 3                        # m, N, b
WORK_SIZE = MAX_RESULTS * MODEL_SIZE
ANSWER_SIZE = 2                         # count, of a conversion the length; command
SELECTION_SIZE = 2                      # chosen, radius
VALUES_SIZE = COEFFICIENTS              # of T_0 .. T_32
RECIPROCAL_RECORD_SIZE = COEFFICIENTS + 1               # w, change
QUOTIENT_RECORD_SIZE = COEFFICIENTS + RECIPROCAL_RECORD_SIZE    # f times w, then the reciprocal's
OUTCOME_SIZE = 1                        # given up or settled
BLOCK_BYTES = 1 + 4 * COEFFICIENTS      # degree byte, coefficients
# Edition, a load with its ends, 31 quotients, end.
MAX_JOB_BYTES = 2 + (1 + BLOCK_BYTES + 12) + (MAX_RESULTS - 1) * (3 + 2 * BLOCK_BYTES) + 1

# ---- Report records: bytes of 32 of them, of one, and places inside one

WORKSHOP_RECORD, SERVICE_RECORD = 1 + 1 + 4, 1 + 1 + 4 * 4      # number, degree, radius; number, degree, m, N, b, radius
WORKSHOP_ROOM, SERVICE_ROOM = MAX_RESULTS * WORKSHOP_RECORD, MAX_RESULTS * SERVICE_RECORD
RECORD_NUMBER, RECORD_DEGREE, WORKSHOP_RADIUS = range(3)
SERVICE_M, SERVICE_N, SERVICE_B, SERVICE_RADIUS = range(2, SERVICE_RECORD, 4)

# ---- Which of two proposals is chosen

CHOSEN_NONE, CHOSEN_FIRST, CHOSEN_SECOND = range(3)

# ---- How the rounds of a maker ended

GIVEN_UP, SETTLED = range(2)

# ---- Refusals

(ACCEPTED, SHORT_AREA, BAD_MODEL, LARGE_RESULT, POINT_OUTSIDE, NOT_CONTRACTING, LARGE_RESIDUAL,
 HELPER_NOT_POSITIVE, NEGATIVE_DISCRIMINANT, BAD_VALUE, JOB_ENDS, BYTES_AFTER_END, NOT_A_RESULT,
 TOO_MANY_RESULTS, BAD_SERIES, NOT_FINITE, LARGE_PROPOSAL, NO_RADIUS, BAD_ENDS,
 DIFFERENT_INTERVALS, SHORT_OUTPUT) = range(21)

# Every name above, with its number.
NAMES = {name: value for name, value in globals().items() if isinstance(value, int)}


def check_header():
    """Each name above has the same number in the header, and the header has no other refusal."""
    text = HEADER.read_text()
    macros = re.findall(r'^#define FERRUNTZO_(\w+) (\d+)\b', text, re.M)
    refusals = re.findall(r'^ +FERRUNTZO_(\w+) = (\d+)\b', text, re.M)
    found = {name: int(value) for name, value in macros + refusals}
    for name, value in NAMES.items():
        assert found.get(name) == value, f'{name}: {found.get(name)} in the header, {value} here'
    assert {name for name, _ in refusals} <= set(NAMES), 'a refusal that is not known here'
