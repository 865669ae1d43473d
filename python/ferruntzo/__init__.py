"""The Ferruntzo library from Python: Chebyshev models with proved radii.

Every number that a call gives is libferruntzo's; this package lends it areas of the right size and raises its refusals
(`Refused`). It adds no proof: include/ferruntzo.h says what is proved of each function, README.md how the library is found.

>>> from ferruntzo import Candidate, Model, Refused, S, check, root
>>> root(Model.constant(4 * S), Candidate.constant(2 * S), Candidate.constant(S // 4)).model.radius
0
>>> try:
...     check(b'')
... except Refused as refused:
...     print(refused.refusal.value, refused.command)
10 0
"""

from ._library import LibraryError, __version__, version
from ._numbers import (CANDIDATE_SIZE, COEFFICIENTS, DEFAULT_KEPT, LIMIT, MAX_DEGREE, MAX_RESULTS, MODEL_SIZE, PROPOSAL_SIZE,
                       S, SERVICE_RECORD, SERVICE_ROOM, WORKSHOP_RECORD, WORKSHOP_ROOM)
from .certificates import Certificate, Chosen, Selection, proposal, quotient, quotient_of_two, root, tight_root
from .jobs import (CheckedJob, ReportedJob, ServiceRecord, WorkshopRecord, check, check_service, check_workshop,
                   convert_edition)
from .models import Bounds, Candidate, Interval, Model, Series
from .proposals import (MadeQuotient, MadeReciprocal, Outcome, QuotientRecord, ReciprocalRecord, make_quotient,
                        make_reciprocal, to_units)
from .refusals import Refusal, Refused

__all__ = [
    'Bounds', 'CANDIDATE_SIZE', 'COEFFICIENTS', 'Candidate', 'Certificate', 'CheckedJob', 'Chosen', 'DEFAULT_KEPT', 'Interval',
    'LIMIT', 'LibraryError', 'MAX_DEGREE', 'MAX_RESULTS', 'MODEL_SIZE', 'MadeQuotient', 'MadeReciprocal', 'Model', 'Outcome',
    'PROPOSAL_SIZE', 'QuotientRecord', 'ReciprocalRecord', 'Refusal', 'Refused', 'ReportedJob', 'S', 'SERVICE_RECORD', 'SERVICE_ROOM',
    'Selection', 'Series', 'ServiceRecord', 'WORKSHOP_RECORD', 'WORKSHOP_ROOM', 'WorkshopRecord', '__version__', 'check',
    'check_service', 'check_workshop', 'convert_edition', 'make_quotient', 'make_reciprocal', 'proposal', 'quotient', 'quotient_of_two',
    'root', 'tight_root', 'to_units', 'version',
]
