"""The converter between the editions of jobs (document 02, S-27): the whole job is read first, then its commands are written anew,
each with the degree that its result has by the commands alone."""

import oracle as o
from header import ACCEPTED, DEFAULT_KEPT, MAX_DEGREE, SHORT_OUTPUT


def block_degree(byte):
    """"A block's degree byte above 32 counting as 32"."""
    return min(byte, MAX_DEGREE)


def stated(edition, kept, degrees):
    """The kept degree that a multiply command's byte stands for; degrees: of the two factors."""
    return {1: MAX_DEGREE, 2: max(degrees)}[edition] if kept == DEFAULT_KEPT else kept


def static_degree(edition, byte, operands, named):
    """Of a command's result, where those of the results that it names are known."""
    if byte in (o.ADD, o.SUBTRACT):
        return max(named)
    if byte == o.MULTIPLY:
        return min(stated(edition, operands[2], named), sum(named))
    return block_degree(operands[o.RESULT_BYTES[byte]])


def other(edition):
    return {1: 2, 2: 1}[edition]


def written(edition, byte, operands, named):
    """A command of the converted job."""
    if byte == o.EDITION:
        operands = [other(edition)]
    elif byte == o.MULTIPLY:
        operands = [*operands[:2], stated(edition, operands[2], named)]
    return bytes([byte, *operands])


def converted(job):
    """The job of the other edition; Unread is raised where the job does not read well."""
    commands = list(o.reading(job))
    edition, degrees, parts = job[1], [], []
    for byte, operands in commands:
        named = [degrees[name] for name in operands[:o.RESULT_BYTES.get(byte, 0)]]
        parts.append(written(edition, byte, operands, named))
        if byte in o.RESULT_BYTES:
            degrees.append(static_degree(edition, byte, operands, named))
    return b''.join(parts)


def convert_edition(job, room):
    """Number, length and command, and what the first bytes of an output of so many bytes are: the converted job, or zeros, as many
    as there are."""
    try:
        result = converted(job)
    except o.Unread as unread:
        number, command = unread.args
        return number, [0, command], bytes(room)
    if room < len(job):
        return SHORT_OUTPUT, [0, 0], bytes(room)
    return ACCEPTED, [len(job), 0], result
