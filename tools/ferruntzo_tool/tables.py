"""The tables of the job format: commands, refusals and limits. docs/FORMAT.md is their text."""

import re
from collections import namedtuple
from fractions import Fraction

S = 1 << 20                     # one unit is 1/S mm
LIMIT = 1 << 28                 # of weight, radius, N and the size of an end, in units
MAX_DEGREE = 32
COEFFICIENTS = 33
PLACES = 2 * MAX_DEGREE + 1     # of a list C
MAX_RESULTS = 32
MAX_JOB_BYTES = 8488            # no longer job is ever accepted
PROGRAM_BYTES = 65536           # the program reads no longer job
DEFAULT_KEPT = 0xFF             # the kept degree is left open; the edition says what it stands for

# The ends of an interval, in units.
Interval = namedtuple('Interval', 'lower upper')
STANDARD = Interval(-S, S)      # of a load by 0x10

# What an operand is, and its width in bytes.
WIDTH = {'edition': 1, 'result': 1, 'kept': 1, 'block': 133, 'radius': 4, 'interval': 8}

# byte, name, operands in the order of the job (kind, what it is called), whether a result arises, and
# its words. A new command is a row here and its rule in reading.RULES. A block called model makes a
# load; blocks h and w make a test, of a quotient if there is an operand g and of a root if not.
Command = namedtuple('Command', 'byte name operands makes words')

COMMANDS = [
    Command(0x00, 'end', (), False, 'end'),
    Command(0x01, 'edition', (('edition', 'edition'),), False, 'edition {edition}'),
    Command(0x10, 'load', (('block', 'model'), ('radius', 'radius')), True, 'load'),
    Command(0x11, 'add', (('result', 'a'), ('result', 'b')), True, 'result {a} + result {b}'),
    Command(0x12, 'subtract', (('result', 'a'), ('result', 'b')), True, 'result {a} - result {b}'),
    Command(0x13, 'multiply', (('result', 'a'), ('result', 'b'), ('kept', 'kept')), True,
            'result {a} × result {b}, kept degree {kept}'),
    Command(0x14, 'load_on', (('block', 'model'), ('radius', 'radius'), ('interval', 'interval')), True,
            'load on {interval}'),
    Command(0x20, 'quotient', (('result', 'f'), ('result', 'g'), ('block', 'h'), ('block', 'w')), True,
            'quotient: result {f} over result {g}'),
    Command(0x21, 'root', (('result', 'f'), ('block', 'h'), ('block', 'w')), True,
            'square root of result {f}'),
    Command(0x22, 'tight_root', (('result', 'f'), ('block', 'h'), ('block', 'w')), True,
            'square root of result {f} (tighter root test)'),
]
BY_BYTE = {command.byte: command for command in COMMANDS}
BY_NAME = {command.name: command for command in COMMANDS}
EDITIONS = (1, 2)


def is_load(step):
    return 'model' in step.values


def is_test(step):
    return 'h' in step.values


def is_root(step):
    return is_test(step) and 'g' not in step.values


def is_tight(step):
    return step.command.name == 'tight_root'


def width(command):
    """Bytes of a command with its command byte."""
    return 1 + sum(WIDTH[kind] for kind, _ in command.operands)


# number, name as in include/ferruntzo.h, what it means, what to do about it.
Refusal = namedtuple('Refusal', 'number name meaning advice')

REFUSALS = [
    Refusal(1, 'SHORT_AREA', 'an area lent to the library is too short',
            'lend the sizes that ferruntzo.h names; a job never causes it'),
    Refusal(2, 'BAD_MODEL', 'a degree, weight or radius is beyond its limit, or a coefficient '
            'beyond the degree is not zero',
            'check the degree byte, zero the coefficients beyond it, rescale so that the weight fits'),
    Refusal(3, 'LARGE_RESULT', 'the weight or the radius of a result is above 2^28',
            'the values left the range up to 256 mm: rescale, or take a shorter stretch'),
    Refusal(4, 'POINT_OUTSIDE', "a point of an evaluation is outside its model's interval",
            'evaluate from the lower end to the upper; a job never causes it'),
    Refusal(5, 'NOT_CONTRACTING', 'the helper w is too far from the inverse (m >= S)',
            'bring w nearer to 1/g, or to 1/(2h) for a root: raise its degree; if g or h comes '
            'near zero, take a shorter stretch'),
    Refusal(6, 'LARGE_RESIDUAL', 'the proposed h does not fit at all (N > 2^28)',
            'look for a wrong operand or a wrong scale'),
    Refusal(7, 'HELPER_NOT_POSITIVE', 'the helper of a root is not positive (sum of w_k <= 0)',
            'take the positive root, and w = 1/(2h)'),
    Refusal(8, 'NEGATIVE_DISCRIMINANT', 'the proposed root fits too badly ((S-m)^2 < 8bM)',
            'bring h nearer to the root and w nearer to 1/(2h); make the radius of f smaller; keep f, with its '
            'radius, away from zero: take a shorter stretch. The tighter root test (0x22) refuses it too'),
    Refusal(9, 'BAD_VALUE', 'an unknown command, edition or kept degree, or an edition that is '
            'missing or comes again',
            'look for a command written with a wrong width, so that an operand is read as a command'),
    Refusal(10, 'JOB_ENDS', 'the job ends inside a command or without an end',
            'check the lengths: a block has 133 bytes, and the last byte is the end, 0x00'),
    Refusal(11, 'BYTES_AFTER_END', 'bytes follow the end', 'cut the job off after its end'),
    Refusal(12, 'NOT_A_RESULT', 'a command names a result that is not there yet',
            'count the results from 0; only earlier ones can be named'),
    Refusal(13, 'TOO_MANY_RESULTS', 'a 33rd result', 'spread the results over two jobs'),
    Refusal(14, 'BAD_SERIES', 'a degree or weight of a power series is beyond its limit, or a '
            'coefficient beyond the degree is not zero',
            'convert series within their limits; a job never causes it'),
    Refusal(15, 'NOT_FINITE', 'the first coefficient of a divisor is zero, or a value is not finite, while '
            'a proposal is made',
            'take a shorter stretch, on which the divisor keeps away from zero; a job never causes it'),
    Refusal(16, 'LARGE_PROPOSAL', 'the weight of a made proposal, in units, is above 2^28',
            'rescale, or take a shorter stretch, on which the divisor keeps away from zero; a job never '
            'causes it'),
    Refusal(17, 'NO_RADIUS', 'the proposed root fits too badly for the tighter root test (no whole r from 0 '
            'to S satisfies it)',
            'bring h nearer to the root and w nearer to 1/(2h); make the radius of f smaller; keep f, with its '
            'radius, away from zero: take a shorter stretch. Or take the root test (0x21) where it accepts the same '
            'candidates: the lines about this command in `ferruntzo explain` say so'),
    Refusal(18, 'BAD_ENDS', 'the ends of an interval are wrong: the lower is not below the upper, or one is outside '
            '-2^28..2^28',
            'write the lower end, then the upper, each signed, in 4 bytes and in units (a number of seconds or '
            'millimetres times 2^20)'),
    Refusal(19, 'DIFFERENT_INTERVALS', 'the two operands of a command are on different intervals',
            'load all that is combined by 0x14 with the same two ends, constants too; a load by 0x10 is on -S..S'),
    Refusal(20, 'SHORT_OUTPUT', 'the output lent for a converted job is shorter than the job',
            'lend as many bytes as the job has; a job that is checked never causes it'),
]
REFUSAL = {refusal.number: refusal for refusal in REFUSALS}


# Digits are limited, so that no text can stand for a number of millions of digits.
DECIMAL = re.compile(r'[+-]?(\d{1,40}(\.\d{0,80})?|\.\d{1,80})([eE][+-]?\d{1,2})?')


def decimal(text):
    """A decimal number exactly, or ValueError."""
    if not DECIMAL.fullmatch(text):
        raise ValueError(text)
    return Fraction(text)


def interval_text(interval):
    """An interval in words: its ends in units, and x itself."""
    return f'{interval.lower:,} to {interval.upper:,} (x from {argument(interval.lower)} to {argument(interval.upper)})'


def argument(units):
    """The x of a place on an interval; ten figures tell neighbours apart."""
    return f'{units / S:.10g}'


def in_micrometres(units, down=False):
    """Three figures that are never below the number itself (rounded down: never above), with their unit."""
    if units == 0:
        return '0 µm'
    scale = 0
    while units * 1000 * 10 ** scale < 100 * S:
        scale += 1
    rounded = units * 1000 * 10 ** scale // S if down else -(-units * 1000 * 10 ** scale // S)
    digits = str(rounded).rjust(scale + 1, '0')
    whole, part = (digits[:-scale], digits[-scale:]) if scale else (digits, '')
    return f'{whole}.{part} µm' if part else f'{whole} µm'
