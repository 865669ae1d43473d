"""A job's bytes as commands, and a whole job checked in the tool's own arithmetic."""

import struct
from collections import namedtuple

from . import arithmetic as ar
from .arithmetic import Model, Refused
from .tables import (BY_BYTE, COEFFICIENTS, DEFAULT_KEPT, EDITIONS, Interval, MAX_DEGREE, MAX_RESULTS,
                     STANDARD, WIDTH, width)

# A command as it stands in the job: its number, offset, row of the table and operands by name.
Step = namedtuple('Step', 'number offset command values offsets')

# A command as it is read: its step, unless its byte is refused, and the refusal of its reading (0: none).
Place = namedtuple('Place', 'number offset step refusal cause')

# What a step led to: the model that arose, or the refusal, and the numbers of a test.
Outcome = namedtuple('Outcome', 'step model numbers refusal cause result')


def read_block(data):
    return Model(data[0], list(struct.unpack(f'<{COEFFICIENTS}i', data[1:133])), 0)


def write_block(m):
    return bytes([m.degree]) + struct.pack(f'<{COEFFICIENTS}i', *m.coefficients)


def operand(kind, data):
    if kind == 'block':
        return read_block(data)
    if kind == 'radius':
        return struct.unpack('<I', data)[0]
    if kind == 'interval':
        return Interval(*struct.unpack('<2i', data))
    return data[0]


def write_operand(kind, value):
    if kind == 'block':
        return write_block(value)
    if kind == 'interval':
        return struct.pack('<2i', *value)
    return struct.pack('<I', value) if kind == 'radius' else bytes([value])


def write_step(command, values):
    return bytes([command.byte]) + b''.join(write_operand(kind, values[name])
                                            for kind, name in command.operands)


def step_at(job, offset, number):
    """The command at an offset, or None where it is unknown or cut off."""
    command = BY_BYTE.get(job[offset]) if offset < len(job) else None
    if command is None or offset + width(command) > len(job):
        return None
    at, values, offsets = offset + 1, {}, {}
    for kind, name in command.operands:
        offsets[name] = at
        values[name] = operand(kind, job[at:at + WIDTH[kind]])
        at += WIDTH[kind]
    return Step(number, offset, command, values, offsets)


def split(job):
    """The commands that can be read one after the other, and the offset behind them. It stops
    behind an end, before an unknown byte and before a command that is cut off."""
    steps, offset = [], 0
    while offset < len(job):
        step = step_at(job, offset, len(steps))
        if step is None:
            break
        steps.append(step)
        offset += width(step.command)
        if step.command.name == 'end':
            break
    return steps, offset


def _byte_fault(job, offset, number):
    """Refusal 9 or 10 of the command byte, before its operands are looked at."""
    if offset == len(job):
        return 10, ('the job is empty' if not job else
                    f'the job ends at byte {offset}, where a command byte (or the end, 0x00) should stand')
    byte = job[offset]
    name = BY_BYTE[byte].name if byte in BY_BYTE else ''
    if number == 0 and name != 'edition':
        return 9, f'the first byte is 0x{byte:02x}, and must be 0x01, the edition'
    if not name:
        return 9, f'0x{byte:02x} at byte {offset} is no command'
    if name == 'edition' and number:
        return 9, f'0x01 at byte {offset} is an edition again, which stands only first'
    if offset + width(BY_BYTE[byte]) > len(job):
        return 10, (f'the job ends at byte {len(job)}, inside the {name} that begins at byte '
                    f'{offset} and has {width(BY_BYTE[byte])} bytes')
    return 0, ''


def _value_fault(step, count):
    """Refusals 9, 12 and 13 of the operands."""
    values, offsets = step.values, step.offsets
    if step.command.name == 'edition' and values['edition'] not in EDITIONS:
        return 9, (f'edition {values["edition"]} at byte {offsets["edition"]} is not known; there are '
                   f'{" and ".join(map(str, EDITIONS))}')
    for kind, name in step.command.operands:
        if kind == 'kept' and MAX_DEGREE < values[name] != DEFAULT_KEPT:
            return 9, (f'the kept degree {values[name]} at byte {offsets[name]} is neither 0 to '
                       f'{MAX_DEGREE} nor 0xff')
    for kind, name in step.command.operands:
        if kind == 'result' and values[name] >= count:
            have = f'only results 0 to {count - 1} are there' if count else 'no result is there yet'
            return 12, f'result {values[name]}, named as {name} at byte {offsets[name]}: {have}'
    if step.command.makes and count >= MAX_RESULTS:
        return 13, f'the command would make result {count}; there are {MAX_RESULTS} at most'
    return 0, ''


def _model_fault(step):
    """Refusals 2 and 18 of the blocks."""
    for name, m in blocks_of(step):
        if ar.fault(m):
            return 2, f'block {name} at byte {step.offsets[name]}: {ar.fault(m)}'
        if ar.ends_fault(m.interval):
            return 18, f'the interval at byte {step.offsets["interval"]}: {ar.ends_fault(m.interval)}'
    return 0, ''


def places(job):
    """The commands of a job one after the other, its models unchecked. The last is the end, or has the refusal of its
    reading."""
    offset = number = made = 0
    while True:
        refusal, cause = _byte_fault(job, offset, number)
        step = None if refusal else step_at(job, offset, number)
        if step:
            refusal, cause = _value_fault(step, made)
            behind = offset + width(step.command)
            if not refusal and step.command.name == 'end' and behind < len(job):
                refusal, cause = 11, f'{len(job) - behind} bytes follow the end at byte {offset}'
        yield Place(number, offset, step, refusal, cause)
        if refusal or step.command.name == 'end':
            return
        offset, number, made = behind, number + 1, made + step.command.makes


def stated(step, edition, degrees):
    """The operands of a command, a kept degree that is left open replaced by what it stands for; `degrees` are those of the
    results before it."""
    values = step.values
    if values.get('kept') != DEFAULT_KEPT:
        return values
    return {**values, 'kept': ar.kept_degree(edition, DEFAULT_KEPT, degrees[values['a']], degrees[values['b']])}


def static_degree(values, degrees):
    """The degree of a result from the operands of its command alone, stated, and the degrees of the results before it."""
    block = values.get('model') or values.get('h')
    if block:
        return min(block.degree, MAX_DEGREE)
    a, b = degrees[values['a']], degrees[values['b']]
    return min(values['kept'], a + b) if 'kept' in values else max(a, b)


def loaded(values):
    """The model of a load: its block with its radius and its interval."""
    return values['model']._replace(radius=values['radius'], interval=values.get('interval', STANDARD))


def blocks_of(step):
    """The blocks of a command with their names; that of a load as its model."""
    return [(name, loaded(step.values) if name == 'model' else step.values[name])
            for kind, name in step.command.operands if kind == 'block']


def _tested(values, results, numbers):
    return ar.tested(results[values['f']], values['h'], numbers), numbers


# The model and the numbers of a test that a command gives for its operands v, stated, and the results r.
RULES = {
    'load': lambda v, r: (loaded(v), {}),
    'load_on': lambda v, r: (loaded(v), {}),
    'add': lambda v, r: (ar.add(r[v['a']], r[v['b']]), {}),
    'subtract': lambda v, r: (ar.add(r[v['a']], r[v['b']], -1), {}),
    'multiply': lambda v, r: (ar.multiply(r[v['a']], r[v['b']], v['kept']), {}),
    'quotient': lambda v, r: _tested(v, r, ar.quotient(r[v['f']], r[v['g']], v['h'], v['w'])),
    'root': lambda v, r: _tested(v, r, ar.root(r[v['f']], v['h'], v['w'])),
    'tight_root': lambda v, r: _tested(v, r, ar.tight_root(r[v['f']], v['h'], v['w'])),
}


class Checked:
    """A whole job in the tool's own arithmetic: outcomes, results, refusal and its command."""

    def __init__(self, job):
        self.job, self.outcomes, self.results = job, [], []
        self.refusal = self.command = self.edition = 0
        self.cause, self.offset, self.makers = '', 0, []
        self._run()

    def _refuse(self, number, cause, step=None, numbers=None):
        self.refusal, self.cause = number, cause
        if step is not None:
            self.outcomes.append(Outcome(step, None, numbers or {}, number, cause, None))

    def _run(self):
        for self.command, self.offset, step, refusal, cause in places(self.job):
            if not refusal:
                refusal, cause = _model_fault(step)
            if refusal:
                return self._refuse(refusal, cause, step)
            self.edition = step.values.get('edition', self.edition)
            made, numbers, result = None, {}, None
            if step.command.makes:
                values = stated(step, self.edition, [m.degree for m in self.results])
                try:
                    made, numbers = RULES[step.command.name](values, self.results)
                except Refused as refused:
                    return self._refuse(refused.number, str(refused), step, refused.numbers)
                result = len(self.results)
                self.results.append(made)
                self.makers.append(step)
            self.outcomes.append(Outcome(step, made, numbers, 0, '', result))
        return None

    @property
    def accepted(self):
        return self.refusal == 0

    def text(self):
        """What the program prints for the job."""
        if not self.accepted:
            return f'refused {self.refusal} {self.command}\n'
        lines = [f'{i} {m.degree} {m.radius}\n' for i, m in enumerate(self.results)]
        return ''.join(lines) + f'accepted {len(self.results)}\n'

    def last_results(self):
        """The results that no later command names: what the job was made for."""
        named = {step.values[name] for step in self.makers
                 for kind, name in step.command.operands if kind == 'result'}
        return [i for i in range(len(self.results)) if i not in named]
