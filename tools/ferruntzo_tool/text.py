"""list and assemble: a job as text and back, byte for byte.

A command stands on a line of its own, its blocks on the lines below it:

    load radius 0               # result 0
      model degree 2: 238026804 0 119013376
    multiply 0 0 kept 32        # result 1; `kept open` is the byte 0xff, whatever the edition
    load_on radius 0 interval 0 2097152     # result 2; lower end, upper end
      model degree 0: 4194304
    bytes 0d 0a                 # bytes that are no command

Coefficients that are not written are zero. # begins a remark. Nothing is judged: a bad job has a
text as well."""

import os
import sys
import tempfile
from pathlib import Path

from .arithmetic import Model
from .program import NotChecked, quoted, read_file, shown
from .reading import split, stated, static_degree, write_operand
from .tables import BY_NAME, COEFFICIENTS, DEFAULT_KEPT, EDITIONS, Interval

HEAD = '# ferruntzo job text 1'
PER_LINE = 8                    # coefficients
RAW_PER_LINE = 16               # bytes


class BadText(Exception):
    """A text that stands for no job; names the file and the line."""


# ---- list ----

def coefficient_lines(m):
    last = max((k for k, c in enumerate(m.coefficients) if c), default=0)
    row = m.coefficients[:max(last, min(m.degree, COEFFICIENTS - 1)) + 1]
    if not any(row):
        row = [0]
    for start in range(0, len(row), PER_LINE):
        yield ' '.join(map(str, row[start:start + PER_LINE]))


def inline(kind, value):
    if kind == 'kept':
        return 'kept open' if value == DEFAULT_KEPT else f'kept {value}'
    if kind == 'interval':
        return f'interval {value.lower} {value.upper}'
    return f'radius {value}' if kind == 'radius' else str(value)


def open_degrees(steps):
    """What each kept degree that is left open stands for, by command, as far as the edition and the results that are named
    are there."""
    found, degrees, edition = {}, [], None
    for step in steps:
        edition = step.values.get('edition', edition)
        if not step.command.makes:
            continue
        if edition not in EDITIONS or any(step.values[name] >= len(degrees) for kind, name in step.command.operands
                                          if kind == 'result'):
            break
        values = stated(step, edition, degrees)
        if values is not step.values:
            found[step.number] = values['kept']
        degrees.append(static_degree(values, degrees))
    return found


def listing(job):
    """The lines of a job's text."""
    steps, offset = split(job)
    left_open = open_degrees(steps)
    yield HEAD
    result = 0
    for step in steps:
        words = [step.command.name] + [inline(kind, step.values[name])
                                       for kind, name in step.command.operands if kind != 'block']
        told = f'command {step.number}, byte {step.offset}'
        if step.command.makes:
            told += f', result {result}'
            result += 1
        if step.number in left_open:
            told += f'; open is {left_open[step.number]}'
        yield f'{" ".join(words):<23} # {told}'
        for kind, name in step.command.operands:
            if kind == 'block':
                first, *rest = coefficient_lines(step.values[name])
                yield f'  {name} degree {step.values[name].degree}: {first}'
                yield from ('    ' + line for line in rest)
    for start in range(offset, len(job), RAW_PER_LINE):
        yield f'bytes {job[start:start + RAW_PER_LINE].hex(" "):<48}# byte {start}'


# ---- assemble ----

class Assembler:
    def __init__(self, name):
        self.name, self.line, self.out = shown(name), 0, bytearray()
        self.command = None         # row of the table that waits for its blocks
        self.values, self.waiting = {}, []
        self.block, self.row = None, []

    def fail(self, what):
        raise BadText(f'{self.name}, line {self.line}: {what}')

    def number(self, word, low, high, what):
        try:
            found = int(word)
        except ValueError:
            found = None
        if found is None or not low <= found <= high:
            self.fail(f'{quoted(word)} is no {what} (a whole number from {low} to {high})')
        return found

    def close_block(self):
        if self.block is None:
            return
        name, degree = self.block
        row = self.row + [0] * (COEFFICIENTS - len(self.row))
        self.values[name] = Model(degree, row, 0)
        self.block = None

    def close_command(self):
        self.close_block()
        if self.command is None:
            return
        if self.waiting:
            self.fail(f'the {self.command.name} above lacks its block {self.waiting[0]}; write '
                      f'"{self.waiting[0]} degree N: coefficients" below it')
        self.out.append(self.command.byte)
        for kind, name in self.command.operands:
            self.out += write_operand(kind, self.values[name])
        self.command = None

    def begin(self, words):
        self.close_command()
        command = BY_NAME[words[0]]
        rest, self.values = words[1:], {}
        for kind, name in command.operands:
            if kind == 'block':
                continue
            if kind in ('kept', 'radius', 'interval'):
                if not rest or rest.pop(0) != kind:
                    told = 'its two ends' if kind == 'interval' else 'a number'
                    self.fail(f'"{kind}" and {told} are missing behind {command.name}')
            if len(rest) < 1 + (kind == 'interval'):
                self.fail(f'{command.name} lacks its operand {name}')
            word = rest.pop(0)
            if kind == 'kept' and word == 'open':
                self.values[name] = DEFAULT_KEPT
            elif kind == 'radius':
                self.values[name] = self.number(word, 0, (1 << 32) - 1, 'radius')
            elif kind == 'interval':
                self.values[name] = Interval(*(self.number(end, -1 << 31, (1 << 31) - 1, 'end of an interval')
                                               for end in (word, rest.pop(0))))
            else:
                self.values[name] = self.number(word, 0, 255, name if kind != 'result' else 'result')
        if rest:
            self.fail(f'{quoted(" ".join(rest))} does not belong behind {command.name}')
        self.command = command
        self.waiting = [name for kind, name in command.operands if kind == 'block']

    def coefficients(self, words):
        for word in words:
            self.row.append(self.number(word, -1 << 31, (1 << 31) - 1, 'coefficient'))
        if len(self.row) > COEFFICIENTS:
            self.fail(f'more than {COEFFICIENTS} coefficients in a block')

    def begin_block(self, head, row):
        self.close_block()
        words = head.split()
        if not self.waiting or len(words) != 3 or words[:2] != [self.waiting[0], 'degree']:
            wanted = f'"{self.waiting[0]} degree N:"' if self.waiting else 'a command'
            self.fail(f'{quoted(head)} stands where {wanted} is expected')
        self.waiting.pop(0)
        self.block, self.row = (words[0], self.number(words[2], 0, 255, 'degree')), []
        self.coefficients(row.split())

    def raw(self, words):
        self.close_command()
        for word in words:
            if len(word) != 2 or not set(word) <= set('0123456789abcdefABCDEF'):
                self.fail(f'{quoted(word)} is no byte of two hexadecimal digits')
            self.out.append(int(word, 16))

    def take(self, line):
        self.line += 1
        line = line.split('#')[0].strip()
        if not line:
            return
        words = line.split()
        if ':' in line:
            self.begin_block(*line.split(':', 1))
        elif words[0] == 'bytes':
            self.raw(words[1:])
        elif words[0] in BY_NAME:
            self.begin(words)
        elif self.block is not None and words[0].lstrip('+-').isdigit():
            self.coefficients(words)
        else:
            self.fail(f'{quoted(words[0])} is no command; there are {", ".join(BY_NAME)}, and bytes')

    def job(self, text):
        for line in text.splitlines():
            self.take(line)
        self.close_command()
        return bytes(self.out)


def assemble(text, name='text'):
    return Assembler(name).job(text)


# ---- subcommands ----

def replace_file(path, data):
    """A file becomes the data, or stays as it was."""
    # A file that is there may be a link, which stays one.
    path = Path(os.path.realpath(path))
    descriptor, part = tempfile.mkstemp(prefix='.ferruntzo-', dir=path.parent)
    try:
        with open(descriptor, 'wb') as file:
            file.write(data)
        mask = os.umask(0)
        os.umask(mask)
        os.chmod(part, path.stat().st_mode & 0o777 if path.exists() else 0o666 & ~mask)
        os.replace(part, path)
    except BaseException:
        os.unlink(part)
        raise


def write(name, data):
    """Bytes to a file, whole or not at all, or to standard output; False and a message when that fails."""
    try:
        if name and Path(name).exists() and not Path(name).is_file():
            Path(name).write_bytes(data)                # a device or a pipe
        elif name:
            replace_file(name, data)
        else:
            sys.stdout.buffer.write(data)
            sys.stdout.buffer.flush()
        return True
    except BrokenPipeError:
        raise
    except OSError as error:
        print(f'ferruntzo: {shown(name or "standard output")}: cannot be written: {error.strerror}',
              file=sys.stderr)
        return False


def list_main(options):
    try:
        job = read_file(options.job)
    except NotChecked as error:
        print(f'ferruntzo: {error}', file=sys.stderr)
        return 2
    return 0 if write(options.output, ''.join(line + '\n' for line in listing(job)).encode()) else 2


def assemble_main(options):
    try:
        text = read_file(options.text)
        job = assemble(text.decode('utf-8'), options.text)
    except UnicodeDecodeError as error:
        print(f'ferruntzo: {shown(options.text)}: byte {error.start} is no UTF-8 text; is it a job and not '
              'the text of one?', file=sys.stderr)
        return 2
    except (NotChecked, BadText) as error:
        print(f'ferruntzo: {error}', file=sys.stderr)
        return 2
    if not options.output and sys.stdout.isatty():
        print('ferruntzo: a job is bytes; name a file with -o', file=sys.stderr)
        return 2
    return 0 if write(options.output, job) else 2
