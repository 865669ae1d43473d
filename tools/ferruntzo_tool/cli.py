"""The command line: one subparser for each subcommand."""

import argparse
import os
import sys

from . import __version__
from .program import shown
from .tables import EDITIONS, decimal

DEFAULT_LIMIT = '2'

STATUSES = '''exit status:
  0  accepted, and within the limit
  1  refused, beyond the limit, or with --strict a caution
  2  not checked: a file cannot be read, the program is missing or gave no verdict
'''


def limit(text):
    if text == 'none':
        return None
    try:
        found = decimal(text)
    except ValueError:
        found = -1
    if found < 0:
        raise argparse.ArgumentTypeError(f'{text!r} is neither a number of micrometres nor "none"')
    return found


def results(text):
    try:
        found = [int(word) for word in text.split(',')]
    except ValueError:
        found = [-1]
    if not all(0 <= number < 32 for number in found):
        raise argparse.ArgumentTypeError(f'{text!r} is no list of result numbers such as 13,14')
    return found


def positive(text):
    try:
        found = decimal(text)
    except ValueError:
        found = 0
    if found <= 0:
        raise argparse.ArgumentTypeError(f'{text!r} is no positive number')
    return found


def count(low, high):
    def convert(text):
        if not text.isdigit() or not low <= int(text) <= high:
            raise argparse.ArgumentTypeError(f'{text!r} is no whole number from {low} to {high}')
        return int(text)
    return convert


class Parser(argparse.ArgumentParser):
    """Errors in one line, whatever the arguments hold."""

    def error(self, message):
        super().error(shown(message))


def parser():
    top = Parser(
        prog='ferruntzo', description='Jobs of Chebyshev models for crown mills: check, explain, report, convert, '
        'list, assemble, show and solve them. docs/MEANING.md says what a verdict promises.')
    top.add_argument('--version', action='version', version=f'ferruntzo {__version__}')
    commands = top.add_subparsers(dest='command', metavar='COMMAND', required=True)

    def command(name, help_text, **more):
        made = commands.add_parser(name, help=help_text, description=help_text + '.',
                                   formatter_class=argparse.RawDescriptionHelpFormatter, **more)
        return made

    def checker(made):
        made.add_argument('--jobcheck', metavar='PROGRAM', help='the program jobcheck')

    made = command('check', 'run jobcheck and say in micrometres what it vouches for',
                   epilog=STATUSES)
    made.add_argument('jobs', nargs='+', metavar='JOB',
                      help='a job file, a folder of *.job files, or - for standard input')
    made.add_argument('-r', '--recursive', action='store_true', help='look into the folders of a folder as well')
    made.add_argument('--limit-um', metavar='X', default=DEFAULT_LIMIT,
                      help='the largest radius that is good enough, in micrometres, or none '
                           f'(default: {DEFAULT_LIMIT})')
    made.add_argument('--results', type=results, metavar='I,J',
                      help='the results to judge (default: those that no later command names)')
    made.add_argument('--strict', action='store_true', help='a caution counts as beyond the limit: a load that looks cut off, '
                      'a path that turns back or is not shown not to')
    made.add_argument('--quiet', action='store_true', help='no line for jobs that are good; refusals and cautions are '
                      'printed')
    checker(made)

    made = command('explain', 'go through a job command by command, and name likely mistakes',
                   epilog='It explains; jobcheck decides. If the two differ it stops with status 2.\n\n'
                   'exit status: 0 accepted, 1 refused, 2 not checked')
    made.add_argument('job', metavar='JOB')
    checker(made)

    made = command('report', 'write the report record of each result: number, degree and radius for the workshop, with --service '
                   'also m, N and b of its test',
                   epilog='The records are those of the proved library. If jobcheck or the tool\'s own arithmetic says otherwise, it stops\n'
                   'with status 2. FERRUNTZO_LIBRARY can name the library. No limit is applied, and no caution looked for: check\n'
                   'does that.\n\n'
                   'exit status: 0 accepted, whatever the radius, 1 refused, 2 not checked (nothing is reported of that job)')
    made.add_argument('jobs', nargs='+', metavar='JOB',
                      help='a job file, a folder of *.job files, or - for standard input')
    made.add_argument('-r', '--recursive', action='store_true', help='look into the folders of a folder as well')
    made.add_argument('--service', action='store_true', help='with m, N and b of each test, beside their limits')
    form = made.add_mutually_exclusive_group()
    form.add_argument('--json', action='store_true', help='a JSON object in a line for each job; docs/FORMAT.md has its keys')
    form.add_argument('--bytes', action='store_true', help='the bytes of all 32 records of one job as the library left them: 192, with '
                      '--service 576; never onto a terminal unless -o names it')
    made.add_argument('-o', '--output', metavar='FILE', help='where the bytes of --bytes go (default: standard output); a file that is '
                      'there is replaced')
    checker(made)

    made = command('convert', 'write a job of edition 1 as a job of edition 2 with the same results, or one of edition 2 as one of '
                   'edition 1',
                   epilog='The proved library converts; a kept degree that was left open (the byte 0xff) is stated. If the tool\n'
                   'itself would convert otherwise, it stops with status 2. FERRUNTZO_LIBRARY can name the library.\n\n'
                   'exit status: 0 written, 1 the job does not read well, 2 not converted (1 and 2: nothing is written)')
    made.add_argument('job', metavar='JOB', help='a job file, or - for standard input')
    made.add_argument('-o', '--output', metavar='OUT', required=True, help='the converted job; a file that is there is replaced')

    made = command('list', 'write a job as text, to be read and edited')
    made.add_argument('job', metavar='JOB')
    made.add_argument('-o', '--output', metavar='TEXT', help='default: standard output')

    made = command('assemble', 'write the job that a text of `list` stands for')
    made.add_argument('text', metavar='TEXT')
    made.add_argument('-o', '--output', metavar='JOB', help='default: standard output')

    made = command('show', 'write a page with the verdict, a table and the curves',
                   epilog='exit status: 0 accepted, 1 refused, 2 not checked (no page is written)')
    made.add_argument('job', metavar='JOB')
    made.add_argument('-o', '--output', metavar='HTML', required=True)
    made.add_argument('--limit-um', metavar='X', default=DEFAULT_LIMIT)
    checker(made)

    made = command('solve', 'make jobs for the path of a bur beside a margin',
                   epilog='CURVE is a JSON file, or lines of x y in mm; docs/FORMAT.md has its form. A piece of a series may\n'
                   'have its own interval, "interval_units": [lower, upper], whole numbers of 2^-20 (seconds of machine time\n'
                   'times 2^20): its stretches are then loaded by 0x14, and what that saves is said below the table.\n\n'
                   'The column root says which command a root is: 0x22 (the tighter root test) where its radius\n'
                   'is the smaller, else 0x21 (the root test).\n\n'
                   'exit status: 0 all jobs within the limit, 1 some are not, 2 nothing made')
    made.add_argument('curve', metavar='CURVE')
    made.add_argument('-o', '--output', metavar='FOLDER', help='where the jobs go, in place of those '
                      'of an earlier run (default: none are written)')
    made.add_argument('--bur-mm', type=positive, metavar='R', help="the bur's radius in mm")
    made.add_argument('--side', choices=('left', 'right'), help='of the direction of travel')
    made.add_argument('--stretches', type=count(1, 10000), metavar='N',
                      help='stretches of each piece (default: as few as meet the limit)')
    made.add_argument('--degree', type=count(1, 32), metavar='D', help='of the loaded curves '
                      '(default: the best for each stretch)')
    made.add_argument('--scale', type=int, metavar='K', help='the normal is multiplied by 2^K '
                      '(default: as large as fits)')
    made.add_argument('--only-0x21', action='store_true', help='no root is 0x22: for mills whose jobcheck is older '
                      'than version 3.2.0')
    made.add_argument('--edition', type=int, choices=EDITIONS, default=1, help='1: kept degrees are stated, 32 (default). '
                      '2: they are left open, so that a product has the larger degree of its factors and what is dropped goes '
                      'into its radius; for mills whose jobcheck is of version 5.0.0 or later')
    made.add_argument('--limit-um', metavar='X', default=DEFAULT_LIMIT)
    made.add_argument('--verify', type=count(1, 100000), metavar='K', default=0,
                      help='compare with the margin itself at K + 1 points of each stretch, exactly')
    checker(made)
    return top


def run(options):
    # Each module is loaded only when it is needed: check starts quickly.
    if hasattr(options, 'limit_um'):
        options.limit_text = options.limit_um
        options.limit_um = limit(options.limit_um)
    if options.command == 'check':
        from .check import main as command
    elif options.command == 'explain':
        from .explain import main as command
    elif options.command == 'report':
        from .report import main as command
    elif options.command == 'convert':
        from .convert import main as command
    elif options.command == 'list':
        from .text import list_main as command
    elif options.command == 'assemble':
        from .text import assemble_main as command
    elif options.command == 'show':
        from .page import main as command
    else:
        from .solve import main as command
    return command(options)


def standard_streams():
    """Whether standard output is there. Closed streams are given to the null device, so that no file takes their place; standard
    input is then still None."""
    for number, stream, way in ((0, sys.stdin, os.O_RDONLY), (1, sys.stdout, os.O_WRONLY), (2, sys.stderr, os.O_WRONLY)):
        if stream is None:
            opened = os.open(os.devnull, way)
            if opened != number:
                os.dup2(opened, number)
                os.close(opened)
    if sys.stderr is None:
        sys.stderr = open(2, 'w', closefd=False)
    for stream in filter(None, (sys.stdout, sys.stderr)):
        stream.reconfigure(encoding='utf-8', errors='replace')
    return sys.stdout is not None


def main():
    if not standard_streams():
        print('ferruntzo: standard output is closed, so that nothing can be said', file=sys.stderr)
        return 2
    top = parser()
    options = top.parse_args()
    try:
        if hasattr(options, 'limit_um'):
            limit(options.limit_um)
        status = run(options)
        sys.stdout.flush()
        return status
    except argparse.ArgumentTypeError as error:
        top.error(str(error))
    except (OSError, MemoryError) as error:
        # What standard output did not take is no verdict; the rest of its buffer must not fail at the end.
        os.dup2(os.open(os.devnull, os.O_WRONLY), sys.stdout.fileno())
        if not isinstance(error, BrokenPipeError):
            print(f'ferruntzo: {getattr(error, "strerror", None) or "not enough memory"}', file=sys.stderr)
        return 2
    except KeyboardInterrupt:
        return 2
