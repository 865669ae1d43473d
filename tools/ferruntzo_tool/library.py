"""Finding and calling the proved library, by its Python package."""

import importlib
import sys
from collections import namedtuple
from pathlib import Path

from .program import NotChecked, shown

# What the library answers to a conversion: the job (None: refused), or refusal and command.
Answer = namedtuple('Answer', 'job refusal command')

# What it answers to a check with report records: each record, and all bytes of the room; or refusal and command.
Reported = namedtuple('Reported', 'records room refusal command')

# Which functions of the package are called, since which version it has them, and what they do.
NEEDED = {'convert_edition': ('5.0.0', 'converts jobs'), 'check_workshop': ('5.1.0', 'writes report records'),
          'check_service': ('5.1.0', 'writes report records')}


def folders():
    """Where the package is looked for before Python's own places: in the repository, and under the prefix of `make install`."""
    prefix = Path(sys.argv[0]).resolve().parent.parent
    return [folder for folder in (prefix / 'python', *sorted(prefix.glob('lib/python*/*-packages')))
            if (folder / 'ferruntzo' / '_library.py').is_file()]


def package(function):
    """The package ferruntzo, with a function that is to be called, and the library loaded."""
    before = list(sys.path)
    sys.path[:0] = map(str, folders())
    try:
        found = importlib.import_module('ferruntzo')
    except ImportError as error:
        raise NotChecked(f'the Python package ferruntzo, by which the library is called, was not found ({error}); make install '
                         'installs it') from error
    finally:
        sys.path[:] = before
    if not hasattr(found, function):
        version, does = NEEDED[function]
        raise NotChecked(f'{shown(found.__file__)} is no package ferruntzo of version {version} or later, which {does}')
    try:
        found.version()
    except found.LibraryError as error:
        raise NotChecked(shown(error)) from error
    return found


def convert(job):
    """The library's answer to a job that is to be converted."""
    ferruntzo = package('convert_edition')
    try:
        return Answer(ferruntzo.convert_edition(job), 0, 0)
    except ferruntzo.Refused as refused:
        return Answer(None, refused.refusal.value, refused.command)
    except ferruntzo.LibraryError as error:
        raise NotChecked(shown(error)) from error


def report(ferruntzo, function, job):
    """The library's answer to a job whose results get report records, by a function of the package."""
    try:
        found = getattr(ferruntzo, function)(job)
        return Reported(found.records, found.room, 0, 0)
    except ferruntzo.Refused as refused:
        return Reported((), b'', refused.refusal.value, refused.command)
    # A count of results that is none.
    except (ferruntzo.LibraryError, ValueError) as error:
        raise NotChecked(f'the answer of the library: {shown(error)}') from error
