"""convert: a job of one edition as a job of the other, by the proved library; the tool's own conversion is compared with it."""

import os
import sys
from collections import namedtuple

from . import library, program
from .program import NotChecked, shown
from .reading import places
from .text import open_degrees, write

CONVERTED, REFUSED, NOT_CONVERTED = 0, 1, 2

# By the tool itself: the converted job (None: it does not read well), the last place of its reading, and what each kept degree
# that was left open stands for, by command.
Own = namedtuple('Own', 'job last stated')


def other(edition):
    return 3 - edition


def own(job):
    """The conversion by the tool itself."""
    read = list(places(job))
    if read[-1].refusal:
        return Own(None, read[-1], {})
    steps = [place.step for place in read]
    made, stated = bytearray(job), open_degrees(steps)
    made[steps[0].offsets['edition']] = other(steps[0].values['edition'])
    for number, degree in stated.items():
        made[steps[number].offsets['kept']] = degree
    return Own(bytes(made), read[-1], stated)


def first_difference(one, two):
    """The first byte at which two lists of bytes differ."""
    return next((i for i, (a, b) in enumerate(zip(one, two)) if a != b), min(len(one), len(two)))


def differs(answer, found):
    """How the library's answer differs from what the tool itself found, in words, or nothing."""
    said = (answer.refusal, answer.command)
    wanted = (found.last.refusal, found.last.number if found.last.refusal else 0)
    if said != wanted:
        told = [f'refused with {number} at command {command}' if number else 'converted' for number, command in (said, wanted)]
        return f'the library says "{told[0]}", this tool "{told[1]}"'
    if answer.job != found.job:
        return f"the library's job and this tool's differ from byte {first_difference(answer.job, found.job)} on"
    return ''


def same_file(one, two):
    """Whether two names, or numbers of open files, are of one file."""
    try:
        return os.path.samestat(os.stat(one), os.stat(two))
    except OSError:
        return False


def stated_words(stated):
    if not stated:
        return 'no kept degree was left open, so that the edition byte alone differs'
    listed = ', '.join(f'{degree} at command {number}' for number, degree in stated.items())
    many = len(stated) > 1
    return f'{len(stated)} kept degree{"s that were" if many else " that was"} left open {"are" if many else "is"} stated: {listed}'


def main(options):
    name, out = options.job, options.output
    try:
        if same_file(0 if name == '-' else name, out):
            raise NotChecked(f'{shown(out)} is the job itself; name another file with -o')
        job = program.read_job(name)
        answer, found = library.convert(job), own(job)
        difference = differs(answer, found)
        if difference:
            raise NotChecked(f'{shown(name)}: {difference}, so that one of them is wrong or of another version; please report it')
    except NotChecked as error:
        print(f'ferruntzo: {str(error).rstrip(".")}. Nothing was written.', file=sys.stderr)
        return NOT_CONVERTED
    if answer.job is None:
        last = found.last
        print(f'{shown(name)}: NOT converted: its reading is REFUSED with {last.refusal} at command {last.number} (byte '
              f'{last.offset}): {last.cause}. Nothing was written. `ferruntzo explain` says more.')
        return REFUSED
    # Words do not go where the job goes.
    words = sys.stderr if same_file(1, out) else sys.stdout
    if not write(out, answer.job):
        return NOT_CONVERTED
    print(f'{shown(name)}: edition {job[1]} to edition {answer.job[1]}, written to {shown(out)}; {stated_words(found.stated)}.',
          file=words)
    return CONVERTED
