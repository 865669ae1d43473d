"""check: the verdict of jobcheck on one job or thousands, in micrometres and as an exit status."""

import os
import sys
from collections import namedtuple
from concurrent.futures import ThreadPoolExecutor
from pathlib import Path

from . import covered, gouge, program
from .covered import plural
from .program import NotChecked, shown
from .reading import split
from .tables import REFUSAL, S, in_micrometres

ACCEPTED, BEYOND, NOT_CHECKED = 0, 1, 2
MOST_NAMED = 4                  # files that were passed over are named up to that many, then counted

# The line about a job, its status, and whether it holds a caution.
Verdict = namedtuple('Verdict', 'status line caution', defaults=(False,))


def ends(job):
    """The results that no later command names, read from the bytes of an accepted job."""
    made, named = 0, set()
    for step in split(job)[0]:
        named.update(step.values[name] for kind, name in step.command.operands if kind == 'result')
        made += step.command.makes
    return [i for i in range(made) if i not in named]


def place(job, number):
    """The byte at which a command begins."""
    steps, offset = split(job)
    return steps[number].offset if number < len(steps) else offset


def gouging(job, results):
    """What is said about gouging in one line, and the cautions about it."""
    found = gouge.findings(job)
    said, left = gouge.looked_at(found, results)
    if not found:
        said = ['gouging was not looked at (no path of the form margin + r·normal/|normal| was recognised)']
    elif left:
        said.append(f'{plural(left)} {"were" if len(left) > 1 else "was"} not looked at for gouging')
    return ''.join(f'; {line}' for line in said), gouge.cautions(found)


def cause(refusal):
    """What the number of a refusal means."""
    return REFUSAL[refusal].meaning if refusal in REFUSAL else 'not known to this tool'


def refused(name, job, answer):
    """The line about a refused job."""
    return (f'{name}: REFUSED with {answer.refusal} at command {answer.command} (byte {place(job, answer.command)}): '
            f'{cause(answer.refusal)}.{program.older(job, answer)} Do not mill. `ferruntzo explain` says more.')


def not_checked(label, error):
    """The line about a job without a verdict."""
    text = str(error)
    return f'{text if text.startswith(label) else f"{label}: {text}"}. NOT checked.'


def verdict(name, job, answer, options):
    """The verdict on a job that the program judged."""
    if not answer.accepted:
        return Verdict(BEYOND, refused(name, job, answer))
    made = sum(step.command.makes for step in split(job)[0])
    if made != len(answer.radii):
        raise NotChecked(f'{name}: results: jobcheck lists {len(answer.radii)}, the job makes {made}; the program '
                         'may be of another version')
    if options.results is not None:
        results = options.results
        missing = [i for i in results if i >= len(answer.radii)]
        if missing:
            return Verdict(BEYOND, f'{name}: accepted, but it has no {plural(missing)}; it has '
                           f'{len(answer.radii)} results, counted from 0. Do not mill.')
    else:
        results = ends(job)
    if not results:
        return Verdict(BEYOND, f'{name}: accepted, but it has no result to judge. Do not mill.')
    worst = max(answer.radii[i] for i in results)
    line = (f'{name}: accepted; {plural(results)} at most {in_micrometres(worst)} off the loaded '
            'curves')
    status = ACCEPTED
    said, cautions = gouging(job, results)
    if options.limit_um is None:
        line += f'; no limit was set{said}'
    elif worst * 1000 <= options.limit_um * S:
        line += f'; within the limit of {options.limit_text} µm{said}'
    else:
        line += f'; BEYOND the limit of {options.limit_text} µm{said}. Do not mill'
        status = BEYOND
    suspects = [i for i, _, _ in covered.suspects(job)]
    if suspects:
        cautions.insert(0, f'{plural(suspects)} may have been cut off when loaded, and the radius does not cover that; '
                        '`ferruntzo explain` says more')
    line += ''.join(f'. CAUTION: {caution}' for caution in cautions)
    return Verdict(BEYOND if cautions and options.strict else status, line + '.', bool(cautions))


def one(name, checker, options):
    label = shown(name)
    try:
        job = program.read_job(name)
        return verdict(label, job, program.run(checker, job, name), options)
    except NotChecked as error:
        return Verdict(NOT_CHECKED, not_checked(label, error))


# ---- Folders ----

def some(names):
    """A list of file names, cut short."""
    names = list(map(shown, names))
    return ', '.join(names[:MOST_NAMED]) + (f' and {len(names) - MOST_NAMED} more' if len(names) > MOST_NAMED else '')


def passed_over(folder, files, folders):
    """The line about what a folder holds beside its jobs, or nothing."""
    told = [f'{some(files)} (no *.job)'] if files else []
    if folders:
        many = len(folders) > 1
        told.append(f'the folder{"s" if many else ""} {some(folders)} (-r looks into {"them" if many else "it"})')
    return [f'{shown(folder)}: passed over: {"; ".join(told)}.'] if told else []


def inside(folder, recursive):
    """The jobs of a folder, and lines about what was passed over; NotChecked if it cannot be read."""
    try:
        entries = sorted(os.scandir(folder), key=lambda entry: entry.name)
        folders = [entry for entry in entries if entry.is_dir()]
    except OSError as error:
        raise NotChecked(f'{shown(folder)}: cannot be read: {error.strerror}') from error
    files = [entry for entry in entries if entry not in folders]
    jobs = [entry.path for entry in files if entry.name.lower().endswith('.job')]
    others = [entry.name for entry in files if entry.path not in jobs]
    # A link to a folder could lead round in a circle.
    entered = [entry for entry in folders if recursive and not entry.is_symlink()]
    lines = passed_over(folder, others, [entry.name for entry in folders if entry not in entered])
    for entry in entered:
        more_jobs, more_lines = inside(entry.path, recursive)
        jobs, lines = jobs + more_jobs, lines + more_lines
    return jobs, lines


def named_jobs(names, recursive):
    """The job files that the arguments name, each with a verdict if it has one already, and lines about what was passed over; a
    folder stands for its *.job files."""
    jobs, lines = [], []
    for name in names:
        if name == '-' or not Path(name).is_dir():
            jobs.append((name, None))
            continue
        try:
            found, told = inside(name, recursive)
        except NotChecked as error:
            jobs.append((name, Verdict(NOT_CHECKED, f'{error}. NOT checked.')))
            continue
        lines += told
        jobs += [(job, None) for job in found]
        if not found:
            jobs.append((name, Verdict(NOT_CHECKED, f'{shown(name)}: the folder holds no file *.job. NOT checked.')))
    return jobs, lines


def main(options):
    try:
        checker = program.find(options.jobcheck)
    except NotChecked as error:
        print(f'ferruntzo: {error}', file=sys.stderr)
        return NOT_CHECKED
    jobs, told = named_jobs(options.jobs, options.recursive)
    counts, cautions, done = [0, 0, 0], 0, 0
    live = sys.stderr.isatty() and len(jobs) > 20
    # A thread for each core suffices: each waits for its own process.
    with ThreadPoolExecutor(os.cpu_count() or 1) as pool:
        for found in pool.map(lambda job: job[1] or one(job[0], checker, options), jobs):
            done += 1
            counts[found.status] += 1
            cautions += found.caution
            if not options.quiet or found.status != ACCEPTED or found.caution:
                print(('\r\x1b[K' if live and sys.stdout.isatty() else '') + found.line)
            if live:
                print(f'\r{done} of {len(jobs)} jobs', end='', file=sys.stderr, flush=True)
    if live:
        print('\r\x1b[K', end='', file=sys.stderr)
    for line in told:
        print(line)
    if len(jobs) > 1:
        worse = 'refused, beyond the limit or with a caution' if options.strict else 'refused or beyond the limit'
        print(f'{len(jobs)} jobs: {counts[0]} accepted, {counts[1]} {worse}, {counts[2]} not checked; {cautions} with a '
              'caution.')
    return NOT_CHECKED if counts[2] else BEYOND if counts[1] else ACCEPTED
