"""What compare.py counts, each check in words: every kind must be there, and of the whole comparison enough."""

import edition_cases
import edition_jobs
import interval_cases
import interval_jobs
import proposal_cases
import report_cases
import scratch_cases
import selection_cases
import tight_root_cases
import tight_root_jobs
import unit_cases
from area_cases import AREAS, REPORTS

ENTRIES = list(AREAS)
WHOLE = 260000              # calls of the whole comparison; at least so many of them
TIED = 2000                 # are accepted where some near rounds a tie
PAIRS, CHOSEN = 7000, 4000  # have two proposals; have one chosen and put to random fractions
TIGHT, TIGHT_JOBS = 4000, 3000      # are tighter root tests on areas long enough; are jobs with 0x22
SOUND_TIGHT, SOUND_TIGHT_JOBS = 2000, 100       # are such tests, such jobs checked for soundness
PLACED, PLACED_JOBS = 20000, 8000   # have a model on another interval than the standard one; are jobs with 0x14
SOUND_PLACED, SOUND_PLACED_JOBS = 5000, 500     # are such calls, such jobs checked for soundness
CONVERSIONS, SECOND_JOBS = 4000, 4000   # are conversions with an answer long enough; are jobs of edition 2
SOUND_SECOND_JOBS = 300     # are such jobs checked for soundness
REPORTED = 6000             # different jobs have both reports, areas being long enough; so many reports are beside the check
SOUND_OF_16 = 50            # of each entry with a scratch are checked for soundness with one of 16
MODELS, PATTERNS = 3000, 100000     # different ones are put to the makers; to the step to units, each alone
ROUNDING = ('multiply', 'integrate', 'evaluate', 'from_series', 'check')        # the entries that use near


def check_ties(ties, total):
    """The counts of cases with ties, in words: on both sides of zero in each entry, enough in the whole comparison."""
    rounding = [entry for entry in ties if entry in ROUNDING]
    for entry in rounding:
        assert ties[entry][True] and ties[entry][False], f'{entry}: no tie above zero, or none below'
    tied = sum(ties[entry]['cases'] for entry in ties)
    assert set(ties) != set(ENTRIES) or tied * WHOLE >= TIED * min(total, WHOLE), f'{tied} cases with a tie'
    return ', '.join([*(f'{entry} {ties[entry]["cases"]} ({ties[entry][True]} with one above zero, '
                        f'{ties[entry][False]} below)' for entry in rounding), f'{tied} in all'])


def check_pairs(pairs, chosen, entries, total):
    """The counts of pairs of proposals, in words: each kind, enough in the whole comparison."""
    drawn, part = pairs['pairs'], min(total, WHOLE)
    enough = drawn * WHOLE >= PAIRS * part and chosen * WHOLE >= CHOSEN * part
    assert set(entries) != set(ENTRIES) or enough, f'{drawn} pairs, {chosen} chosen proposals checked'
    return f'{selection_cases.counted(pairs)}; {chosen} chosen proposals checked for soundness'


def check_tight_roots(tests, tight_jobs, sound, entries, total):
    """The counts of tighter root tests and of jobs with 0x22, in words: each kind, enough in the whole comparison."""
    whole, both = set(entries) == set(ENTRIES), {'root', 'tight_root'} <= set(entries)
    for what, wanted, count, asked in (
            ('tighter root tests', TIGHT, tests['tests'], whole), ('jobs with 0x22', TIGHT_JOBS, tight_jobs['jobs'], whole),
            ('tighter root tests with 0x21 behind', TIGHT, tests['0x21 behind it'], both),
            ('tighter roots checked for soundness', SOUND_TIGHT, sound, whole),
            ('jobs with 0x22 checked for soundness', SOUND_TIGHT_JOBS, tight_jobs['checked for soundness'], whole)):
        assert not asked or count * WHOLE >= wanted * min(total, WHOLE), f'{count} {what}'
    if 'tight_root' in entries:
        yield (f'tighter roots: {tight_root_cases.counted(tests)}; with the root test of the same candidates behind it: '
               f'{tests["0x21 behind it"]}; checked for soundness: {sound}')
    if 'check' in entries:
        yield f'tighter roots in jobs: {tight_root_jobs.counted_jobs(tight_jobs)}'


def check_scratches(scratches, sound, entries, total):
    """The counts of lent scratches, in words: each length with each answer, and enough of 16 numbers checked for soundness."""
    rows = [scratch_cases.counted(entry, scratches[entry]) for entry in scratches]
    few = [entry for entry in scratches if entry not in REPORTS and sound[entry] * WHOLE < SOUND_OF_16 * min(total, WHOLE)]
    assert set(entries) != set(ENTRIES) or not few, f'too few checked for soundness with a scratch of 16: {few}'
    checked = ', '.join(f'{entry} {sound[entry]}' for entry in scratches if entry not in REPORTS)
    return '\n  '.join(['', *rows, f'checked for soundness with 16: {checked}'])


def check_proposals(made, units, entries, total):
    """The counts of made proposals and of values in units, in words: each kind, enough in the whole comparison."""
    whole = set(entries) == set(ENTRIES) and total >= WHOLE
    if set(entries) & set(proposal_cases.MAKERS):
        models, text = proposal_cases.counted(made, entries)
        assert not whole or models >= MODELS, f'{models} models'
        yield f'made proposals: {text}'
    if 'to_units' in entries:
        patterns, text = unit_cases.counted(units)
        assert not whole or patterns >= PATTERNS, f'{patterns} values'
        yield f'values in units: {text}'


def check_intervals(calls, jobs, entries, total):
    """The counts of calls on other intervals and of jobs with 0x14, in words: each kind, enough in the whole comparison."""
    whole, texts = set(entries) == set(ENTRIES), []
    if set(entries) & set(interval_cases.MODELS):
        texts.append(f'intervals: {interval_cases.counted(calls, entries)}; checked for soundness: {calls["sound"]}')
    if 'check' in entries:
        texts.append(f'intervals in jobs: {interval_jobs.counted_jobs(jobs)}')
    for what, wanted, count in (
            ('calls on other intervals', PLACED, calls['calls']),
            ('such calls checked for soundness', SOUND_PLACED, calls['sound']),
            ('jobs with 0x14', PLACED_JOBS, jobs['jobs']),
            ('jobs with 0x14 checked for soundness', SOUND_PLACED_JOBS, jobs['checked for soundness'])):
        assert not whole or count * WHOLE >= wanted * min(total, WHOLE), f'{count} {what}'
    return texts


def check_editions(conversions, jobs, entries, total):
    """The counts of conversions, products with 255 and jobs of edition 2, in words: each kind, enough in the whole comparison."""
    if 'convert_edition' in entries:
        yield f'conversions: {edition_cases.counted(conversions)}'
    if 'multiply' in entries:
        yield edition_cases.counted_products(conversions)
    if 'check' in entries:
        yield f'editions in jobs: {edition_jobs.counted_jobs(jobs, "convert_edition" in entries)}'
    for what, wanted, count in (
            ('conversions', CONVERSIONS, conversions['conversions']), ('jobs of edition 2', SECOND_JOBS, jobs['jobs']),
            ('jobs of edition 2 checked for soundness', SOUND_SECOND_JOBS, jobs['checked for soundness'])):
        assert set(entries) != set(ENTRIES) or count * WHOLE >= wanted * min(total, WHOLE), f'{count} {what}'


def check_reports(reports, rooms, entries, total, agree):
    """The counts of reports, in words: each kind, enough in the whole comparison, in which each job has both; and, if all answers
    agree, what holds of the rooms together."""
    for entry in reports:
        yield f'reports: {report_cases.counted(entry, reports[entry])}'
    if agree:
        yield from (f'reports: {text}' for text in report_cases.counted_rooms(rooms, entries))
    if set(entries) == set(ENTRIES):
        both = len(set.intersection(*rooms.jobs.values()))
        for what, count in (('jobs with both reports', both),
                            *((f'{entry} beside the check', rooms.same_as_check[entry]) for entry in REPORTS)):
            assert count * WHOLE >= REPORTED * min(total, WHOLE), f'{count} {what}'
        yield f'reports: {both} jobs with both'
