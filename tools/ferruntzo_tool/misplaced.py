"""Likely causes when the ends of an interval are bad or operands are on different intervals: usual mistakes are tried
on the loads."""

import struct

from .misfit import tried
from .reading import split
from .tables import S, STANDARD, Interval, interval_text, is_load

SMALL_ENDS = 256                # units; whole seconds or millimetres are no larger, since 2^28 units are 256


def small_interval(interval):
    """A line about ends that are as small as whole seconds or millimetres."""
    if max(map(abs, interval)) <= SMALL_ENDS:
        yield (f'the interval {interval_text(interval)} is very short; its ends may be in seconds or millimetres, and must be '
               'in units, 2^20 times that')


def signed(number):
    """32 bits as a signed number."""
    return (number + (1 << 31)) % (1 << 32) - (1 << 31)


def float_ends(radius, ends):
    """The ends taken as 32-bit floating-point numbers of seconds or mm."""
    found = struct.unpack('<2f', struct.pack('<2i', *ends))
    return None if any(end != end or abs(end) > 256 or 0 < abs(end) < 1e-7 for end in found) else (
        radius, [round(end * S) for end in found])


# The mistake, and radius and ends as they should be (None: it cannot be this one).
CHANGES = [
    ('has its ends exchanged; the lower end comes first', lambda radius, ends: (radius, ends[::-1])),
    ('has its ends before its radius; they come behind it', lambda radius, ends: (ends[1], (signed(radius), ends[0]))),
    ('has its ends big-endian; they must be little-endian',
     lambda radius, ends: (radius, struct.unpack('<2i', struct.pack('>2i', *ends)))),
    ('has its ends in seconds or millimetres; they must be in units, 2^20 times that',
     lambda radius, ends: (radius, [end * S for end in ends])),
    ('has 32-bit floating-point numbers as its ends; they must be whole numbers of units', float_ends),
    ("has the sign of its ends in the highest bit; they must be in two's complement",
     lambda radius, ends: (radius, [-(end + (1 << 31)) if end < 0 else end for end in ends])),
    ('has its ends unsigned, with 2^31 added; they must be signed',
     lambda radius, ends: (radius, [signed(end - (1 << 31)) for end in ends])),
]


def mended(chosen, change):
    """The edit that mends radius and ends of the chosen loads."""
    def edit(step, values):
        if step.number in chosen:
            found = change(values['radius'], values['interval'])
            if found is None or not 0 <= found[0] < 1 << 32 or any(not -1 << 31 <= end < 1 << 31 for end in found[1]):
                return None
            values.update(radius=found[0], interval=Interval(*found[1]))
        return values
    return edit


def moved_to(chosen, interval):
    """The edit that puts the chosen loads on an interval."""
    return lambda step, values: {**values, 'interval': interval} if step.number in chosen else values


def named_intervals(checked):
    """The intervals of the results that the last command names."""
    step = checked.outcomes[-1].step
    return [checked.results[step.values[name]].interval for kind, name in step.command.operands if kind == 'result']


def edits(job, checked):
    """Every mistake of intervals that is tried for a job: its text and the edit that would mend it."""
    makers = [(i, step) for i, step in enumerate(step for step in split(job)[0] if step.command.makes) if is_load(step)]
    named = [(f'the load of result {i}', [step.number], step) for i, step in makers]
    every = [step.number for _, step in makers if 'interval' in step.values]
    scopes = [scope[:2] for scope in named if 'interval' in scope[2].values]
    scopes += [('every load by 0x14', every)] if len(every) > 1 else []
    for scope, chosen in scopes:
        for text, change in CHANGES:
            yield f'{scope} {text}', mended(chosen, change)
    if checked.refusal != 19:
        return
    standard = [step.number for _, step in makers if 'interval' not in step.values]
    # Curves on -S..S by mistake are more likely than curves elsewhere by mistake.
    for interval in sorted(set(named_intervals(checked)), key=lambda interval: interval == STANDARD):
        for scope, chosen, load in named:
            by = 'is by 0x14 with other ends' if 'interval' in load.values else 'is by 0x10, so on -S..S'
            if interval != STANDARD or 'interval' in load.values:
                yield f'{scope} {by}; on {interval_text(interval)} the job goes on', moved_to(chosen, interval)
        if len(standard) > 1 and interval != STANDARD:
            yield (f'every load by 0x10 is on -S..S; on {interval_text(interval)}, by 0x14, the job goes on',
                   moved_to(standard, interval))


def causes(job, checked):
    """Lines about intervals that are very short, and about those of a job refused with 2, 18 or 19."""
    lines = [f'result {outcome.result}: {line}' for outcome in checked.outcomes if is_load(outcome.step) and outcome.model
             for line in small_interval(outcome.model.interval)]
    if checked.refusal not in (2, 18, 19):
        return lines
    step = checked.outcomes[-1].step
    lines += tried(job, checked, step.number, lambda radius: True, lambda at: edits(job, checked))
    if checked.refusal == 18:
        lower, upper = step.values['interval']
        if lower == upper and abs(lower) <= SMALL_ENDS:
            lines.append('both ends are the same small number: were they seconds or millimetres, rounded before they were '
                         'multiplied by 2^20?')
    if checked.refusal == 19:
        one, two = named_intervals(checked)
        apart = max(abs(u - v) for u, v in zip(one, two))
        if apart <= SMALL_ENDS:
            lines.append(f'the two intervals differ by only {apart} unit{"s" if apart > 1 else ""} at an end: were their ends '
                         'rounded differently?')
    return lines
