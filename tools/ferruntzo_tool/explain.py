"""explain: a job command by command in the tool's own exact arithmetic."""

import sys
from itertools import zip_longest

from . import arithmetic as ar
from . import covered, gouge, misfit, misplaced, misread, program
from .arithmetic import Refused
from .program import NotChecked, shown
from .reading import Checked, blocks_of
from .tables import (DEFAULT_KEPT, LIMIT, MAX_DEGREE, REFUSAL, S, STANDARD, in_micrometres, interval_text, is_load,
                     is_root, is_tight)


def share(n, d):
    return f'{100 * n / d:.3g} %'


def plain(units):
    return f'{units / S:.6g}'


def open_word(step, checked):
    """What a kept degree that is left open stands for in the edition of the job."""
    if checked.edition == 1:
        return f'open ({MAX_DEGREE})'
    factors = step.values['a'], step.values['b']
    if max(factors) >= len(checked.results):
        return 'open (the larger degree of the two factors)'
    return f'open (the larger degree of the two factors, {max(checked.results[i].degree for i in factors)})'


def operand_word(kind, name, step, checked):
    """What stands for an operand in the words of its command."""
    value = step.values[name]
    if kind == 'interval':
        return f'{value.lower:,} to {value.upper:,}'
    return open_word(step, checked) if kind == 'kept' and value == DEFAULT_KEPT else value


def head(outcome, checked):
    """The command in words."""
    step = outcome.step
    made = f' makes result {outcome.result}' if outcome.result is not None else ''
    words = {name: operand_word(kind, name, step, checked) for kind, name in step.command.operands}
    return f'command {step.number}, byte {step.offset}: {step.command.words.format(**words)}{made}'


def block_line(name, m):
    what = 'loaded curve' if name == 'model' else name
    return (f'{what}: degree {m.degree}, weight {ar.weight(m.coefficients):,} of at most {LIMIT:,} '
            f'(values up to {plain(ar.weight(m.coefficients))})')


def passes(good):
    return 'passes' if good else 'FAILS'


def discriminant_line(n):
    """The last condition of the root test."""
    left, right = ar.discriminant(n)
    return (f'(S-m)² = {left:,}, must be at least 8·b·M = {right:,}: {passes(left >= right)} '
            f'({share(right, left) if left else "none"} used)')


def radius_lines(n):
    """The last condition of the tighter root test: at the least r and below it, or that there is none."""
    def at(r):
        left, right = ar.sides(n, r)
        return f'r = {r:,}: 2·M·r² + b·S² = {left:,}, (S-m)·S·r = {right:,}'
    r = ar.least_radius(n)
    if r is None:
        # The difference of the two sides is least at one of the two whole numbers about (S-m)·S/(4·M).
        v = (S - n['m']) * S // (4 * n['M'])
        yield f'2·M·r² + b·S² must be at most (S-m)·S·r for a whole r from 0 to S: {passes(False)}; it comes nearest at'
        yield from ('  ' + at(r) for r in sorted({min(v, S), min(v + 1, S)}))
        return
    yield 'the radius is the least whole r from 0 to S with 2·M·r² + b·S² at most (S-m)·S·r:'
    yield f'  {at(r)}: {passes(True)}'
    if r:
        yield f'  {at(r - 1)}: does not pass, nor does any r below it'


def other_line(n, tight):
    """What the other root test says of the same candidates."""
    name, end = (('the root test (0x21)', ar.by_discriminant) if tight else
                 ('the tighter root test (0x22)', ar.by_least_radius))
    try:
        radius = end(n)['radius']
    except Refused as refused:
        return f'{name} refuses the same candidates, with {refused.number}'
    return f'{name} accepts the same candidates, with radius {radius:,} ({in_micrometres(radius)})'


def test_lines(outcome):
    """The numbers of a test against their limits."""
    n, root = outcome.numbers, is_root(outcome.step)
    if not n:
        return
    inverse = '|1 - 2·w·h|' if root else '|1 - w·g|'
    yield (f'm = {n["m"]:,}, must be below S = {S:,}: {passes(n["m"] < S)} ({inverse} is at most '
           f'{share(n["m"], S)})')
    yield (f'N = {n["N"]:,}, must be at most {LIMIT:,}: {passes(n["N"] <= LIMIT)} '
           f'({"|h² - f|" if root else "|g·h - f|"} is at most {plain(n["N"])})')
    if 'b' not in n:
        return
    yield f'b = {n["b"]:,} (M, the weight of w, is {n["M"]:,})'
    if root:
        tight = is_tight(outcome.step)
        yield from radius_lines(n) if tight else [discriminant_line(n)]
        yield other_line(n, tight)


def dropped_lines(outcome, checked):
    """That a product dropped coefficients which another kept degree keeps, and what this costs."""
    m, values = outcome.model, outcome.step.values
    if 'kept' not in values or not m:
        return
    a, b = checked.results[values['a']], checked.results[values['b']]
    try:
        whole = ar.multiply(a, b, MAX_DEGREE)
    except Refused:
        return
    if whole.radius < m.radius:
        yield (f'the coefficients beyond T_{m.degree} were dropped into the radius; with kept degree {MAX_DEGREE} the degree is '
               f'{whole.degree} and the radius {whole.radius:,} ({in_micrometres(whole.radius)})')


def outcome_lines(outcome, checked):
    yield head(outcome, checked)
    for name, m in blocks_of(outcome.step):
        yield '    ' + block_line(name, m)
    for line in test_lines(outcome):
        yield '    ' + line
    m = outcome.model
    if is_load(outcome.step) and m:
        yield (f'    radius {m.radius:,} ({in_micrometres(m.radius)})'
               + (': taken as exact' if m.radius == 0 else ''))
    elif m:
        yield f'    degree {m.degree}, radius {m.radius:,} ({in_micrometres(m.radius)})'
    for line in dropped_lines(outcome, checked):
        yield '    ' + line
    if m and m.interval != STANDARD:
        yield f'    interval {interval_text(m.interval)}'
    if outcome.refusal:
        yield f'    REFUSED with {outcome.refusal}: {outcome.cause}'


def cover_lines(checked):
    """What the radius speaks of, and what it does not."""
    loads = covered.loads(checked.job)
    exact = [i for i, m in loads if m.radius == 0]
    yield ('The radii bound how far each result is from the exact operation on the LOADED curves, within '
           'the radius that each load states.')
    if exact:
        yield (f'Loaded with radius 0, so taken as exact: result{"s" if len(exact) > 1 else ""} '
               f'{covered.numbers_text(exact)}. If such a curve was rounded or cut from another, the '
               'difference is not covered by any radius here.')
    for line in covered.cautions(checked.job):
        yield 'CAUTION: ' + line + '.'
    ends = checked.last_results()
    yield from gouging_lines(gouge.findings(checked.job), ends)
    if checked.accepted and ends:
        worst = max(checked.results[i].radius for i in ends)
        yield (f'Results that no later command names: {covered.numbers_text(ends)}; their largest radius is '
               f'{worst:,} units = {in_micrometres(worst)}.')


def gouging_lines(found, ends):
    """Whether the paths of an accepted job turn back, and what was not looked at; `found` is what was found about them."""
    good, left = gouge.looked_at(found, ends)
    for line in good:
        yield (f'{line[0].upper()}{line[1:]}: forward along the margin at every point of the stretch (1 - r·κ > 0), shown in exact '
               'arithmetic for the polynomials of the loaded curves, without their radii.')
    for line in gouge.cautions(found):
        yield f'CAUTION: {line}.'
    if not found:
        yield ('Gouging was not looked at: no two results were recognised as margin + r·normal/|normal|, a path beside a '
               'margin.')
    else:
        if left:
            yield f'Not looked at for gouging: {covered.plural(left)}.'
        yield 'Other stretches, and parts of the margin that are not next to each other along it, were not looked at for gouging.'


def explanation(job, checked):
    for outcome in checked.outcomes:
        yield from outcome_lines(outcome, checked)
    if not checked.accepted and (not checked.outcomes or not checked.outcomes[-1].refusal):
        yield f'command {checked.command}, byte {checked.offset}:'
        yield f'    REFUSED with {checked.refusal}: {checked.cause}'
    yield ''
    if checked.accepted:
        yield 'What is covered'
        yield from ('    ' + line for line in cover_lines(checked))
    else:
        refusal = REFUSAL[checked.refusal]
        yield f'Refusal {refusal.number}: {refusal.meaning}. What to do: {refusal.advice}.'
        for line in covered.cautions(job, accepted=False):
            yield 'CAUTION: ' + line + '.'
    lines = list(dict.fromkeys(([] if checked.accepted else misread.causes(job, checked))
                               + misplaced.causes(job, checked) + misfit.causes(job, checked)))
    if lines:
        yield ''
        yield 'Likely mistakes (found by trying)'
        yield from ('    ' + line for line in lines)


def main(options):
    name = options.job
    try:
        job = program.read_job(name)
        checked = Checked(job)
        for line in explanation(job, checked):
            print(line)
        print()
        answer = program.run(program.find(options.jobcheck), job, name)
    except NotChecked as error:
        print(f'ferruntzo: {error}. Only jobcheck decides, and it has not.', file=sys.stderr)
        return 2
    if answer.text != checked.text():
        lines = zip_longest(answer.text.split('\n'), checked.text().split('\n'), fillvalue='')
        number, (said, own) = next((i, pair) for i, pair in enumerate(lines, 1) if pair[0] != pair[1])
        print(f'ferruntzo: {shown(name)}: line {number} of jobcheck is "{said}", of this explanation "{own}", so the '
              f'explanation is wrong or the program is not the one it was written for.{program.older(job, answer)} Do not mill.',
              file=sys.stderr)
        return 2
    last = answer.text.splitlines()[-1]
    print(f'This explains; jobcheck decides. It says "{last}", as explained.')
    return 0 if answer.accepted else 1
