"""show: one page about a job, without scripts, for screen and paper."""

import sys
from html import escape
from pathlib import Path

from . import __version__, covered, explain, gouge, program, svg
from .program import NotChecked, shown
from .reading import Checked
from .tables import REFUSAL, S, STANDARD, argument, in_micrometres, is_load

STYLE = '''
:root { color-scheme: light dark; --back: #fff; --text: #1a1a1a; --soft: #5c5c5c; --line: #d0d0d0; --curve: #0b5394;
  --band: #f0a53a; --limit: #b00020; --good: #1b6e2c; --bad: #b00020; --mark: #fff4d6; --warn: #8a5a00; }
@media (prefers-color-scheme: dark) {
  :root { --back: #16181b; --text: #e8e8e8; --soft: #a8a8a8; --line: #3c4046; --curve: #7db7f0; --band: #b87818;
    --limit: #ff8080; --good: #7fd191; --bad: #ff8f8f; --mark: #3a3013; --warn: #f0b860; }
}
@media print {
  :root { --back: #fff; --text: #000; --soft: #444; --line: #bbb; --curve: #0b5394; --band: #f0a53a; --limit: #b00020;
    --good: #1b6e2c; --bad: #b00020; --mark: #fff; --warn: #8a5a00; }
  body { max-width: none; font-size: 10pt; }
}
body { background: var(--back); color: var(--text); font: 16px/1.5 system-ui, sans-serif; max-width: 62rem;
  margin: 0 auto; padding: 1.5rem; }
h1 { font-size: 1.4rem; overflow-wrap: anywhere; }
h2 { font-size: 1.1rem; margin-top: 2rem; break-after: avoid; }
.verdict { font-size: 1.25rem; font-weight: 600; border-left: .4rem solid; padding: .4rem .9rem; margin: 1rem 0; }
.good { color: var(--good); } .bad { color: var(--bad); } .warn { color: var(--warn); }
.caution { background: var(--mark); border: 1px solid var(--band); padding: .5rem .9rem; }
table { border-collapse: collapse; width: 100%; font-variant-numeric: tabular-nums; }
th, td { text-align: right; padding: .2rem .6rem; border-bottom: 1px solid var(--line); }
th:nth-child(2), td:nth-child(2), th:last-child, td:last-child { text-align: left; }
tr.end td { font-weight: 600; }
.scroll { overflow-x: auto; }
figure { margin: 1.2rem 0; break-inside: avoid; } figcaption { margin-bottom: .3rem; }
.pair { display: grid; grid-template-columns: repeat(auto-fit, minmax(20rem, 1fr)); gap: .5rem 1rem;
  align-items: start; }
.path svg { max-width: 36rem; }
svg { width: 100%; height: auto; display: block; }
svg text { fill: var(--soft); font: 11px system-ui, sans-serif; }
.left { text-anchor: end; } .below { text-anchor: middle; }
svg .word { fill: var(--text); paint-order: stroke; stroke: var(--back); stroke-width: 4px; }
.frame { fill: none; stroke: var(--line); } .grid { stroke: var(--line); stroke-width: .5; }
.curve { fill: none; stroke: var(--curve); stroke-width: 1.8; } .dot { fill: var(--curve); }
.band { fill: var(--band); fill-opacity: .55; stroke: var(--band); stroke-width: .6; }
.limit { stroke: var(--limit); stroke-width: 1.4; stroke-dasharray: 6 4; }
pre { overflow-x: auto; border: 1px solid var(--line); padding: .8rem; font-size: .85rem; white-space: pre-wrap; }
footer { margin-top: 2.5rem; color: var(--soft); font-size: .85rem; border-top: 1px solid var(--line);
  padding-top: .6rem; }
'''


def paragraph(text, kind=''):
    return f'<p{f" class={chr(34)}{kind}{chr(34)}" if kind else ""}>{escape(text)}</p>'


def verdict_part(checked, cautions, options):
    if not checked.accepted:
        refusal = REFUSAL[checked.refusal]
        yield paragraph(f'Refused with {refusal.number} at command {checked.command}. Do not mill.', 'verdict bad')
        yield paragraph(f'{refusal.meaning[0].upper()}{refusal.meaning[1:]}. Nothing is vouched for, also not '
                        f'the results before that command. What to do: {refusal.advice}.')
        return
    ends = checked.last_results()
    if not ends:
        yield paragraph('Accepted, but there is no result to judge. Do not mill.', 'verdict bad')
        return
    worst = max(checked.results[i].radius for i in ends)
    limit = options.limit_um
    good = limit is None or worst * 1000 <= limit * S
    told = ('no limit was set' if limit is None else
            f'{"within" if good else "BEYOND"} the limit of {options.limit_text} µm')
    yield paragraph(f'Accepted: at most {in_micrometres(worst)} off the loaded curves, {told}.'
                    + (' Do not mill.' if not good else ' But read what is said below.' if cautions else ''),
                    f'verdict {"bad" if not good else "warn" if cautions else "good"}')
    yield paragraph(f'This is the largest radius of result{"s" if len(ends) > 1 else ""} '
                    f'{covered.numbers_text(ends)}, which no later command names. It holds at every fraction of the '
                    'stretch, not at sampled ones. It speaks of the curves that were loaded, within the radius that '
                    'each load states: what a solver rounded or cut before loading is covered only as far as '
                    'those radii say so.')


def table(checked, ends):
    # A job on the standard interval alone has no column for it.
    own = any(m.interval != STANDARD for m in checked.results)
    yield ('<div class="scroll"><table><thead><tr><th scope="col">result</th><th scope="col">made by</th>'
           + ('<th scope="col">x</th>' if own else '')
           + '<th scope="col">degree</th><th scope="col">radius, units</th><th scope="col">radius, µm</th>'
           '<th scope="col">remark</th></tr></thead><tbody>')
    suspects = {i for i, _, _ in covered.suspects(checked.job)}
    for outcome in checked.outcomes:
        i, m = outcome.result, outcome.model
        if i is None:
            continue
        words = 'load' if is_load(outcome.step) else explain.head(outcome, checked).split(': ', 1)[1].split(' makes ')[0]
        remarks = (['read this one'] if i in ends else []) + (['may have been cut'] if i in suspects else [])
        if is_load(outcome.step) and m.radius == 0:
            remarks.append('taken as exact')
        yield (f'<tr{" class=" + chr(34) + "end" + chr(34) if i in ends else ""}><td>{i}</td>'
               f'<td>{escape(words)}</td>'
               + (f'<td>{argument(m.interval.lower)}&#160;to&#160;{argument(m.interval.upper)}</td>' if own else '')
               + f'<td>{m.degree}</td><td>{m.radius:,}</td>'
               f'<td>{escape(in_micrometres(m.radius)[:-3])}</td><td>{escape(", ".join(remarks))}</td></tr>')
    yield '</tbody></table></div>'
    yield paragraph('A step that is not a length (a square, a quotient, a scaled normal) has its radius in thousandths of '
                    'its own unit.')


def figures(checked, ends, options):
    for i in ends + [i for i in range(len(checked.results)) if i not in ends]:
        m = checked.results[i]
        told = f'Result {i}: radius {in_micrometres(m.radius)}'
        yield (f'<figure id="result-{i}"><figcaption><strong>{escape(told)}</strong></figcaption>'
               '<div class="pair">'
               + svg.curve(m, f'Result {i} along the stretch, with its band', 'mm' if i in ends else 'value')
               + svg.strip(m, options.limit_um if i in ends else None,
                           f'The band of result {i} alone, in micrometres') + '</div></figure>')


def page(name, job, checked, options):
    """The whole page."""
    title = f'Job {name}'
    found = gouge.findings(job) if checked.accepted else []
    cautions = covered.cautions(job, checked.accepted) + gouge.cautions(found)
    body = [f'<h1>{escape(title)}</h1>', *verdict_part(checked, cautions, options)]
    body += [paragraph('CAUTION: ' + line + '.', 'caution') for line in cautions]
    if checked.accepted:
        ends = checked.last_results()
        body += [paragraph(line) for line in explain.gouging_lines(found, ends) if not line.startswith('CAUTION')]
        body += ['<h2>Results</h2>', *table(checked, ends)]
        if len(ends) == 2 and checked.results[ends[0]].interval != checked.results[ends[1]].interval:
            body.append(paragraph(f'Results {ends[0]} and {ends[1]} are on different intervals, so they are not drawn '
                                  'against each other.'))
        elif len(ends) == 2:
            body += ['<h2>The path</h2>', '<figure class="path"><figcaption>'
                     f'Results {ends[0]} and {ends[1]} against each other, in mm; its band is far thinner than the '
                     'line unless the radius is large.</figcaption>'
                     + svg.path(*(checked.results[i] for i in ends),
                                f'Results {ends[0]} and {ends[1]} against each other') + '</figure>']
        body += ['<h2>Each result with its band</h2>',
                 paragraph('Left, the curve with its band of plus and minus the radius; where the band is thinner '
                           'than the line, right, the band alone in micrometres. Dashed: the limit.')]
        body += figures(checked, ends, options)
    else:
        text = '\n'.join(explain.explanation(job, checked))
        body += ['<h2>Command by command</h2>', f'<pre>{escape(text)}</pre>']
    body.append(f'<footer>{len(job):,} bytes. The verdict is that of jobcheck; ferruntzo {__version__} drew the '
                'page. One unit is 2^-20 mm, about 0.00095 µm.</footer>')
    return ('<!DOCTYPE html>\n<html lang="en"><head><meta charset="utf-8"/>'
            '<meta name="viewport" content="width=device-width, initial-scale=1"/>'
            f'<title>{escape(title)}</title><style>{STYLE}</style></head>\n<body>'
            + '\n'.join(body) + '</body></html>\n')


def main(options):
    name = options.job
    try:
        job = program.read_job(name)
        answer = program.run(program.find(options.jobcheck), job, name)
        checked = Checked(job)
        if answer.text != checked.text():
            raise NotChecked(f'{shown(name)}: jobcheck and this tool differ; it may be of another version')
        # A file name may be no UTF-8.
        Path(options.output).write_text(page(shown(Path(name).name), job, checked, options), encoding='utf-8',
                                        errors='replace')
    except NotChecked as error:
        print(f'ferruntzo: {error}. No page was written.', file=sys.stderr)
        return 2
    except OSError as error:
        print(f'ferruntzo: {shown(options.output)}: cannot be written: {error.strerror}', file=sys.stderr)
        return 2
    return 0 if answer.accepted else 1
