#!/usr/bin/env python3
"""The papers name files and edits that are there: every path in backquotes that begins with a folder of the repository, and every
must-fail edit that docs/ENTRIES.md names; and ENTRIES names every edit. A definitions file bears the name of a src file of its crate
or is in the list of docs/DECISIONS.md, "Names of files". PROMISES names every field of crates/promises. ENTRIES prints what examples/integrate_quotient.c prints."""
import pathlib
import re
import sys

ROOT = pathlib.Path(__file__).resolve().parent.parent
PAPERS = [*ROOT.glob('*.md'), *ROOT.glob('docs/*.md'), *ROOT.glob('docs/changes/*.md')]
FOLDERS = {p.name for p in ROOT.iterdir() if p.is_dir() and not p.name.startswith('.git')} - {'target'}
edits = {p.stem for folder in ('must-fail', 'more-edits') for p in ROOT.glob(f'crates/*/{folder}/*.edit')}


def there(path):
    pattern = re.sub(r'\b(NAME|CRATE|FUNCTION|PATH)\b', '*', path.rstrip('/'))
    return any(True for _ in ROOT.glob(pattern)) or any(True for _ in ROOT.glob(pattern.replace('/*/*/', '/**/')))


wrong, seen = [], 0
for paper in PAPERS:
    for token in re.findall(r'`([^`\n]+)`', paper.read_text()):
        path = re.split(r'[ :#]', token)[0]
        # 'S-NN' stands for a note to come
        if path.split('/')[0] in FOLDERS and '/' in path and 'NN' not in path and re.fullmatch(r'[\w./*+-]+', path):
            seen += 1
            if not there(path):
                wrong.append(f'{paper.relative_to(ROOT)}: {path} is not there')
entries = (ROOT / 'docs' / 'ENTRIES.md').read_text()
printed = (ROOT / 'examples' / 'integrate_quotient.expected').read_text()
if ''.join(f'    {line}\n' for line in printed.splitlines()) not in entries:
    wrong.append('docs/ENTRIES.md: not what examples/integrate_quotient.c prints')
named = set(re.findall(r'`([a-z0-9]+(?:_[a-z0-9]+)+)`', entries))
for name in sorted(edits - named):
    wrong.append(f'docs/ENTRIES.md does not name the edit {name}')
functions = {n for p in ROOT.glob('crates/*/src/**/*.rt') for n in re.findall(r'\bfn (\w+)', p.read_text())}
# definitions, theorems and fields: what stands before a colon
declared = {n for p in [*ROOT.glob('crates/*/specs/**/*.antt'), *ROOT.glob('crates/*/proofs/**/*.antt')]
            for names in re.findall(r'^\s*(?:abbrev |unfoldable )?(?:pub )?(?:data |record )?([^\s:(){}]+(?: [^\s:(){}]+)*)(?: [({].*)? :', p.read_text(), re.M)
            for n in names.split()}
for name in sorted(named - edits - functions - declared):
    wrong.append(f'docs/ENTRIES.md names {name}, which is no edit, no function and no definition')
listed = {}
crate = None
for name in re.findall(r'`(\w+)`', (ROOT / 'docs' / 'DECISIONS.md').read_text().split('## Names of files')[1].split('These are')[1].split('\n## ')[0]):
    crate = name if (ROOT / 'crates' / name).is_dir() else crate
    listed.setdefault(crate, set()).add(name)
for path in sorted(ROOT.glob('crates/*/specs/definitions/*.antt')):
    crate = path.relative_to(ROOT / 'crates').parts[0]
    by_file = (ROOT / 'crates' / crate / 'src' / f'{path.stem[0].lower()}{path.stem[1:]}.rt').exists()
    if by_file == (path.stem in listed.get(crate, set())):
        wrong.append(f'docs/DECISIONS.md, "Names of files": {path.relative_to(ROOT)} ' + ('has a src file and is listed' if by_file else 'is not listed'))
for crate, found in listed.items():
    wrong += [f'docs/DECISIONS.md, "Names of files": {crate} has no {name}' for name in sorted(found - {crate})
              if not (ROOT / 'crates' / crate / 'specs' / 'definitions' / f'{name}.antt').exists()]
promises = (ROOT / 'docs' / 'PROMISES.md').read_text()
fields = {n for p in ROOT.glob('crates/promises/specs/definitions/*.antt') for n in re.findall(r'^\s+pub ([^\s:{]+) :', p.read_text(), re.M)}
inner = set(re.findall(r'^  pub ([^\s:]+) :', (ROOT / 'crates/promises/specs/definitions/Promises.antt').read_text(), re.M))
hypotheses = {'enough', 'good_f', 'good_g', 'good_h', 'good_w', 'same', 'twelve_rounds', 'finite_making', 'in_units', 'no_rounding'}
for name in sorted(fields - inner - hypotheses):
    if f'`{name}`' not in promises:
        wrong.append(f'docs/PROMISES.md does not name the field {name} of crates/promises')
print(f'papers: {seen} paths, {len(edits)} edits, {len(wrong)} wrong')
print('\n'.join(wrong))
sys.exit(1 if wrong else 0)
