"""Checks the worked examples of docs/FORMAT.md: their tables of offsets and bytes must give
examples/root_of_4.job and the first load of examples/machine_time.job, byte for byte."""

import re
import sys
from pathlib import Path

ROOT = Path(__file__).resolve().parent.parent
# Section, job, and the bytes of it that the section's table has.
WORKED = [('A worked example', 'root_of_4', slice(0, None)), ('When to use an interval', 'machine_time', slice(2, 148))]
ROW = re.compile(r'^\| *(\d+)(?:–(\d+))? *\| *`([0-9a-f ]+)`( repeated)? *\|')


def bytes_of_table(text, start):
    """The bytes that the rows of a worked example give; the first must start at an offset, each other
    where the last one ended."""
    job = bytearray()
    for line in text.splitlines():
        row = ROW.match(line)
        if row is None:
            continue
        first = int(row[1])
        last = int(row[2] or row[1])
        if first != start + len(job):
            sys.exit(f'FORMAT.md: a row starts at {first} instead of {start + len(job)}')
        given = bytes.fromhex(row[3])
        if row[4]:
            given *= (last - first + 1) // len(given)
        if len(given) != last - first + 1:
            sys.exit(f'FORMAT.md: the row at {first} has {len(given)} bytes')
        job += given
    return bytes(job)


def main():
    text = (ROOT / 'docs' / 'FORMAT.md').read_text()
    for name, job, part in WORKED:
        section = text.split(f'\n## {name}\n', 1)[1].split('\n## ', 1)[0]
        if bytes_of_table(section, part.start) != (ROOT / 'examples' / f'{job}.job').read_bytes()[part]:
            sys.exit(f'FORMAT.md: the table of "{name}" does not have the bytes of examples/{job}.job')


if __name__ == '__main__':
    main()
