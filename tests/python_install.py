#!/usr/bin/env python3
"""How the Python package finds the shared library, what it says of a missing or a wrong one, its version, and pip without a network.
make install is tested by tool_package."""

import os
import re
import subprocess
import sys
import tempfile
import time
from ctypes.util import find_library
from pathlib import Path

import header

ROOT = Path(__file__).resolve().parent.parent
SHARED = ROOT / 'target' / 'staticlib' / 'libferruntzo.so'
sys.path.insert(0, str(ROOT / 'python'))

import ferruntzo as package
from ferruntzo import _library

VERSION = tuple(int(re.search(rf'define FERRUNTZO_VERSION_{part} (\d+)', header.HEADER.read_text())[1])
                for part in ('MAJOR', 'MINOR', 'PATCH'))
# What ASK says where all is well.
RIGHT = f'{VERSION} 3\n'


def expect(what, holds, detail=''):
    if not holds:
        sys.exit(f'python: {what}: {detail}')


def in_python(text, folder, **variables):
    """What a program says, run elsewhere."""
    run = subprocess.run([sys.executable, '-c', text], cwd='/', capture_output=True, text=True,
                         env={**os.environ, 'PYTHONPATH': str(folder), 'PYTHONDONTWRITEBYTECODE': '1', **variables})
    return run.stdout + run.stderr


ASK = 'import ferruntzo; print(ferruntzo.version(), ferruntzo.Model.constant(1).add(ferruntzo.Model.constant(2)).coefficients[0])'


def other_library(folder, version, answer, names=tuple(_library._FUNCTIONS)):
    """A library with these functions, of another version, or with another answer."""
    source = folder / 'other.c'
    source.write_text(''.join(f'unsigned ferruntzo_{name}(void) {{ return {version if name == "version" else answer}; }}\n'
                              for name in names))
    subprocess.run([os.environ.get('CC', 'gcc'), '-shared', '-fPIC', str(source), '-o', str(folder / 'other.so')], check=True)
    return str(folder / 'other.so')


def number(major, minor, patch=0):
    return 65536 * major + 256 * minor + patch


def finding(folder):
    expect('version', package.version() == VERSION == tuple(map(int, package.__version__.split('.')))
           and _library.number_of('version') == number(*VERSION), str(package.version()))
    alone = folder / 'alone'
    alone.mkdir()
    (alone / 'ferruntzo').symlink_to(ROOT / 'python' / 'ferruntzo')
    copied = folder / 'copied'
    copied.mkdir()
    subprocess.run(['cp', '-r', str(ROOT / 'python' / 'ferruntzo'), str(copied.joinpath('ferruntzo'))], check=True)
    spoken = {
        'in the repository': (alone, {}, RIGHT),
        'nowhere': (copied, {}, 'was not found'),
        'by the system': (copied, {'LD_LIBRARY_PATH': str(SHARED.parent)}, RIGHT),
        'by its name': (copied, {'FERRUNTZO_LIBRARY': str(SHARED)}, RIGHT),
        'by a wrong name': (alone, {'FERRUNTZO_LIBRARY': str(folder / 'missing.so')}, 'which cannot be loaded'),
        'an empty name': (alone, {'FERRUNTZO_LIBRARY': ''}, 'which cannot be loaded'),
        'no library': (alone, {'FERRUNTZO_LIBRARY': str(ROOT / 'README.md')}, 'which cannot be loaded'),
    }
    if find_library('ferruntzo') is not None:       # installed on this machine
        del spoken['nowhere']
    for name, place in spoken.items():
        check_spoken(name, *place)
    check_spoken('another library', alone, {'FERRUNTZO_LIBRARY': other_library(folder, 0, 0, ['add'])}, 'has no ferruntzo_')
    # Another first number, or a smaller second one; and the right ones with an answer that is no refusal.
    major, minor, _ = VERSION
    for version in (number(major - 1, 255), number(major, minor - 1, 255), number(major + 1, 0)):
        check_spoken(f'version {version}', alone, {'FERRUNTZO_LIBRARY': other_library(folder, version, 0)}, f'below {major + 1}.0.0 is needed')
    check_spoken('a later version', alone, {'FERRUNTZO_LIBRARY': other_library(folder, number(major, minor + 1), 0)}, f'({major}, {minor + 1}, 0) 0')
    check_spoken('answer 77', alone, {'FERRUNTZO_LIBRARY': other_library(folder, number(*VERSION), 77)}, 'ferruntzo_add answered 77')


def check_spoken(name, place, variables, wanted):
    said = in_python(ASK, place, **variables)
    # An error is one of the package, never a failure inside it.
    expect('finding the library', wanted in said and ('LibraryError' in said) != (wanted[0] == '('), f'{name}: {said}')


def pip(folder):
    """Installed without a network, it has the library in it and runs from any folder; without pip this is left out."""
    if subprocess.run([sys.executable, '-m', 'pip', '--version'], capture_output=True).returncode != 0:
        print('python: pip is not there; it is not tried')
        return
    install = [sys.executable, '-m', 'pip', 'install', '-q']
    offline = {**os.environ, 'PIP_NO_INDEX': '1', 'PIP_NO_CACHE_DIR': '1', 'PIP_DISABLE_PIP_VERSION_CHECK': '1'}
    for words in (['--no-build-isolation'], []):
        target = folder / f'target{len(words)}'
        run = subprocess.run([*install, str(ROOT / 'python'), *words, '--target', str(target)], capture_output=True, text=True, env=offline)
        expect('pip install', run.returncode == 0, run.stderr)
        expect('pip install', in_python(ASK, target) == RIGHT, in_python(ASK, target))
        expect('typed', (target / 'ferruntzo' / 'py.typed').exists())
    # Built where there is no library, the package says so at the first call.
    bare, target = folder / 'bare', folder / 'without'
    subprocess.run(['cp', '-r', str(ROOT / 'python'), str(bare)], check=True)
    run = subprocess.run([*install, str(bare), '--no-build-isolation', '--target', str(target)], capture_output=True, text=True, env=offline)
    expect('pip install', run.returncode == 0, run.stderr)
    check_spoken('installed without a library', target, {'FERRUNTZO_LIBRARY': str(SHARED)}, RIGHT)
    if find_library('ferruntzo') is None:
        check_spoken('installed without a library', target, {}, 'was not found')
    left = [path for path in (ROOT / 'python').rglob('*') if path.suffix in ('.egg-info', '.whl') or path.name == 'build']
    expect('pip leaves nothing in the repository', not left, str(left))


def main():
    began = time.perf_counter()
    for variable in ('FERRUNTZO_LIBRARY', 'LD_LIBRARY_PATH'):
        os.environ.pop(variable, None)
    with tempfile.TemporaryDirectory() as folder:
        finding(Path(folder))
        pip(Path(folder))
    print(f'python: the package finds its library and is installed without a network, {time.perf_counter() - began:.1f} s')


if __name__ == '__main__':
    main()
