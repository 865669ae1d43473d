"""Builds the package for pip with the standard library alone (PEP 517): setuptools needs a second package to make a wheel, which a
computer without a network may not have.

The wheel has libferruntzo.so in it if scripts/build_library has built it, and is then for Linux on x86-64; otherwise the library is
looked for when it is first called.
"""

import base64
import hashlib
import re
import sys
import zipfile
from pathlib import Path

HERE = Path(__file__).resolve().parent
PACKAGE = HERE / 'ferruntzo'


def _project():
    """The texts of pyproject.toml; Python has no reader of its own for that before 3.11."""
    return dict(re.findall(r'^([\w-]+) = "(.*)"$', (HERE / 'pyproject.toml').read_text(), re.M))


def _version():
    return _project()['version']


def _library():
    """The shared library of this version, or None."""
    found = HERE.parent / 'target' / 'staticlib' / f'libferruntzo.so.{_version()}'
    return found if found.is_file() else None


def _metadata():
    project = _project()
    return (f'Metadata-Version: 2.1\nName: {project["name"]}\nVersion: {project["version"]}\nSummary: {project["description"]}\n'
            f'Requires-Python: {project["requires-python"]}\nDescription-Content-Type: text/markdown\n\n'
            f'{(HERE / project["readme"]).read_text()}')


def _wheel(tag):
    return f'Wheel-Version: 1.0\nGenerator: ferruntzo\nRoot-Is-Purelib: {str(tag == "py3-none-any").lower()}\nTag: {tag}\n'


def _write(wheel_directory, tag, files):
    """A wheel with these files, by their names in it."""
    info = f'ferruntzo-{_version()}.dist-info'
    files = {**files, f'{info}/METADATA': _metadata().encode(), f'{info}/WHEEL': _wheel(tag).encode()}
    record = [f'{info}/RECORD,,']
    name = f'ferruntzo-{_version()}-{tag}.whl'
    with zipfile.ZipFile(Path(wheel_directory) / name, 'w', zipfile.ZIP_DEFLATED) as wheel:
        for path, content in files.items():
            digest = base64.urlsafe_b64encode(hashlib.sha256(content).digest()).rstrip(b'=').decode()
            record.append(f'{path},sha256={digest},{len(content)}')
            # One date for all, so that the same files give the same wheel.
            wheel.writestr(zipfile.ZipInfo(path, (2020, 1, 1, 0, 0, 0)), content)
        wheel.writestr(zipfile.ZipInfo(f'{info}/RECORD', (2020, 1, 1, 0, 0, 0)), '\n'.join(record) + '\n')
    return name


def build_wheel(wheel_directory, config_settings=None, metadata_directory=None):
    files = {f'ferruntzo/{path.name}': path.read_bytes() for path in sorted(PACKAGE.iterdir())
             if path.suffix == '.py' or path.name == 'py.typed'}
    library = _library()
    if library is None:
        print(f'ferruntzo: no {HERE.parent}/target/staticlib/libferruntzo.so.{_version()}; the package is built without it',
              file=sys.stderr)
        return _write(wheel_directory, 'py3-none-any', files)
    files[f'ferruntzo/libferruntzo.so.{_version().split(".")[0]}'] = library.read_bytes()
    return _write(wheel_directory, 'py3-none-linux_x86_64', files)


def build_editable(wheel_directory, config_settings=None, metadata_directory=None):
    """pip install --editable: the package is used where it stands."""
    return _write(wheel_directory, 'py3-none-any', {'ferruntzo.pth': f'{HERE}\n'.encode()})


def build_sdist(sdist_directory, config_settings=None):
    raise NotImplementedError('the package is built in the repository, which has the library')
