"""The tool of Ferruntzo: check, explain, report, convert, list, assemble, show and solve jobs."""

__version__ = '5.1.0'
