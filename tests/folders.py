"""Where things are: the repository, the folders of its tests, from which any test can import, and a folder for the files of a test."""

import os
import sys
import tempfile
from pathlib import Path

TESTS = Path(__file__).resolve().parent
ROOT = TESTS.parent
FIXTURES = TESTS / "fixtures"
OF_SCRIPTS = [TESTS / name for name in ("outside", "random", "programs", "repository")]
# After all else, so that no name of ours hides one of Python's.
sys.path += [str(folder) for folder in OF_SCRIPTS]


def folder_in_memory():
    """A folder that is gone after the test: in memory, where there is such a place, since a sync of a disk would take most of the time."""
    return tempfile.TemporaryDirectory(dir="/dev/shm" if os.path.isdir("/dev/shm") else None)
