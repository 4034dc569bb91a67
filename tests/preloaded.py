"""Small C libraries, which cc builds: preloaded into a program, they refuse or put off what it asks of the system."""
import os
import shutil
import subprocess
import tempfile
import unittest
from functools import cache
from pathlib import Path

from tests.support import TESTS

NO_COMPILER = "there is no C compiler cc: nothing is refused to the program"
needs_compiler = unittest.skipIf(shutil.which("cc") is None, NO_COMPILER)


@cache
def built():
    """The folder of the libraries that were built, which is removed when the tests end."""
    return tempfile.TemporaryDirectory(ignore_cleanup_errors=True)


@cache
def library(name):
    """The library of this name, built once."""
    made = Path(built().name) / f"{name}.so"
    subprocess.run(["cc", "-shared", "-fPIC", "-O2", "-o", made, TESTS / f"{name}.c", "-ldl"], check=True)
    return made


def preloading(name, **asked):
    """How a process is started with a library that reads these variables of its environment."""
    own = {"LD_PRELOAD": library(name), **asked}
    return {"env": {**os.environ, **{variable: str(value) for variable, value in own.items()}}}
