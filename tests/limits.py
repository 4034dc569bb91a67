"""Bounds of memory for a process, where the system keeps them."""
import resource
import sys

from tests.support import run


def within(kilobytes):
    """What bounds a process's memory before it begins."""
    return lambda: resource.setrlimit(resource.RLIMIT_DATA, (kilobytes * 1024, kilobytes * 1024))


def bounds_memory(test):
    """Leaves a test out where the system doesn't keep a process to a bound of memory."""
    if run([sys.executable, "-c", "bytearray(1 << 28)"], preexec_fn=within(1 << 16)).returncode == 0:
        test.skipTest("this system doesn't bound a process's memory")
