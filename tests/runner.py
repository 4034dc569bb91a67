"""Runs the tests of modules and counts them: each subtest, and each test without one. Only failures are printed, and a
line for each module.

    python3 -m tests.runner [MODULE ..]    as: python3 -m tests.runner test_console test_docs

`python3 -m unittest -k WORD` runs single tests."""
import os
import queue
import re
import subprocess
import sys
import time
import unittest
from concurrent.futures import ThreadPoolExecutor, as_completed

from tests.support import FIRST_PORT, LAST_PORT, TESTS, TOP

# The modules, each in the folder of its theme.
MODULES = sorted(TESTS.glob("*/test_*.py"))
# The modules that take longest, which begin first: none is waited for alone at the end.
LONGEST = "test_browser", "test_running", "test_served_journals", "test_serving"
# The kind of a module's tests. Every other module tests the process: statuses, streams, files, sockets and pages.
KINDS = {
    "sessions as texts": ("test_sessions", "test_sittings"),
    "sources as texts": ("test_sources",),
    "tables of rows": ("test_arguments", "test_diagnostics", "test_fields", "test_own_decks", "test_page_requests",
                       "test_wider_language"),
    "refused allocations": ("test_calls", "test_growth", "test_growth_of_rooms", "test_memory"),
    "chance": ("test_chance",),
    "the documents": ("test_docs", "test_examples", "test_house_rules"),
    "the launcher": ("test_build_rules", "test_launcher", "test_launcher_help"),
}
PROCESS = "the process"


class Counts(unittest.TestResult):
    """How many subtests, and tests without one, passed and failed."""

    def __init__(self):
        super().__init__()
        self.passed = self.failed = self.parts = 0

    def startTest(self, test):
        super().startTest(test)
        self.parts = 0

    def addSubTest(self, test, subtest, err):
        super().addSubTest(test, subtest, err)
        self.parts += 1
        if err is None:
            self.passed += 1
        else:
            self.show("FAILED", subtest, self._exc_info_to_string(err, test))

    def addSuccess(self, test):
        super().addSuccess(test)
        self.passed += self.parts == 0

    def addFailure(self, test, err):
        super().addFailure(test, err)
        self.show("FAILED", test, self._exc_info_to_string(err, test))

    def addError(self, test, err):
        super().addError(test, err)
        self.show("FAILED", test, self._exc_info_to_string(err, test))

    def addUnexpectedSuccess(self, test):
        super().addUnexpectedSuccess(test)
        self.show("FAILED", test, "it succeeds, and wasn't expected to\n")

    def addSkip(self, test, reason):
        super().addSkip(test, reason)
        print(f"LEFT OUT  {test}: {reason}", flush=True)

    def show(self, word, test, text):
        """Counts a failure and prints it."""
        self.failed += 1
        print(f"{word}  {test}\n{text}", flush=True)


def count_module(name):
    """Runs the tests of a module in this process, and prints its line."""
    began, counts = time.monotonic(), Counts()
    folder = next((file.parent.name for file in MODULES if file.stem == name), "")
    unittest.defaultTestLoader.loadTestsFromName(f"tests.{folder}.{name}").run(counts)
    if counts.testsRun == 0 and not counts.errors:
        print(f"FAILED  {name} has no test", flush=True)
        counts.failed += 1
    took = time.monotonic() - began
    print(f"{name}: {counts.passed} passed, {counts.failed} failed, in {took:.0f} seconds", flush=True)


def bands_of_ports(many):
    """The ports to listen at, shared among so many modules at once."""
    bands, each = queue.SimpleQueue(), (LAST_PORT + 1 - FIRST_PORT) // many
    for first in range(FIRST_PORT, FIRST_PORT + many * each, each):
        bands.put(f"{first} {first + each - 1}")
    return bands


def run_module(name, bands):
    """Runs the tests of a module in a process of its own: what it printed, and how many passed and failed."""
    call = [sys.executable, "-m", "tests.runner", "--here", name]
    band = bands.get()
    ran = subprocess.run(call, cwd=TOP, env={**os.environ, "IBM1401_PORTS": band}, stdin=subprocess.DEVNULL,
                         stdout=subprocess.PIPE, stderr=subprocess.STDOUT)
    bands.put(band)
    text = ran.stdout.decode(errors="replace")
    counts = re.search(rf"^{name}: (\d+) passed, (\d+) failed, .*\n\Z", text, re.MULTILINE)
    if ran.returncode != 0 or counts is None:
        return f"{text}FAILED  {name} ended with status {ran.returncode}\n", 0, 1
    return text, int(counts[1]), int(counts[2])


def kind_of(name):
    """The kind of a module's tests."""
    return next((kind for kind, modules in KINDS.items() if name in modules), PROCESS)


def run_modules(names=()):
    """Runs modules, all of them where none is named, as many at once as there are processors: the counts, which are
    also printed for each kind."""
    names = list(names) or sorted(file.stem for file in MODULES)
    names.sort(key=lambda name: name not in LONGEST)
    counts = {}
    many = len(os.sched_getaffinity(0))
    bands = bands_of_ports(many)
    with ThreadPoolExecutor(many) as pool:
        running = {pool.submit(run_module, name, bands): kind_of(name) for name in names}
        for ended in as_completed(running):
            text, good, bad = ended.result()
            print(text, end="", flush=True)
            passed, failed = counts.get(running[ended], (0, 0))
            counts[running[ended]] = passed + good, failed + bad
    for kind, (passed, failed) in sorted(counts.items()):
        print(f"{kind}: {passed} passed, {failed} failed")
    return sum(passed for passed, _ in counts.values()), sum(failed for _, failed in counts.values())


def main(words):
    """Runs the modules that the command line names, and returns the status."""
    if words[:1] == ["--here"]:
        count_module(words[1])
        return 0
    passed, failed = run_modules(words)
    print(f"{passed} passed, {failed} failed")
    return 0 if failed == 0 else 1


if __name__ == "__main__":
    sys.exit(main(sys.argv[1:]))
