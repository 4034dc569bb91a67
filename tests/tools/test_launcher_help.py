"""The launcher in a fresh clone: help is there at once, as the program has it, and nothing is proved for it."""
import os
import re
import shutil
import subprocess
import sys
import tempfile
import unittest
from pathlib import Path

sys.dont_write_bytecode = True
from tests.support import needs

TOP = Path(__file__).resolve().parents[2]
PROGRAM = Path(os.environ.get("IBM1401", TOP / "crates/ibm1401/out/ibm1401"))
COMMANDS = ["console", "assemble", "load", "disassemble", "reel", "run", "operate", "serve", "journal", "resume"]
HELP = [["--help"], ["-h"], ["help"]]
# The most processor time that an answer takes: a proof takes minutes.
AT_ONCE = 10
HELP += [words for name in COMMANDS for words in ([name, "--help"], [name, "-h"], ["help", name])]


def said(program, words):
    """The status of a call, and what it writes, with the name by which the program was called replaced."""
    ran = subprocess.run([program, *words], stdin=subprocess.DEVNULL, capture_output=True, text=True, check=False)
    called = re.escape(Path(program).name)
    return ran.returncode, *(re.sub(rf"^Usage: {called}", "Usage: ibm1401", text, flags=re.MULTILINE)
                             for text in (ran.stdout, ran.stderr))


class FreshClone(unittest.TestCase):
    """A folder with what the launcher reads, in which nothing is built, and a toolchain that notes each call of it."""

    def setUp(self):
        folder = tempfile.TemporaryDirectory()
        self.addCleanup(folder.cleanup)
        self.room = Path(folder.name)
        for name in ("ibm1401", "crates.txt", "tests/help.txt", "crates/program_arguments/src/reading.rt"):
            (self.room / name).parent.mkdir(parents=True, exist_ok=True)
            shutil.copy(TOP / name, self.room / name)
        (self.room / "bin").mkdir()
        (self.room / "bin/rt").write_text(f"#!/bin/sh\necho \"$@\" >> {self.room}/called\nexit 1\n")
        (self.room / "bin/rt").chmod(0o755)

    def launch(self, words):
        """What the launcher says, and the processor time that it takes."""
        with tempfile.TemporaryFile() as output, tempfile.TemporaryFile() as error:
            environment = {**os.environ, "PATH": f"{self.room}/bin:{os.environ['PATH']}"}
            process = subprocess.Popen([self.room / "ibm1401", *words], stdin=subprocess.DEVNULL, stdout=output,
                                       stderr=error, env=environment)
            _, status, used = os.wait4(process.pid, 0)
            process.returncode = os.waitstatus_to_exitcode(status)
            texts = []
            for file in output, error:
                file.seek(0)
                texts.append(file.read().decode())
            return (process.returncode, *texts), used.ru_utime + used.ru_stime

    def test_help_is_answered_as_by_the_program_and_at_once(self):
        for words in HELP:
            with self.subTest(" ".join(words)):
                answered, seconds = self.launch(words)
                self.assertEqual(answered, said(PROGRAM, words))
                self.assertLess(seconds, AT_ONCE)
        self.assertFalse((self.room / "called").exists(), "the toolchain was called")

    def test_the_version_is_answered_with_the_program_s_first_line_and_at_once(self):
        for words in [["--version"], ["-V"]]:
            with self.subTest(words[0]):
                answered, seconds = self.launch(words)
                first = said(PROGRAM, words)[1].splitlines()[0]
                self.assertEqual(answered, (0, f"{first}\nnot proved and built here yet\n", ""))
                self.assertLess(seconds, AT_ONCE)
        self.assertFalse((self.room / "called").exists(), "the toolchain was called")

    @needs("make")
    def test_any_other_call_needs_the_program(self):
        for words in [[], ["help", "nothing"], ["run", "help"], ["console", "--size", "--help"], ["--help", "console"]]:
            with self.subTest(" ".join(words)):
                self.launch(words)
                self.assertTrue((self.room / "called").exists(), "the toolchain wasn't called")
                (self.room / "called").unlink(missing_ok=True)


if __name__ == "__main__":
    unittest.main()
