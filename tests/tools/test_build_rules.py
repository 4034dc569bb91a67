"""What ./ibm1401 proves again: the rules that it writes for make, tried with a mock of the toolchain."""
import os
import shutil
import subprocess
import sys
import tempfile
import unittest
from pathlib import Path

sys.dont_write_bytecode = True
from tests.mock_toolchain import make_toolchain
from tests.support import needs

TOP = Path(__file__).resolve().parents[2]
SECONDS = 300

# A program over three libraries; two of them need nothing of each other.
CRATES = {"low": "", "left": " low", "right": " low thiserror", "ibm1401": " left right"}


@needs("make")
class BuildRules(unittest.TestCase):
    def setUp(self):
        folder = tempfile.TemporaryDirectory()
        self.addCleanup(folder.cleanup)
        self.room = Path(folder.name).resolve()
        for name in ("ibm1401", "Makefile", "tests/help.txt"):
            (self.room / name).parent.mkdir(exist_ok=True)
            shutil.copy(TOP / name, self.room / name)
        self.write_crates(CRATES)
        for name in CRATES:
            source = self.room / "crates" / name / "src" / ("main.rt" if name == "ibm1401" else "lib.rt")
            source.parent.mkdir(parents=True)
            source.write_text("//!\n")
        self.env = make_toolchain(self.room)

    def write_crates(self, crates):
        """Writes crates.txt."""
        (self.room / "crates.txt").write_text("".join(f"{name}:{below}\n" for name, below in crates.items()))

    def proved(self, words=("--build",), **environment):
        """The crates that a call proves, in order, once it has ended well, and what it writes to standard output."""
        (self.room / "calls").write_text("")
        ran = subprocess.run([self.room / "ibm1401", *words], env=self.env | environment, text=True,
                             stdin=subprocess.DEVNULL, capture_output=True, timeout=SECONDS, check=False)
        self.assertEqual(ran.returncode, 0, ran.stderr)
        return (self.room / "calls").read_text().split(), ran.stdout

    def test_build_proves_each_crate_once_after_those_below_it_and_runs_nothing(self):
        order, output = self.proved()
        self.assertEqual((sorted(order), order[0], order[-1], output), (sorted(CRATES), "low", "ibm1401", ""))
        self.assertEqual(self.proved(), ([], ""))
        self.assertEqual(self.proved(["run", "a deck"]), ([], "run a deck\n"))

    def test_the_longest_chain_begins_first(self):
        self.write_crates({"alone": "", **CRATES, "ibm1401": " alone left right"})
        (self.room / "crates/alone/src").mkdir(parents=True)
        (self.room / "crates/alone/src/lib.rt").write_text("//!\n")
        processors = os.sched_getaffinity(0)
        self.addCleanup(os.sched_setaffinity, 0, processors)
        os.sched_setaffinity(0, {min(processors)})
        self.assertEqual(self.proved()[0][0], "low")

    def test_a_program_that_was_removed_is_built_again(self):
        self.proved()
        (self.room / "crates/ibm1401/out/ibm1401").unlink()
        self.assertEqual(self.proved(), (["ibm1401"], ""))

    def test_rules_that_make_cannot_read_build_nothing(self):
        """An old program isn't taken for a new one."""
        self.proved()
        (self.room / "crates/left/src/lib.rt").write_text("// another\n")
        rules = (self.room / "Makefile").read_text()
        (self.room / "Makefile").write_text("no rule\n")
        ran = subprocess.run([self.room / "ibm1401", "run"], env=self.env, stdin=subprocess.DEVNULL, text=True,
                             capture_output=True, timeout=SECONDS, check=False)
        log = self.room / "crates/ibm1401/out/ibm1401.log"
        self.assertEqual((ran.returncode, ran.stdout), (1, ""))
        self.assertIn(f"ibm1401: the program wasn't built; what the prover said is in {log}\n", ran.stderr)
        self.assertIn("missing separator", log.read_text())
        (self.room / "Makefile").write_text(rules)
        self.assertEqual(self.proved()[0], ["left", "ibm1401"])

    def test_a_changed_source_takes_the_crates_above_it(self):
        self.proved()
        (self.room / "crates/left/src/lib.rt").write_text("// another\n")
        self.assertEqual(self.proved()[0], ["left", "ibm1401"])

    def test_a_new_file_of_a_crate_is_a_changed_source(self):
        self.proved()
        (self.room / "crates/right/proofs").mkdir()
        (self.room / "crates/right/proofs/Lib.antt").write_text("")
        self.assertEqual(self.proved()[0], ["right", "ibm1401"])

    def test_other_libraries_are_a_change_and_another_crate_is_none(self):
        self.proved()
        self.write_crates({"alone": "", **CRATES, "right": " low left"})
        self.assertEqual(self.proved()[0], ["right", "ibm1401"])

    def test_another_toolchain_proves_all_again(self):
        self.proved()
        (self.room / "crates/left/src/lib.rt").write_text("// another\n")
        self.assertEqual(sorted(self.proved(VERSION="two")[0]), sorted(CRATES))

    def test_a_source_that_changes_while_it_is_proved_is_proved_again(self):
        self.proved(CHANGED="right")
        self.assertEqual(self.proved()[0], ["right", "ibm1401"])
        self.assertEqual(self.proved()[0], [])


if __name__ == "__main__":
    unittest.main()
