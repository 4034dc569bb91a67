"""`--version`: name and version, and the record that a build writes after the program."""
import re
import shutil
import unittest

from releasing.proved import bare, with_record
from tests.support import PROGRAM, TOP, ProgramTest, program, run, shell

VERSION = "ibm1401 0.9.0\n"
WITHOUT = "built without a record of its commit\n"
COMMIT = "fa8404e6d35f10dd9f3e7b9cb8cd8ab1b5ba4c6f"


class Version(ProgramTest):
    """The built program, and copies of it with other records."""

    def copied(self, content):
        """A program with these bytes."""
        made = self.folder / "copied"
        made.write_bytes(content)
        made.chmod(0o755)
        return made

    def test_a_program_as_it_was_linked(self):
        for each in "--version", "-V":
            self.expect(each, run([self.copied(bare(PROGRAM.read_bytes())), each]), 0, VERSION + WITHOUT)

    def test_the_record_of_a_build(self):
        made = self.copied(with_record(PROGRAM.read_bytes(), COMMIT, "rattle-kit-13b logic dac8208d650f15bf"))
        record = f"commit {COMMIT}\nproved by rattle-kit-13b logic dac8208d650f15bf\n"
        self.expect("the record", run([made, "--version"]), 0, VERSION + record)
        self.expect("the program is the same", run([made, "console"], b"QUIT\n"), 0, "BYE\n")
        again = self.copied(with_record(made.read_bytes(), "unknown", "a toolchain"))
        record = "commit unknown\nproved by a toolchain\n"
        self.expect("another in its place", run([again, "--version"]), 0, VERSION + record)
        self.same("and nothing else", bare(again.read_bytes()), bare(PROGRAM.read_bytes()))

    def test_what_is_no_record(self):
        for name, after in ("another text", b"\0uncommitted\n"), ("no text", b"\0commit \xff\n"), ("nothing", b"\0"):
            made = self.copied(bare(PROGRAM.read_bytes()) + after)
            self.expect(name, run([made, "--version"]), 0, VERSION + WITHOUT)

    def test_the_program_under_test(self):
        """It says the commit, if the launcher or the gate has built it, and else that it has no record."""
        said = program("--version").stdout.decode()
        known = rf"{re.escape(VERSION)}(commit ([0-9a-f]{{40}}(, with changes)?|unknown)\nproved by \S.*\n|{WITHOUT})"
        self.check("what it says", "" if re.fullmatch(known, said) else said)

    def test_output_that_takes_nothing(self):
        self.expect("a full disk", shell('"$0" --version > /dev/full'), 1, "", "ibm1401: cannot write\n")
        self.expect("a closed output", shell('"$0" --version >&-'), 1, "", "ibm1401: cannot write\n")

    def test_it_is_alone(self):
        self.same("of a subcommand", program("console", "--version").returncode, 2)
        self.expect("first", program("--version", "console"), 0, "ibm1401 0.9.0\n...")

    def test_the_changelog_has_a_section_for_it(self):
        self.check("the section", "" if "\n## 0.9.0\n" in (TOP / "CHANGELOG.md").read_text() else "there is none")

    @unittest.skipIf(shutil.which("strip") is None, "there is no strip")
    def test_a_program_that_is_stripped(self):
        """What takes the symbols away takes the record too, and the program says so."""
        made = self.copied(with_record(PROGRAM.read_bytes(), COMMIT, "a toolchain"))
        run(["strip", made])
        self.expect("it", run([made, "--version"]), 0, VERSION + WITHOUT)


if __name__ == "__main__":
    unittest.main()
