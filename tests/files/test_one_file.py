"""Two names of one call that lead to one file: the call is refused before anything is run or written."""
import os
import subprocess
import tempfile
import unittest
from pathlib import Path

TOP = Path(__file__).resolve().parents[2]
PROGRAM = Path(os.environ.get("IBM1401", TOP / "crates/ibm1401/out/ibm1401")).absolute()
SECONDS = 300

# Prints a line and halts.
SOURCE = "               ORG  400\n     START     W\n               H\n               NOP\n               END  START\n"
IMAGE = b"IMAGE2 "
DECK = "A CARD\n"


class OneFileTest(unittest.TestCase):
    """A folder with a source, a deck, and names that lead to one file in several ways."""

    def setUp(self):
        made = tempfile.TemporaryDirectory()
        self.addCleanup(made.cleanup)
        self.folder = Path(made.name)
        (self.folder / "source").write_text(SOURCE)
        (self.folder / "deck").write_text(DECK)
        (self.folder / "there").write_text("as it was")
        (self.folder / "link").symlink_to("there")
        os.link(self.folder / "there", self.folder / "hard")
        (self.folder / "dangling").symlink_to("new")
        (self.folder / "inner").mkdir()
        (self.folder / "inner/other").symlink_to("../new")
        (self.folder / "way").symlink_to(".")

    def program(self, *words, **how):
        """Runs the program in the folder."""
        return subprocess.run([PROGRAM, *words], cwd=self.folder, capture_output=True, timeout=SECONDS, **how)

    def names(self):
        """The folder's names, and what the files have."""
        return {each.name: each.read_bytes() for each in self.folder.iterdir() if each.is_file()}

    def expect_refused(self, first, second, *words):
        """The call is refused for these two names, and nothing is made or changed."""
        before = self.names()
        ran = self.program(*words)
        wanted = f"ibm1401: {first} and {second} are one file\n".encode()
        self.assertEqual((ran.returncode, ran.stdout, ran.stderr), (2, b"", wanted), words)
        self.assertEqual(self.names(), before, words)

    def test_two_outputs_of_a_run_that_are_one_file_are_refused(self):
        for first, second in [
            ("new", "new"),
            ("new", "./new"),
            ("new", "dangling"),
            ("inner/other", "new"),
            ("inner/../new", "way/new"),
            ("there", "there"),
            ("there", "link"),
            ("hard", "there"),
        ]:
            for one, other in ("--paper", "--trace"), ("--paper", "--punch"), ("--punch", "--trace"):
                with self.subTest(f"{one} {first} {other} {second}"):
                    self.expect_refused(first, second, "run", "source", one, first, other, second)

    def test_an_output_that_is_an_input_of_a_run_is_refused(self):
        for option in "--paper", "--punch", "--trace":
            with self.subTest(option):
                self.expect_refused("source", "./source", "run", "source", option, "./source")
                self.expect_refused("deck", "way/deck", "run", "source", "--cards", "deck", option, "way/deck")

    def test_an_image_and_a_deck_in_one_file_are_refused(self):
        self.expect_refused("same", "./same", "assemble", "source", "-o", "same", "--deck", "./same")
        self.expect_refused("there", "hard", "assemble", "source", "-o", "there", "--deck", "hard")

    def test_an_image_in_place_of_its_source_is_refused(self):
        self.expect_refused("source", "way/source", "assemble", "source", "-o", "way/source")
        self.expect_refused("source", "source", "assemble", "source", "--deck", "source")

    def test_a_size_that_no_machine_has_is_refused_first(self):
        ran = self.program("run", "source", "--size", "1401", "--paper", "new", "--trace", "new")
        self.assertEqual((ran.returncode, ran.stderr), (1, b"ibm1401: size refused\n"))

    def test_names_that_differ_are_written(self):
        (self.folder / "inner/there").write_text("another")
        ran = self.program("run", "source", "--paper", "inner/there", "--trace", "there", "--punch", "new")
        self.assertEqual(ran.returncode, 0, ran.stderr)
        self.assertEqual((self.folder / "inner/there").read_bytes(), b"\n")
        self.assertIn(b"HALT", (self.folder / "there").read_bytes())
        ran = self.program("assemble", "source", "-o", "image", "--deck", "inner/image")
        self.assertEqual((ran.returncode, ran.stderr), (0, b""))
        self.assertTrue((self.folder / "image").read_bytes().startswith(IMAGE))

    def test_a_device_may_be_named_twice(self):
        ran = self.program("run", "source", "--paper", "/dev/null", "--trace", "/dev/null", "--punch", "/dev/null")
        self.assertEqual(ran.returncode, 0, ran.stderr)
        ran = self.program("assemble", "source", "-o", "/dev/null", "--deck", "/dev/./null")
        self.assertEqual((ran.returncode, ran.stderr), (0, b""))

    def test_a_pipe_may_be_named_twice(self):
        pipe = self.folder / "pipe"
        os.mkfifo(pipe)
        # A reader who keeps the pipe open while both writers come and go.
        held = os.open(pipe, os.O_RDWR)
        self.addCleanup(os.close, held)
        ran = self.program("run", "source", "--paper", "pipe", "--trace", "pipe")
        self.assertEqual(ran.returncode, 0, ran.stderr)
        self.assertIn(b"HALT", os.read(held, 65_536))


if __name__ == "__main__":
    unittest.main()
