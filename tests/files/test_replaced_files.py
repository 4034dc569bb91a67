"""Files that are replaced: another file, a link or nothing is put in their place meanwhile. No file is written over that
wasn't read, or wasn't there when the writing began."""
import os
import subprocess
import unittest

from tests.peer import image
from tests.support import EXAMPLES, PROGRAM, SECONDS, ProgramTest, needs, program, wait_until
from tests.files.test_loaded_decks import HAND_PUNCHED
from tests.files.test_reel import between, codes

SOURCE = EXAMPLES / "five_and_five.source"
THEIRS = b"theirs\n"


class Replaced(ProgramTest):
    """A folder with a program that writes a record, a reel, and a file of somebody else's."""

    def setUp(self):
        names = ("program", "a.tap", "moved", "theirs", "a.tap.0.reel")
        self.program, self.reel, self.moved, self.theirs, self.copy = (self.folder / each for each in names)
        self.text = between(codes("ABC")) + between(codes("DE"))
        self.reel.write_bytes(self.text)
        self.theirs.write_bytes(THEIRS)
        self.program.write_text(image(100, {100: "~M%U1201W~.~.", 201: 'AB~"'}))
        self.written = between(codes("AB"))

    def link(self):
        """Puts a link to somebody else's file in the reel's place."""
        self.reel.rename(self.moved)
        self.reel.symlink_to(self.theirs)

    def file(self):
        """Puts somebody else's file there."""
        self.reel.rename(self.moved)
        self.theirs.rename(self.reel)
        self.theirs.write_bytes(THEIRS)

    def run_with(self, reel, meanwhile, *words):
        """Runs the program with this reel, and does something once the job has begun: its trace goes to a pipe, and it
        waits until that is read."""
        pipe, paper = self.folder / "pipe", self.folder / "paper"
        os.mkfifo(pipe)
        call = [PROGRAM, "run", self.program, "--tape", f"1={reel}:ring", *words, "--paper", paper, "--trace", pipe]
        with subprocess.Popen(call, stdout=subprocess.PIPE, stderr=subprocess.PIPE) as process:
            wait_until(paper.exists)
            meanwhile()
            pipe.read_bytes()
            out, error = process.communicate(timeout=SECONDS)
        for each in pipe, paper:
            each.unlink()
        return process.returncode, out, error.decode().splitlines()[-1]


class Reels(Replaced):
    """Reels with a ring."""

    def expect_beside(self, name, ran, reel, copy):
        """Subtests: the reel isn't written to the file of its name but to a new one next to it."""
        fault = f"ibm1401: {reel} is no longer the file that was read: its reel is in {copy}"
        self.same(name, ran, (1, b"", fault))
        self.holds(f"{name}: the reel", copy, self.written)
        self.holds(f"{name}: their file", self.theirs, THEIRS)
        self.same(f"{name}: nothing is left over", list(self.folder.glob("*.part")), [])

    def test_a_file_that_stays_is_written(self):
        ran = self.run_with(self.reel, lambda: None)
        self.same("its end", ran[:2], (0, b""))
        self.holds("the reel", self.reel, self.written)
        self.same("nothing is next to it", self.copy.exists(), False)

    def test_a_file_that_has_a_new_name_and_a_link(self):
        """By its own name, and by that of the link."""
        self.reel.rename(self.moved)
        self.reel.symlink_to(self.moved)
        ran = self.run_with(self.reel, lambda: None)
        self.same("its end", ran[:2], (0, b""))
        self.same("the link stays", self.reel.is_symlink(), True)
        self.holds("the reel", self.moved, self.written)

    def test_a_link_in_its_place(self):
        self.expect_beside("a link", self.run_with(self.reel, self.link), self.reel, self.copy)
        self.same("the link stays", os.readlink(self.reel), str(self.theirs))
        self.holds("the file that was read", self.moved, self.text)

    def test_another_file_in_its_place(self):
        self.expect_beside("a file", self.run_with(self.reel, self.file), self.reel, self.copy)
        self.holds("the file stays", self.reel, THEIRS)
        self.holds("the file that was read", self.moved, self.text)

    def test_a_file_that_is_gone(self):
        self.expect_beside("none", self.run_with(self.reel, self.reel.unlink), self.reel, self.copy)
        self.same("none is made of its name", self.reel.exists(), False)

    def test_a_link_that_leads_elsewhere(self):
        link = self.folder / "link"
        link.symlink_to(self.reel)

        def lead_elsewhere():
            link.unlink()
            link.symlink_to(self.theirs)

        self.expect_beside("a link", self.run_with(link, lead_elsewhere), link, self.folder / "link.0.reel")
        self.holds("the file that was read", self.reel, self.text)

    def test_a_name_next_to_it_that_is_taken(self):
        self.copy.write_bytes(THEIRS)
        ran = self.run_with(self.reel, self.link)
        self.expect_beside("the next one", ran, self.reel, self.folder / "a.tap.1.reel")
        self.holds("the first stays", self.copy, THEIRS)

    def test_no_name_next_to_it_that_is_free(self):
        for number in range(100):
            (self.folder / f"a.tap.{number}.reel").write_bytes(THEIRS)
        ran = self.run_with(self.reel, self.link)
        self.same("its end", ran, (1, b"", f"ibm1401: cannot write {self.reel}"))
        self.holds("their file", self.theirs, THEIRS)

    def test_the_other_reels_are_written(self):
        other = self.folder / "b.tap"
        other.write_bytes(self.text)
        before = other.stat().st_ino
        self.run_with(self.reel, self.link, "--tape", f"3={other}:ring")
        self.holds("it has its text", other, self.text)
        self.same("it is a new file", other.stat().st_ino != before, True)


class Outputs(Replaced):
    """What is written to files that aren't read."""

    def swapped(self, out, theirs, *words):
        """A call during which somebody else's file takes the name of a file that is about to be put there: how it ended."""
        library = self.folder / "refuse_sync.so"
        if not library.exists():
            made = ["cc", "-shared", "-fPIC", "-O2", "-o", library, self.top / "tests/refuse_sync.c"]
            subprocess.run(made, check=True, timeout=SECONDS)
        more = {"LD_PRELOAD": str(library), "SWAP_FROM": str(theirs), "SWAP_TO": str(out)}
        return program(*words, env={**os.environ, **more})

    def expect_let_be(self, *words):
        """Subtests: a call doesn't write over a file or a link that got the name of its output."""
        out, link = self.folder / "out", self.folder / "link"
        for before in "none", "old":
            for theirs in "a file", "a link":
                name = f"{words[-1]}: {before}, {theirs}"
                out.unlink(missing_ok=True)
                if before == "old":
                    out.write_text("old")
                if theirs == "a link":
                    link.symlink_to(self.theirs)
                else:
                    link.write_bytes(THEIRS)
                ran = self.swapped(out, link, *words, out)
                self.same(name, (ran.returncode, ran.stdout, ran.stderr), (1, b"", f"ibm1401: cannot write {out}\n".encode()))
                self.holds(f"{name}: what has the name", out, THEIRS)
                self.same(f"{name}: it is a link", out.is_symlink(), theirs == "a link")
                self.holds(f"{name}: their file", self.theirs, THEIRS)
                self.same(f"{name}: nothing is left over", list(self.folder.glob("*.part")), [])

    @needs("cc")
    def test_an_image_and_a_deck(self):
        self.expect_let_be("assemble", SOURCE, "-o")
        self.expect_let_be("assemble", SOURCE, "--deck")

    @needs("cc")
    def test_the_image_of_a_deck_that_is_run(self):
        deck = self.folder / "deck"
        deck.write_text(HAND_PUNCHED)
        self.expect_let_be("run", "--load", deck, "--image")

    @needs("cc")
    def test_the_deck_of_a_reel_and_the_reel_of_a_deck(self):
        self.expect_let_be("reel", self.reel, "--deck")
        deck = self.folder / "deck"
        deck.write_text("A CARD\n")
        self.expect_let_be("reel", "--from-deck", deck, "-o")

    def test_what_a_run_writes_as_it_goes_on(self):
        """The names are followed once, when the job begins. The trace goes to a pipe, and the run waits for it."""
        source, pipe = self.folder / "source", self.folder / "pipe"
        source.write_text("               ORG  400\n     START     MCW  @AN ANSWER@,209\n               W\n               P\n"
                          "               H\n               NOP\n               END  START\n")
        os.mkfifo(pipe)
        names = {option: self.folder / option for option in ("paper", "punch")}
        words = [word for option, file in names.items() for word in (f"--{option}", file)]
        with subprocess.Popen([PROGRAM, "run", source, *words, "--trace", pipe], stderr=subprocess.PIPE) as process:
            wait_until(lambda: all(each.exists() for each in names.values()))
            for each in names.values():
                each.rename(self.folder / f"{each.name} moved")
                each.symlink_to(self.theirs)
            self.check("a trace", "" if pipe.read_bytes() else "it is empty")
            process.communicate(timeout=SECONDS)
        self.same("its end", process.returncode, 0)
        self.holds("their file", self.theirs, THEIRS)
        self.check("the paper", "" if b"AN ANSWER" in (self.folder / "paper moved").read_bytes() else "it isn't there")


class LongNames(Replaced):
    """The longest names that files have, in bytes."""

    def test_what_is_written_whole(self):
        for length in 246, 247, 248, 249, 250, 255:
            for letters in "n" * length, "ä" * (length // 2) + "n" * (length % 2):
                name = self.folder / letters
                for words in ["assemble", SOURCE, "-o", name], ["assemble", SOURCE, "--deck", name]:
                    self.expect(f"{words[-2]} of {length}", program(*words))
                    self.expect(f"{words[-2]} of {length} again", program(*words))
                name.write_bytes(self.text)
                ran = program("run", self.program, "--tape", f"1={name}:ring")
                self.same(f"a reel of {length}", (ran.returncode, name.read_bytes()), (0, self.written))
                name.unlink()
                ran = program("run", self.program, "--tape", f"1={name}:new")
                self.same(f"a new reel of {length}", (ran.returncode, name.read_bytes()), (0, self.written))
                name.unlink()
        self.same("nothing is left over", list(self.folder.glob("*.part")), [])

    def test_a_longer_one_is_refused(self):
        name = self.folder / ("n" * 256)
        error = f"ibm1401: cannot write {name}\n"
        for words in ["assemble", SOURCE, "-o", name], ["assemble", SOURCE, "--deck", name]:
            self.expect(f"{words[-2]}", program(*words), 1, "", error)
        self.expect("a new reel", program("run", self.program, "--tape", f"1={name}:new"), 1, "", error)

    def test_a_reel_next_to_the_longest(self):
        """Its name is one of its own."""
        name, copy = self.folder / ("n" * 255), self.folder / "ibm1401.0.reel"
        name.write_bytes(self.text)
        ran = self.run_with(name, name.unlink)
        fault = f"ibm1401: {name} is no longer the file that was read: its reel is in {copy}"
        self.same("its end", ran, (1, b"", fault))
        self.holds("the reel", copy, self.written)


if __name__ == "__main__":
    unittest.main()
