"""Files that `assemble` writes whole: links, rights, streams, and what is forced onto the disk."""
import os
import shutil
import stat
import subprocess
import tempfile
import unittest
from pathlib import Path

from tests.support import needs

TOP = Path(__file__).resolve().parents[2]
PROGRAM = Path(os.environ.get("IBM1401", TOP / "crates/ibm1401/out/ibm1401")).absolute()
SECONDS = 300

SOURCE = "               ORG  400\n     START     H\n               NOP\n               END  START\n"


class WrittenWholeTest(unittest.TestCase):
    """A folder with a source; each output is compared with what goes to standard output without a name."""

    def setUp(self):
        made = tempfile.TemporaryDirectory()
        self.addCleanup(made.cleanup)
        self.folder = Path(made.name)
        (self.folder / "source").write_text(SOURCE)
        self.image = self.program().stdout
        self.assertTrue(self.image.startswith(b"IMAGE2 "))

    def program(self, *words, **how):
        """Assembles the source."""
        how = {"stdout": subprocess.PIPE, "stderr": subprocess.PIPE, **how}
        call = [PROGRAM, "assemble", "source", *words]
        return subprocess.run(call, cwd=self.folder, timeout=SECONDS, **how)

    def expect_written(self, name):
        """The image goes to this name without a word."""
        ran = self.program("-o", name)
        self.assertEqual((ran.returncode, ran.stdout, ran.stderr), (0, b"", b""))

    def test_a_link_to_no_file_stays_and_its_file_is_made(self):
        (self.folder / "inner").mkdir()
        for link, target in ("link", "made"), ("inner/link", "../made too"), ("far", self.folder / "inner/far made"):
            with self.subTest(link):
                (self.folder / link).symlink_to(target)
                self.expect_written(link)
                self.assertTrue((self.folder / link).is_symlink())
                self.assertEqual((self.folder / link).read_bytes(), self.image)

    def test_a_link_to_a_link_stays(self):
        (self.folder / "there").write_text("old")
        (self.folder / "link").symlink_to("there")
        (self.folder / "again").symlink_to("link")
        self.expect_written("again")
        self.assertEqual([os.readlink(self.folder / each) for each in ("again", "link")], ["link", "there"])
        self.assertEqual((self.folder / "there").read_bytes(), self.image)

    def test_links_that_go_round_are_refused(self):
        (self.folder / "round").symlink_to("round")
        ran = self.program("-o", "round")
        self.assertEqual((ran.returncode, ran.stderr), (1, b"ibm1401: cannot write round\n"))
        self.assertEqual(os.readlink(self.folder / "round"), "round")

    def test_the_mode_is_kept(self):
        there = self.folder / "there"
        there.write_text("old")
        there.chmod(0o640)
        self.expect_written("there")
        self.assertEqual(stat.S_IMODE(there.stat().st_mode), 0o640)
        self.assertEqual(there.read_bytes(), self.image)

    @unittest.skipIf(os.geteuid() != 0, "only root may give files away")
    def test_the_owner_and_the_group_are_kept(self):
        there = self.folder / "there"
        there.write_text("old")
        there.chmod(0o664)
        os.chown(there, 1_234, 4_321)
        self.expect_written("there")
        kept = there.stat()
        self.assertEqual((kept.st_uid, kept.st_gid, stat.S_IMODE(kept.st_mode)), (1_234, 4_321, 0o664))

    def test_standard_output_by_its_name_is_written_as_a_stream(self):
        for option, first in ("-o", b"IMAGE2 "), ("--deck", b","):
            with self.subTest(option):
                out = self.folder / "out"
                with out.open("wb") as file:
                    file.write(b"before\n")
                    file.flush()
                    ran = self.program(option, "/dev/stdout", stdout=file)
                    self.assertEqual((ran.returncode, ran.stderr), (0, b""))
                    file.seek(0, os.SEEK_END)
                    file.write(b"after\n")
                found = out.read_bytes()
                self.assertTrue(found.startswith(b"before\n") and found.endswith(b"after\n"), found)
                self.assertIn(first, found)

    def test_a_pipe_is_written_as_a_stream(self):
        pipe = self.folder / "pipe"
        os.mkfifo(pipe)
        held = os.open(pipe, os.O_RDWR)
        self.addCleanup(os.close, held)
        self.expect_written("pipe")
        self.assertEqual(os.read(held, 65_536), self.image)
        self.assertTrue(pipe.is_fifo())

    def test_nothing_is_left_next_to_a_file_that_is_written(self):
        self.expect_written("out")
        self.expect_written("out")
        self.assertEqual(sorted(each.name for each in self.folder.iterdir()), ["out", "source"])

    def test_a_file_system_that_is_read_only_is_not_written(self):
        """Neither a new file nor an old one."""
        for name, there in ("new", ""), ("old", '; echo old > "$1/old"'):
            with self.subTest(name):
                folder = self.folder / f"read only {name}"
                folder.mkdir()
                mounted = (f'mount -t tmpfs none "$1" 2> /dev/null || exit 77{there}; mount -o remount,ro "$1" || exit 77;'
                           f' "$0" assemble source -o "$1/{name}"; ended=$?; cat "$1/old" 2> /dev/null; exit $ended')
                words = ["unshare", "--mount", "sh", "-c", mounted, PROGRAM, folder]
                if not shutil.which("unshare"):
                    self.skipTest("there is no unshare")
                ran = subprocess.run(words, cwd=self.folder, capture_output=True, timeout=SECONDS, check=False)
                if ran.returncode == 77 or ran.stderr.startswith(b"unshare:"):
                    self.skipTest("nothing may be mounted here")
                self.assertEqual((ran.returncode, ran.stderr), (1, f"ibm1401: cannot write {folder}/{name}\n".encode()))
                self.assertEqual(ran.stdout, b"old\n" if there else b"")

    def preloaded(self, refused, *words):
        """A run with one sync refused: how it ended, and in which order it wrote and synced."""
        library, events = self.folder / "refuse_sync.so", self.folder / "events"
        if not library.exists():
            source = next(each for each in (TOP / "tests", TOP / "checks") if (each / "refuse_sync.c").exists())
            made = ["cc", "-shared", "-fPIC", "-O2", "-o", library, source / "refuse_sync.c"]
            subprocess.run(made, check=True, timeout=SECONDS)
        events.write_bytes(b"")
        more = {"LD_PRELOAD": str(library), "EVENTS_FILE": str(events), "REFUSED_SYNC": str(refused)}
        ran = self.program(*words, env={**os.environ, **more})
        return ran, events.read_bytes()

    @needs("cc")
    def test_the_file_and_then_its_folder_are_forced_onto_the_disk(self):
        ran, events = self.preloaded(0, "-o", "out")
        self.assertEqual((ran.returncode, ran.stderr, events), (0, b"", b"wff"))
        self.assertEqual((self.folder / "out").read_bytes(), self.image)

    @needs("cc")
    def test_a_file_that_is_not_forced_onto_the_disk_does_not_take_the_name(self):
        (self.folder / "out").write_text("old")
        ran, events = self.preloaded(1, "-o", "out")
        self.assertEqual((ran.returncode, ran.stderr, events), (1, b"ibm1401: cannot write out\n", b"wx"))
        self.assertEqual((self.folder / "out").read_text(), "old")
        self.assertEqual([each.name for each in self.folder.glob("*.part")], [])

    @needs("cc")
    def test_a_folder_that_is_not_forced_onto_the_disk_is_let_be(self):
        ran, events = self.preloaded(2, "-o", "out")
        self.assertEqual((ran.returncode, ran.stderr, events), (0, b"", b"wfx"))
        self.assertEqual((self.folder / "out").read_bytes(), self.image)


if __name__ == "__main__":
    unittest.main()
