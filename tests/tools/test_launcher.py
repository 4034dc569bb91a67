"""The launcher: what it runs, and how it proves and builds what isn't built, with a mock of the toolchain."""
import json
import os
import re
import select
import shutil
import signal
import subprocess
import unittest

from releasing import released
from releasing.package import compressed, write_tar
from releasing.proved import Refused, checksum, note_of, sources
from tests.mock_toolchain import VERSION, make_toolchain
from tests.support import (
    LAUNCHER, PROGRAM, REPLY_SECONDS, SECONDS, TOP, ProgramTest, needs, repository, run, wait_until,
)

# The signals that interrupt a launcher.
INTERRUPTIONS = (signal.SIGINT, signal.SIGTERM, signal.SIGHUP)
PIPES = {"stdin": subprocess.DEVNULL, "stdout": subprocess.PIPE, "stderr": subprocess.PIPE}


def below():
    """The crates that each crate depends on, lowest crate first."""
    lines = re.findall(r"^(\w+)[^:\n]*:(.*)", (TOP / "crates.txt").read_text(), re.MULTILINE)
    return {name: words.split() for name, words in lines}


BELOW = below()


def needed_for(program):
    """The program and the crates that it depends on, lowest first."""
    needed = {program}
    for name in reversed(BELOW):
        needed |= set(BELOW[name]) if name in needed else set()
    return [name for name in BELOW if name in needed]


def above(crate, names):
    """The crate, and those of these names that depend on it."""
    found = {crate}
    for name in names:
        found |= {name} if found & {*BELOW[name]} else set()
    return found


def hear_interruptions():
    """Has a process hear these signals, also where the tests ignore them, as under nohup."""
    for each in INTERRUPTIONS:
        signal.signal(each, signal.SIG_DFL)


@unittest.skipIf("IBM1401" in os.environ or not PROGRAM.exists(), "the program isn't built, or is another")
class Launched(ProgramTest):
    """The launcher where the program is built."""

    def test_through_symbolic_links(self):
        link, chained = self.folder / "machine", self.folder / "chained"
        link.symlink_to(LAUNCHER)
        chained.symlink_to("machine")
        for each in link, chained:
            self.expect(each.name, run([each, "console"], b"QUIT\n", cwd=self.folder), 0, "BYE\n")

    def test_its_status_is_the_program_s(self):
        self.expect("it", run([LAUNCHER, "console", "--bad"]), 2, "", "error: ...")


@needs("make")
class Building(ProgramTest):
    """The launcher in a folder of its own, with crates whose sources are of one size and a toolchain that proves
    nothing."""

    def setUp(self):
        for name in BELOW:
            is_program = (TOP / "crates" / name / "src/main.rt").exists()
            (self.folder / "crates" / name / "src").mkdir(parents=True)
            (self.folder / "crates" / name / "src" / ("main.rt" if is_program else "lib.rt")).write_text("//!\n")
        (self.folder / "tests").mkdir()
        for file in ("ibm1401", "Makefile", "crates.txt", "tests/help.txt"):
            shutil.copy(TOP / file, self.folder / file)
        (self.folder / "logs").mkdir()
        self.names, self.calls = needed_for("ibm1401"), self.folder / "calls"
        self.env = make_toolchain(self.folder, TMPDIR=str(self.folder / "logs"))

    def launch(self, *words, **env):
        """A run of the launcher."""
        return run([self.folder / "ibm1401", *words], env=self.env | env)

    def start(self, *words, env=(), **how):
        """A launcher that has been started."""
        return subprocess.Popen([self.folder / "ibm1401", *words], env=self.env | dict(env), **PIPES, **how)

    def proved(self, name, names):
        """A subtest: these crates were proved since the last one, each once."""
        self.same(name, sorted(self.calls.read_text().split()), sorted(names))
        self.calls.unlink()

    def reports(self, name, error, names, time="up to an hour"):
        """A subtest: a launcher that builds has written a line for each crate, each after those that it depends on, and
        one at each end."""
        lines = error.splitlines()
        proved = [re.fullmatch(r"\d+:\d\d  proved (\w+), (\d+) of (\d+)", line) for line in lines[1:-1]]
        if not all(proved):
            self.check(name, f"lines of another form: {error!r}")
            return
        order = [each[1] for each in proved]
        wrong = [] if sorted(order) == sorted(names) else [f"it names {order}"]
        wrong += [crate for place, crate in enumerate(order) for each in BELOW[crate] if each in order[place:]]
        numbers = [str(place + 1) for place in range(len(names))]
        wrong += [] if [each[2] for each in proved] == numbers else ["numbers"]
        begins = f"ibm1401: {len(names)} crates are proved and built, which takes {time} the first time"
        ends = rf"ibm1401: {len(names)} crates proved and built in \d+:\d\d by {VERSION}"
        wrong += [lines[0]] if lines[0] != begins else []
        wrong += [lines[-1]] if not re.fullmatch(ends, lines[-1]) else []
        self.check(name, wrong)

    def test_a_crate_that_is_not_proved(self):
        """Its log is named; what was reported as proved is kept, and the next start proves the rest."""
        fails, log = self.names[-2], self.folder / "crates/ibm1401/out/ibm1401.log"
        ran = self.launch("load", FAILS=fails, WHILE="0.1")
        error = ran.stderr.decode()
        self.same("the status", ran.returncode, 1)
        text = f"ibm1401: {fails} wasn't built; what the prover said is in {log}\n"
        self.check("the log", "" if error.endswith(text) else error)
        self.check("the program isn't tried", "it is" if "ibm1401" in self.calls.read_text().split() else "")
        # A crate that ended together with the one that failed may be kept without a line about it.
        stamps = [self.folder / "crates" / name / "out/proved/stamp" for name in self.names]
        left = [name for name, stamp in zip(self.names, stamps) if not stamp.exists()]
        lost = {*left} & {*re.findall(r"  proved (\w+),", error)}
        self.same("what was reported as proved is kept", lost, set())
        self.calls.unlink()
        self.expect("the next start", self.launch("load"), 0, "load\n", "...")
        self.proved("it proves the rest", left)

    def test_two_launchers_at_once(self):
        """One of them builds, and the other waits."""
        held = self.folder / "held"
        held.touch()
        both = [self.start("load", env={"HELD": str(held)}) for _ in range(2)]
        said = [one.stderr for one in both]
        heard = wait_until(lambda: select.select(said, [], [], 0)[0] == said)
        self.check("each says something", "" if heard else "one doesn't")
        held.unlink()
        written = [one.communicate(timeout=SECONDS) for one in both]
        self.proved("each crate is proved once", self.names)
        self.same("both run", [output for output, _ in written], [b"load\n"] * 2)
        waiter, builder = sorted((error.decode() for _, error in written), key=len)
        self.reports("one reports the build", builder, self.names)
        self.same("the other that it waits", waiter, "ibm1401: waiting for the one that is being built\n")

    def test_a_program_that_is_built(self):
        self.launch("load")
        self.expect("it is run", self.launch("load"), 0, "load\n")
        self.expect("a console is one of it", self.launch("console"), 0, "console\n")

    @needs("git")
    def test_the_record_of_a_build(self):
        """It is at the end of the program, and says which commit was built, and by which toolchain."""
        built = self.folder / "crates/ibm1401/out/ibm1401"
        source = self.folder / "crates" / self.names[0] / "src/lib.rt"
        self.launch("load")
        self.same("no repository", built.read_bytes().rpartition(b"\0")[2], f"commit unknown\nproved by {VERSION}\n")
        commit = repository(self.folder)
        for text, changes in ("//!\n", ""), ("", ", with changes"):
            source.write_text(text)
            self.expect(f"a commit{changes}", self.launch("load"), 0, "load\n", "...")
            self.same(f"its record{changes}", built.read_bytes().rpartition(b"\0")[2],
                      f"commit {commit}{changes}\nproved by {VERSION}\n")

    def test_a_source_that_is_newer(self):
        self.launch("load")
        self.calls.unlink()
        (self.folder / "crates" / self.names[0] / "src/lib.rt").write_text("")
        again = self.launch("load")
        self.expect("it is run", again, 0, "load\n", "...")
        changed = above(self.names[0], self.names)
        self.reports("what is reported", again.stderr.decode(), changed)
        self.proved("it is proved again with all that depends on it", changed)

    def test_interruptions(self):
        self.launch("load")
        kept = {*self.names} - above(self.names[0], self.names)
        for by in INTERRUPTIONS:
            self.calls.unlink()
            (self.folder / "crates" / self.names[0] / "src/lib.rt").write_text("")
            how = {"start_new_session": True, "preexec_fn": hear_interruptions}
            launcher = self.start("load", env={"HELD": str(self.folder)}, **how)
            self.check(f"{by.name}: a crate is being proved", "" if wait_until(self.calls.exists) else "none is")
            os.killpg(launcher.pid, by)
            self.interrupted(by.name, launcher, kept)

    def interrupted(self, name, launcher, kept):
        """Subtests: a launcher that is interrupted says so and leaves nothing; it may name crates that were kept."""
        try:
            _, error = launcher.communicate(timeout=REPLY_SECONDS)
        except subprocess.TimeoutExpired:
            launcher.kill()
            error = b"it doesn't end"
        begins = rb"ibm1401: \d+ crates are proved and built, which takes up to an hour the first time\n"
        error = re.sub(begins, b"", error, count=1)
        # The signal goes to the whole group, so it can end what writes the time of a line.
        line = rf"^(?:\d+:\d\d)?  proved (?:{'|'.join(kept)}), \d+ of \d+\n"
        error = re.sub(line.encode(), b"", error, flags=re.MULTILINE)
        text = "ibm1401: interrupted; the crates proved so far are kept, and the next start goes on from them\n"
        self.same(f"{name}: what it says", error, text)
        self.same(f"{name}: its status", launcher.returncode, 1)
        self.same(f"{name}: what is left", list((self.folder / "logs").iterdir()), [])

    def test_a_console_alone(self):
        """Where nothing is built its crates are proved, and the others when another call needs them."""
        names = needed_for("console_program")
        first = self.launch("console")
        self.expect("the console", first, 0, "\n", "...")
        self.reports("what is reported", first.stderr.decode(), names, "some minutes")
        self.proved("what is proved for it", names)
        self.expect("a console that is built", self.launch("console"), 0, "\n")
        sized = self.launch("console", "--size", "1400")
        self.expect("a console of another size", sized, 0, "console --size 1400\n", "...")
        others = [name for name in self.names if name not in names]
        self.reports("what is reported of that", sized.stderr.decode(), others)
        self.proved("nothing is proved twice", others)
        self.expect("a console afterwards", self.launch("console"), 0, "console\n")

    def test_a_release_that_is_built_again(self):
        """With the toolchain --build proves, and what is built is run from then on."""
        add_release(self.folder)
        self.expect("the release", self.launch("load"), 0, "released load\n", "...")
        self.expect("--build", self.launch("--build"), 0, "", "...")
        self.proved("it proves", self.names)
        self.expect("what is built", self.launch("load"), 0, "load\n")
        self.expect("its version", self.launch("--version"), 0, "--version\n")

    def test_a_release_of_other_sources(self):
        """The toolchain proves what is here."""
        add_release(self.folder)
        source = self.folder / "crates" / self.names[0] / "src/lib.rt"
        for name, change in [("a changed source", lambda: source.write_text("//! Another.\n")),
                             ("one source more", lambda: source.with_name("more.rt").write_text("//!\n"))]:
            with self.subTest(name):
                before = source.read_text()
                self.expect("the release", self.launch("load"), 0, "released load\n", "...")
                change()
                self.expect("what is here", self.launch("console"), 0, "\n", "...")
                source.write_text(before)
                shutil.rmtree(self.folder / "crates/console_program/out")
                source.with_name("more.rt").unlink(missing_ok=True)


ONE_TEST = """import unittest

from tests.support import PROGRAM, run


class One(unittest.TestCase):
    def test_it(self):
        self.assertEqual(run([PROGRAM, "load"]).stdout, b"released load\\n")
"""
PROGRAM_OF_RELEASE = b'#!/bin/sh\necho released "$@"\n'
ARCHIVE, PACKAGE = "ibm1401-0.9.0-x86_64-linux.tar.gz", "ibm1401_0.9.0-1_amd64.deb"
FIRST = f"ibm1401: this is ibm1401 0.9.0, commit 0123, of dist/{ARCHIVE}, proved by a toolchain"
REST = "; to prove it here, install that toolchain (README.md, Get it)\n"


def add_release(folder, program=PROGRAM_OF_RELEASE):
    """Puts a release of the sources that are there into a repository: its program prints the words of its call."""
    shutil.copytree(TOP / "releasing", folder / "releasing", dirs_exist_ok=True)
    (folder / "HANDLES").write_text("Handles allowed: none.\n")
    dist = folder / "dist"
    dist.mkdir()
    write_tar(dist / ARCHIVE, {"usr/bin/ibm1401": program, "usr/share/doc/ibm1401/README.md": b"Read me.\n"},
              "ibm1401-0.9.0", 1_700_000_000)
    sums = "".join(f"{each}  {name}\n" for name, each in sources(folder).items())
    proof = ("ibm1401 0.9.0, commit 0123\nproved by a toolchain\n\n"
             f"{checksum(PROGRAM_OF_RELEASE)}  usr/bin/ibm1401: it\n\nSOURCES\n\n{sums}")
    (dist / "PROVED.txt.gz").write_bytes(compressed(proof.encode()))
    (dist / PACKAGE).write_bytes(b"a package\n")
    note_sums(dist)


def note_sums(dist):
    """Writes the checksums of a release."""
    made = sorted(each for each in dist.iterdir() if each.name != "SHA256SUMS")
    (dist / "SHA256SUMS").write_text("".join(f"{checksum(each.read_bytes())}  {each.name}\n" for each in made))


class Released(ProgramTest):
    """The launcher in a fresh clone that has a release, on a host without the toolchain."""

    def setUp(self):
        for file in ("ibm1401", "crates.txt", "tests/help.txt", "crates/program_arguments/src/reading.rt"):
            (self.folder / file).parent.mkdir(parents=True, exist_ok=True)
            shutil.copy(TOP / file, self.folder / file)
        add_release(self.folder)
        self.env = {**os.environ, "PATH": without_toolchain(), "HOME": str(self.folder / "home")}

    def launch(self, *words, **how):
        """A run of the launcher."""
        return run([self.folder / "ibm1401", *words], env=self.env, **how)

    def test_its_program_is_run(self):
        """The first time it is said which it is; a link to the launcher will do, and so does any folder."""
        self.expect("first", self.launch("run", "a b"), 0, "released run a b\n", FIRST + REST)
        self.expect("then", self.launch("load"), 0, "released load\n")
        (self.folder / "machine").symlink_to(self.folder / "ibm1401")
        self.expect("through a link", run([self.folder / "machine"], env=self.env, cwd="/"), 0, "released\n")
        said = self.launch("--version")
        self.expect("its version", said, 0, "released --version\nfrom the release in dist/\n")
        self.check("help needs no program", "" if b"released" not in self.launch("--help").stdout else "it does")

    def test_sources_that_have_changed_since(self):
        """It is all that can be run, and the first line says so."""
        (self.folder / "crates.txt").write_text("bcd_1401:\n")
        others = ", from other sources than those here"
        self.expect("it", self.launch("load"), 0, "released load\n", FIRST + others + REST)

    def test_it_is_not_built_without_the_toolchain(self):
        fault = "ibm1401: no command rt: the Rattle toolchain isn't installed\n"
        self.expect("--build", self.launch("--build"), 1, "", fault)
        shutil.rmtree(self.folder / "dist")
        self.expect("no release", self.launch("load"), 1, "", fault)
        self.expect("its version", self.launch("-V"), 0, "ibm1401 0.9.0\nnot proved and built here yet\n")

    def test_a_folder_that_can_not_be_written_to(self):
        """It is unpacked in the user's cache."""
        (self.folder / "crates/ibm1401/out").mkdir(parents=True)
        (self.folder / "crates/ibm1401/out/released").write_text("no folder\n")
        self.expect("it", self.launch("load"), 0, "released load\n", FIRST + REST)
        cache = list((self.folder / "home/.cache/ibm1401").glob("*/bin/ibm1401"))
        self.same("where it is", len(cache), 1)
        (self.folder / "home/.cache/ibm1401").rename(self.folder / "home/.cache/other")
        (self.folder / "home/.cache/ibm1401").write_text("no folder\n")
        fault = "it can't be unpacked: neither crates/ibm1401/out nor the user's cache can be written to"
        self.expect("nowhere", self.launch("load"), 1, "", f"ibm1401: release refused: {fault}\n")

    def test_check_without_the_toolchain(self):
        """It tests the release's program, and says that no proof was checked; what a merge asks for fails."""
        lay_out_check(self.folder, ONE_TEST)
        ran = run([self.folder / "check"], env=self.env)
        said = ran.stdout.decode().splitlines()
        self.same("its status", (ran.returncode, ran.stderr), (0, (FIRST + REST).encode()))
        self.same("its last lines", said[-2:], [
            "NO PROOF WAS CHECKED: there is no command rt; what was tested is the release in dist/",
            "1 passed, 0 failed"])
        fault = "FAILED  rt ci: there is no command rt: the Rattle toolchain isn't installed"
        self.expect("a merge", run([self.folder / ".ci/run"], env=self.env), 1, f"{fault}\n")
        shutil.rmtree(self.folder / "dist")
        ran = run([self.folder / "check"], env=self.env)
        self.same("without a release", (ran.returncode, ran.stdout.decode().splitlines()[0]),
                  (1, f"{fault}, and dist/ has no release"))

    def refuses(self, name, change, why):
        """Subtests: a changed release is refused with one line, both before and after its program was unpacked; then it
        is put back."""
        dist, made = self.folder / "dist", self.folder / "crates/ibm1401/out"
        for when in "before it is unpacked", "afterwards":
            change()
            ran = self.launch("load")
            end = "" if why.endswith("...") else "\n"
            self.expect(f"{name}, {when}", ran, 1, "", f"ibm1401: release refused: {why}{end}")
            self.same(f"{name}, {when}: how many lines", ran.stderr.count(b"\n"), 1)
            shutil.rmtree(dist)
            add_release(self.folder)
            if when == "before it is unpacked":
                self.expect(f"{name}: a good one", self.launch("load"), 0, "released load\n", FIRST + REST)
        self.expect(f"{name}: a good one again", self.launch("load"), 0, "released load\n")
        shutil.rmtree(made)

    def test_what_is_refused(self):
        dist = self.folder / "dist"
        other = ARCHIVE.replace("0.9.0", "0.9.1")

        def damage(name, place=-9):
            content = bytearray((dist / name).read_bytes())
            content[place] ^= 1
            (dist / name).write_bytes(content)

        def exchange():
            write_tar(dist / ARCHIVE, {"usr/bin/ibm1401": b"#!/bin/sh\necho another\n"}, "ibm1401-0.9.0", 0)
            note_sums(dist)

        def halve():
            (dist / "PROVED.txt.gz").write_bytes(compressed(b"proved " * 9)[:20])
            note_sums(dist)

        for name in ARCHIVE, PACKAGE, "PROVED.txt.gz":
            self.refuses(f"a byte of {name}", lambda: damage(name), f"dist/{name} is damaged: its checksum is another")
        for name in ARCHIVE, PACKAGE, "PROVED.txt.gz":
            at = (dist / "SHA256SUMS").read_text().index(name) - 5
            self.refuses(f"a checksum of {name}", lambda: damage("SHA256SUMS", at),
                         f"dist/{name} is damaged: its checksum is another")
        for name, change, why in [
            ("another name", lambda: (dist / ARCHIVE).rename(dist / other),
             f"dist/{other} isn't of the release that dist/SHA256SUMS names"),
            ("another program", exchange, f"dist/{ARCHIVE} has another program than dist/PROVED.txt.gz"),
            ("no proof", lambda: (dist / "PROVED.txt.gz").unlink(),
             "dist/ is damaged: it has no PROVED.txt.gz, which dist/SHA256SUMS names"),
            ("half a proof", halve, "dist/ is damaged: ..."),
            ("no package", lambda: (dist / PACKAGE).unlink(),
             f"dist/ is damaged: it has no {PACKAGE}, which dist/SHA256SUMS names"),
            ("no checksums", lambda: (dist / "SHA256SUMS").unlink(), "dist/ is damaged: ..."),
            ("the end of its last line", lambda: damage("SHA256SUMS", -1),
             "dist/SHA256SUMS is damaged: it has other lines than those of the release"),
            ("a line more", lambda: (dist / "SHA256SUMS").write_text(f"{(dist / 'SHA256SUMS').read_text()}\n"),
             "dist/SHA256SUMS is damaged: it has other lines than those of the release"),
        ]:
            self.refuses(name, change, why)

    def test_any_byte_of_the_checksums(self):
        """Each byte of SHA256SUMS, changed by one bit, after the program was unpacked."""
        self.expect("a good one", self.launch("load"), 0, "released load\n", FIRST + REST)
        sums, archive = self.folder / "dist/SHA256SUMS", self.folder / "dist" / ARCHIVE
        content = sums.read_bytes()
        for place in range(len(content)):
            sums.write_bytes(content[:place] + bytes([content[place] ^ 1]) + content[place + 1:])
            with self.assertRaises((Refused, OSError, ValueError), msg=f"byte {place}"):
                released.whole(self.folder / "dist", archive)

    def test_a_program_that_has_changed_since_it_was_unpacked(self):
        """In the folder, and in the user's cache where that can't be written to."""
        out = self.folder / "crates/ibm1401/out"
        for name, place in ("the folder", out / "released"), ("the cache", self.folder / "home/.cache/ibm1401"):
            self.expect(f"{name}: first", self.launch("load"), 0, "released load\n", FIRST + REST)
            program = next(place.glob("*/bin/ibm1401"))
            content = program.read_bytes()
            program.write_bytes(content.replace(b"released", b"relaxed "))
            why = f"{program} is damaged: it isn't the program of the release; remove it"
            self.expect(f"{name}: changed", self.launch("load"), 1, "", f"ibm1401: release refused: {why}\n")
            program.unlink()
            self.expect(f"{name}: removed", self.launch("load"), 0, "released load\n", FIRST + REST)
            shutil.rmtree(out)
            out.mkdir()
            (out / "released").write_text("no folder\n")


# A toolchain whose gate builds programs that do nothing, and prints what its file has.
GATE = """#!/bin/sh
[ "$1" != version ] || { echo a toolchain; exit; }
for name in ibm1401 console_program tests_library; do
    mkdir -p crates/$name/out
    printf '#!/bin/sh\\nexit\\n' > crates/$name/out/$name
    chmod +x crates/$name/out/$name
done
cat printed
grep -q ' 0 failed' printed
"""
ONE_THAT_MAY_FAIL = """import unittest

from tests.support import TOP


class One(unittest.TestCase):
    def test_it(self):
        self.assertFalse((TOP / "fails").exists())
"""


class Checked(ProgramTest):
    """./check with a mock of the toolchain and one test: what it notes for ./release."""

    def setUp(self):
        lay_out_check(self.folder, ONE_THAT_MAY_FAIL)
        shutil.copytree(TOP / "releasing", self.folder / "releasing")
        for file in ("ibm1401", "crates.txt", "HANDLES", "tests/help.txt"):
            shutil.copy(TOP / file, self.folder / file)
        (self.folder / "bin").mkdir()
        (self.folder / "bin/rt").write_text(GATE)
        (self.folder / "bin/rt").chmod(0o755)
        (self.folder / "printed").write_text("3 passed, 0 failed\n")

    def checked(self, name, status, last, noted, **env):
        """Subtests: ./check ends with this status and this last line, and its note has this."""
        usual = {each: text for each, text in os.environ.items() if each not in ("IBM1401", "LONE_CONSOLE", "TRIALS")}
        ran = run([self.folder / "check"], env={**usual, "PATH": f"{self.folder}/bin:{os.environ['PATH']}", **env})
        said = ran.stdout.decode().splitlines()
        self.same(name, (ran.returncode, said[-1:], ran.stderr), (status, [last], b""))
        note = note_of(self.folder)
        self.same(f"{name}: what is noted", json.loads(note.read_text()).get("checked") if note.exists() else None, noted)

    def test_what_is_noted_for_a_release(self):
        self.checked("all passed", 0, "4 passed, 0 failed", "4 passed, 0 failed")
        self.checked("another program is tested", 0, "4 passed, 0 failed", None, IBM1401="/bin/true")
        (self.folder / "fails").touch()
        self.checked("a test failed", 1, "3 passed, 1 failed", None)
        (self.folder / "fails").unlink()
        (self.folder / "printed").write_text("2 passed, 1 failed\n")
        self.checked("the gate failed", 1, "3 passed, 1 failed", None)
        (self.folder / "printed").write_text("3 passed, 0 failed\n")
        self.checked("all passed again", 0, "4 passed, 0 failed", "4 passed, 0 failed")


def lay_out_check(folder, module):
    """Puts ./check into a folder, with one module of tests."""
    (folder / "tests/tools").mkdir(parents=True)
    for name in "check", ".ci", "page", *(f"tests/{name}.py" for name in ("__init__", "support", "runner", "edit_texts")):
        copy = shutil.copytree if (TOP / name).is_dir() else shutil.copy
        copy(TOP / name, folder / name)
    (folder / "tests/tools/__init__.py").touch()
    (folder / "tests/tools/test_one.py").write_text(module)


def without_toolchain():
    """A PATH on which there is no command rt."""
    folders = [each for each in os.environ["PATH"].split(":") if each and not os.path.exists(f"{each}/rt")]
    return ":".join(folders)


if __name__ == "__main__":
    unittest.main()
