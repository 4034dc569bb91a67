"""`./release`, in a copy of the repository in which a gate of its own has been noted: what it makes, and what it
refuses. That the gate proves the program is for ./check to show."""
import contextlib
import gzip
import io
import os
import re
import shutil
import subprocess
import tarfile
import unittest

from releasing import released
from releasing.completion import for_bash, for_fish, for_zsh
from releasing.helps import lesson_page, pages_of
from releasing.package import compressed
from releasing.proved import bare, checksum, complete_note, note_of, program_of, sources, write_note
from tests import installed
from tests.support import PROGRAM, TOP, ProgramTest, needs, program, repository, run
from tests.tools.test_launcher import without_toolchain

COPIED = "release", "releasing", "README.md", "CHANGELOG.md", "docs", "examples", "benches", "crates.txt", "HANDLES"
PRINTED = "rt: bcd_1401 proved\n3 passed, 0 failed\n"
CHECKED = "12 passed, 0 failed"
# What the gate prints of the same sources where it proves all of them, and where an earlier run did; and what of both.
ANEW = """\
== core_1401
fn core_1401::Core::cell: proved
rt: core_1401 proved
== bcd_1401
rt: bcd_1401 proved
== bcd_1401: its tests
rt: bcd_1401: its tests are proved
rt: core_1401: trying its must-fail edits (1)
rt: must-fail core_1401/a.edit: refused, as it must be: note: src/core.rt:12:1: it is not proved
rt: core_1401 ran, and wrote what its file stdout has
rt: core_1401 ran (built by Rattle's own compiler), and wrote what its file stdout has
rt: ok; handles allowed: none; must-fail edits: 1 refused; every proof and must-fail edit was done in this run
3 passed, 0 failed
"""
EARLIER = " kept: an earlier run on this machine proved the same files over the same libraries"
KEPT = f"""\
rt: bcd_1401 is{EARLIER}
rt: core_1401 is{EARLIER}
rt: core_1401: 1 of its 1 must-fail edits were tried by an earlier run on this machine, and nothing has changed
rt: must-fail core_1401/a.edit: refused, as it must be: note: src/core.rt:12:1: it isn't proved
rt: core_1401 ran, and wrote what its file stdout has
rt: core_1401 ran (built by Rattle's own compiler), and wrote what its file stdout has
rt: ok; handles allowed: none; must-fail edits: 1 refused; done in this run: 0 of the 3 proofs; the others were before
3 passed, 0 failed
"""
OF_BOTH = """\
rt: bcd_1401 proved
rt: core_1401 proved
rt: core_1401 ran (built by Rattle's own compiler), and wrote what its file stdout has
rt: core_1401 ran, and wrote what its file stdout has
rt: must-fail core_1401/a.edit: refused, as it must be
rt: ok; handles allowed: none; must-fail edits: 1 refused
3 passed, 0 failed
"""
NEEDED = "dpkg-deb", "objdump", "git"
PACKAGE, ARCHIVE = "ibm1401_0.9.0-1_amd64.deb", "ibm1401-0.9.0-x86_64-linux.tar.gz"


class ReleaseTest(ProgramTest):
    """A copy of the repository with one crate, and the program under test as what its gate has built."""

    def setUp(self):
        self.begin(self.folder / "repository")

    def begin(self, place):
        """Makes the copy."""
        self.place = place
        self.place.mkdir(parents=True)
        for name in COPIED:
            copy = shutil.copytree if (TOP / name).is_dir() else shutil.copy
            copy(TOP / name, self.place / name)
        shutil.copytree(TOP / "crates/ibm1401", self.place / "crates/ibm1401", ignore=shutil.ignore_patterns("out"))
        self.commit = repository(self.place)
        (self.place / "crates/ibm1401/out").mkdir()
        self.prove()

    def prove(self, printed=PRINTED, content=bare(PROGRAM.read_bytes()), checked=CHECKED):
        """Puts a program in its place, and notes it as what the gate has built and the tests have passed."""
        program_of(self.place).write_bytes(content)
        program_of(self.place).chmod(0o755)
        write_note(self.place, sources(self.place), printed, "a toolchain")
        if checked:
            complete_note(self.place, checked)

    def release(self, to="dist", **env):
        """A run of ./release into a folder of the test's own."""
        return run([self.place / "release", "--to", self.folder / to], env={**os.environ, **env})


@needs(*NEEDED)
class Refusals(ReleaseTest):
    """What is refused with status 1, and makes nothing."""

    def refuses(self, name, why):
        """A subtest: ./release is refused for this reason."""
        self.expect(name, self.release(), 1, "", f"release: refused: {why}\n")
        self.check(f"{name}: nothing is made", "dist/ is there" if (self.folder / "dist").exists() else "")

    def test_a_program_that_no_gate_has_proved(self):
        note_of(self.place).unlink()
        self.refuses("no note", "the gate has proved no program here; ./check does")

    def test_a_gate_that_failed(self):
        self.prove("rt: bcd_1401 proved\n2 passed, 1 failed\n")
        self.refuses("one failed", "the gate has failed: 2 passed, 1 failed")
        self.prove("")
        self.refuses("nothing printed", "the gate has failed: it printed nothing")

    def test_tests_that_failed(self):
        """The gate alone isn't enough; a later gate needs its own."""
        fault = "the tests of the program haven't all passed here; ./check runs them"
        self.prove(checked=None)
        self.refuses("the gate alone", fault)
        for counts in "11 passed, 1 failed", "", "12 passed, 0 failed, 1 left":
            self.prove(checked=counts or " ")
            self.refuses(repr(counts), fault)
        self.prove()
        self.prove(checked=None)
        self.refuses("a later gate", fault)

    def test_another_program(self):
        """As if it were built without the gate."""
        other = bytearray(bare(PROGRAM.read_bytes()))
        other[-1000] ^= 1
        program_of(self.place).write_bytes(other)
        self.refuses("one byte", "crates/ibm1401/out/ibm1401 isn't the program that the gate built")
        program_of(self.place).unlink()
        self.refuses("none", "crates/ibm1401/out/ibm1401 isn't the program that the gate built")

    def test_sources_that_differ(self):
        for name, change in [("crates/ibm1401/src/main.rt", lambda each: each.write_text(each.read_text() + "\n")),
                             ("crates/ibm1401/src/more.rt", lambda each: each.write_text("//!\n")),
                             ("crates/ibm1401/args", lambda each: each.unlink())]:
            before = (self.place / name).read_bytes() if (self.place / name).exists() else None
            change(self.place / name)
            self.refuses(name, f"{name} isn't as the gate proved it")
            (self.place / name).unlink(missing_ok=True)
            if before is not None:
                (self.place / name).write_bytes(before)

    def test_sources_that_changed_during_the_gate(self):
        """Nothing is noted then."""
        before = sources(self.place)
        (self.place / "crates.txt").write_text("bcd_1401:\n")
        write_note(self.place, before, PRINTED, "a toolchain")
        complete_note(self.place, CHECKED)
        self.refuses("it", "the gate has proved no program here; ./check does")

    def test_what_no_commit_has(self):
        (self.place / "docs/TUTORIAL.md").write_text("Another\n")
        self.refuses("a page", "there are files that no commit has")

    def test_a_version_without_a_section(self):
        (self.place / "CHANGELOG.md").write_text("# Changelog\n\n## Unreleased\n")
        run(["git", "-C", self.place, "-c", "user.name=A", "-c", "user.email=a@museum.example", "commit", "-qam", "B"])
        self.refuses("it", "CHANGELOG.md has no section 0.9.0")

    def test_words_that_it_does_not_know(self):
        self.expect("one", run([self.place / "release", "--now"]), 2, "", "usage: ./release [--to FOLDER]\n")


@needs(*NEEDED)
class Made(ReleaseTest):
    """What a release has."""

    def made(self, to="dist", **env):
        """The files of a release, by name."""
        ran = self.release(to, **env)
        self.check(f"the run into {to}", ran.stderr.decode())
        return {each.name: each.read_bytes() for each in sorted((self.folder / to).iterdir())}

    def test_two_runs_give_the_same_bytes(self):
        first, second = self.made(), self.made("again", TZ="Asia/Tokyo", LC_ALL="C")
        self.same("the files", sorted(first), sorted(["PROVED.txt.gz", "SHA256SUMS", PACKAGE, ARCHIVE]))
        for name in first:
            self.check(name, "" if first[name] == second[name] else "it differs")
        other = self.made("later", SOURCE_DATE_EPOCH="1800000000")
        self.check("another time", "" if other[PACKAGE] != first[PACKAGE] else "it is the same")

    def test_two_hosts_make_the_same_bytes(self):
        """In other folders, with files of other dates and rights, by another gate, and with other variables."""
        self.prove(ANEW)
        first = self.made()
        mask = os.umask(0o077)
        self.addCleanup(os.umask, mask)
        self.begin(self.folder / "another host/of the museum")
        for name in run(["git", "-C", self.place, "ls-files", "-z"]).stdout.decode().split("\0")[:-1]:
            os.utime(self.place / name, (1_500_000_000, 1_500_000_000))
        self.prove(KEPT)
        (self.folder / "a room").mkdir()
        second = self.made("there", TMPDIR=str(self.folder / "a room"), HOME="/nonexistent", TZ="Asia/Tokyo", LC_ALL="C",
                           COLUMNS="40", DPKG_DEB_COMPRESSOR_LEVEL="1", TAR_OPTIONS="--owner=desk")
        self.same("the files", sorted(second), sorted(first))
        for name in first:
            self.check(name, "" if first[name] == second[name] else "it differs")
        proof = gzip.decompress(first["PROVED.txt.gz"]).decode()
        self.check("what each gate prints", "" if f"PRINTS\n\n{OF_BOTH}\nSOURCES\n" in proof else proof[:1500])

    def test_a_compressed_text(self):
        for text in b"", b"HELLO\n" * 9_999:
            made = compressed(text)
            self.same(f"{len(text)} bytes", gzip.decompress(made), text)
            self.same("its head has no time and no host", made[:10].hex(), "1f8b0800000000000203")

    def test_the_program_that_the_gate_has_built(self):
        """It has the record of its commit as soon as the gate is noted."""
        record = f"ibm1401 0.9.0\ncommit {self.commit}\nproved by a toolchain\n"
        self.expect("it", run([program_of(self.place), "--version"]), 0, record)
        (self.place / "crates.txt").write_text("bcd_1401:\n")
        self.prove()
        changed = record.replace(self.commit, f"{self.commit}, with changes")
        self.expect("with changes", run([program_of(self.place), "--version"]), 0, changed)

    def test_its_checksums(self):
        made = self.made()
        ran = run(["sha256sum", "-c", "SHA256SUMS"], cwd=self.folder / "dist")
        self.expect("SHA256SUMS", ran, 0, f"PROVED.txt.gz: OK\n{ARCHIVE}: OK\n{PACKAGE}: OK\n")
        proof = gzip.decompress(made["PROVED.txt.gz"]).decode()
        (self.folder / "sums").write_text(proof.partition("SOURCES\n\n")[2])
        self.expect("of the sources", run(["sha256sum", "--quiet", "-c", self.folder / "sums"], cwd=self.place))
        self.same("how many sources", len(proof.partition("SOURCES\n\n")[2].splitlines()), len(sources(self.place)))
        printed = f"WHAT EACH RUN OF THE GATE PRINTS\n\n{PRINTED}\n"
        self.check("what the gate printed", "" if printed in proof else proof[:500])
        first = (f"ibm1401 0.9.0, commit {self.commit}\nproved by a toolchain\n\nthe gate: 3 passed, 0 failed\n"
                 "the gate and the tests of the program, ./check: 12 passed, 0 failed\n\n")
        self.same("its head", proof.encode(), f"{first}{checksum(bare(PROGRAM.read_bytes()))}  the program that...")

    def test_the_archive(self):
        self.made()
        with tarfile.open(self.folder / "dist" / ARCHIVE) as archive:
            archive.extractall(self.folder / "there", filter="data")
        there = self.folder / "there/ibm1401-0.9.0"
        record = f"ibm1401 0.9.0\ncommit {self.commit}\nproved by a toolchain\n"
        self.expect("its program", run([there / "bin/ibm1401", "--version"]), 0, record)
        self.same("is what the gate built", bare((there / "bin/ibm1401").read_bytes()), bare(PROGRAM.read_bytes()))
        for name in ("share/doc/ibm1401/PROVED.txt", "share/man/man1/ibm1401-run.1.gz", "share/doc/ibm1401/README.md",
                     "lib/systemd/system/ibm1401@.service", "share/doc/ibm1401/examples/sales.source"):
            self.check(name, "" if (there / name).exists() else "it isn't there")
        self.gives_lessons(there, there / "share/doc/ibm1401/examples/course")

    def gives_lessons(self, there, course):
        """Subtests: the script in this folder lists the lessons, copies one, and checks it; its pages lead to them."""
        (self.folder / "desk").mkdir()
        listed = run([there / "bin/ibm1401-lesson"], cwd=self.folder / "desk")
        self.expect("the lessons", listed, 0, "1: A card and three fields\n...")
        self.same("lesson 2", run([there / "bin/ibm1401-lesson", "2"], cwd=self.folder / "desk").returncode, 0)
        checked = run(["./lesson", "2", "--check"], cwd=self.folder / "desk/02-last-card")
        self.expect("its check", checked, 1, "lesson 2: not yet. The total isn't the sum...")
        version = run(["./ibm1401", "--version"], cwd=self.folder / "desk/02-last-card")
        self.expect("its program", version, 0, "ibm1401 0.9.0...")
        is_there = (course / "02-last-card/lesson.md").exists()
        self.check("the lessons by the documentation", "" if is_there else "none there")

    def test_the_package(self):
        self.made()
        room, package = self.folder / "room", self.folder / "dist" / PACKAGE
        subprocess.run(["dpkg-deb", "-x", package, room], check=True)
        fields = run(["dpkg-deb", "-f", package, "Depends"]).stdout.decode()
        self.check("what it needs", "" if re.fullmatch(r"libc6 \(>= 2\.\d+\)\n", fields) else fields)
        unit = (room / "usr/lib/systemd/system/ibm1401@.service").read_text()
        self.check("the unit's program", "" if "/usr/bin/ibm1401" in unit and "/usr/local" not in unit else unit)
        self.expect("its program", run([room / "usr/bin/ibm1401", "console"], b"QUIT\n"), 0, "BYE\n")
        names = {each.name for each in (room / "usr/share/man/man1").iterdir()}
        calls = [page.call.replace(" ", "-") for page in pages_of(PROGRAM)] + ["ibm1401-lesson"]
        self.same("a manual page for each call", names, {f"{each}.1.gz" for each in calls})
        self.gives_lessons(room / "usr", room / "usr/share/doc/ibm1401/examples/course")
        owners = run(["dpkg-deb", "-c", package]).stdout.decode().splitlines()
        self.same("whose the files are", {line.split()[1] for line in owners}, {"root/root"})

    def test_a_package_that_has_changed_is_not_installed(self):
        self.made()
        package = self.folder / "dist" / PACKAGE
        content = bytearray(package.read_bytes())
        content[len(content) // 2] ^= 1
        package.write_bytes(content)
        root, said = installed.Root(self.folder), io.StringIO()
        with contextlib.redirect_stdout(said):
            installed.try_installed(root, package)
        self.same("it", (root.passed, root.failed), (0, 1))
        self.same("what it says", said.getvalue(), "FAILED  the package: its checksum: SHA256SUMS has another\n")

    @needs("lintian")
    def test_lintian_has_nothing_to_say(self):
        self.made()
        ran = run(["lintian", "--allow-root", "--tag-display-limit", "0", self.folder / "dist" / PACKAGE])
        self.expect("it", ran, 0, "")

    @needs("man")
    def test_the_manual_pages(self):
        """Each is laid out without a warning, and has each option of its call with its help."""
        self.made()
        room = self.folder / "room"
        subprocess.run(["dpkg-deb", "-x", self.folder / "dist" / PACKAGE, room], check=True)
        for page in [*pages_of(PROGRAM), lesson_page(TOP)]:
            path = room / f"usr/share/man/man1/{page.call.replace(' ', '-')}.1.gz"
            ran = run(["man", "--warnings", "-l", path], env={**os.environ, "MANWIDTH": "400", "LC_ALL": "C.UTF-8"})
            self.same(f"{path.name}: warnings", ran.stderr, b"")
            text = " ".join(re.sub(r".\x08", "", ran.stdout.decode()).split())
            for option in page.options + page.arguments:
                said = " ".join([", ".join(option.names), option.value, option.help]).split()
                self.check(f"{path.name}: {option.long or option.value}", "" if " ".join(said) in text else text)


@unittest.skipIf(released.archive_in(TOP / "dist") is None, "dist/ has no release")
class InTheTree(ProgramTest):
    """The release in dist/."""

    def test_it_is_small_and_whole(self):
        made = {each.name: each.read_bytes() for each in (TOP / "dist").iterdir()}
        version = next(name for name in made if name.endswith(".tar.gz")).split("-")[1]
        archive, package = ARCHIVE.replace("0.9.0", version), PACKAGE.replace("0.9.0", version)
        self.same("the files", sorted(made), sorted(["PROVED.txt.gz", "SHA256SUMS", package, archive]))
        self.check("4 MB", "" if sum(map(len, made.values())) <= 4_000_000 else "it is larger")
        ran = run(["sha256sum", "-c", "SHA256SUMS"], cwd=TOP / "dist")
        self.expect("SHA256SUMS", ran, 0, f"PROVED.txt.gz: OK\n{archive}: OK\n{package}: OK\n")

    def setUp(self):
        self.proof = gzip.decompress((TOP / "dist/PROVED.txt.gz").read_bytes()).decode()
        self.is_of_these_sources = released.noted_in(self.proof.partition("SOURCES\n\n")[2]) == sources(TOP)

    @needs("git")
    def test_a_fresh_clone_runs_it(self):
        """Without the toolchain, and with it before anything is built, if the sources are those of the release."""
        words = "run", "examples/sales.source", "--cards", "examples/sales.cards", "--switches", "A"
        paths = [without_toolchain()] + ([os.environ["PATH"]] if self.is_of_these_sources else [])
        for number, path in enumerate(paths):
            clone = self.folder / f"clone_{number}"
            run(["git", "clone", "-q", TOP, clone])
            ran = run([clone / "ibm1401", *words], cwd=clone, env={**os.environ, "PATH": path})
            first = self.proof.splitlines()[0]
            self.same("its status", (ran.returncode, ran.stdout.split()[-2:]), (0, [b"TOTAL", b"13.75"]))
            said = ran.stderr.decode()
            self.check("what it says", "" if said.startswith(f"ibm1401: this is {first}") else said)

    def test_the_gate_has_built_the_same_program(self):
        """Whenever the sources are those of the release: any toolchain of that kind gives the same bytes."""
        proof = self.proof
        if not note_of(TOP).exists() or not self.is_of_these_sources:
            self.skipTest("the gate hasn't built the sources of the release here")
        archive = released.archive_in(TOP / "dist")
        released.whole(TOP / "dist", archive)
        program = released.program_in(archive, proof)
        self.check("its bytes", "" if bare(program) == bare(program_of(TOP).read_bytes()) else "they differ")


class Completions(ProgramTest):
    """What each shell completes, made of the help of the program under test."""

    def setUp(self):
        self.pages = pages_of(PROGRAM)

    def test_the_pages(self):
        """The help texts are read whole: put together again, they are as they were."""
        for page in self.pages:
            text = program(*([page.name] if page.name else []), "--help").stdout.decode()
            for option in page.options + page.arguments:
                self.check(f"{page.call} {option.long or option.value}",
                           "" if option.help and re.search(rf"{re.escape(option.help)}$", text, re.M) else text)
            self.same(f"{page.call}: its options", [each.long for each in page.options],
                      re.findall(r"^  +(?:-\w, +)?(--[\w-]+)", text.partition("Options:\n")[2], re.M))

    def completed(self, typed):
        """What bash completes of a line."""
        (self.folder / "completion").write_text(for_bash(self.pages))
        words = typed.split(" ")
        script = (f'source {self.folder}/completion; cd {self.folder}; compopt() {{ :; }}; COMP_WORDS=("$@"); '
                  "COMP_CWORD=$(($# - 1)); _ibm1401; printf '%s\\n' \"${COMPREPLY[@]}\"")
        return run(["bash", "-c", script, "bash", *words]).stdout.decode().split()

    def test_bash(self):
        (self.folder / "sales.source").write_text("")
        for typed, wanted in [("ibm1401 dis", ["disassemble"]), ("ibm1401 --v", ["--version"]),
                              ("ibm1401 run --lan", ["--language"]), ("ibm1401 run --language ", ["plain", "ibm"]),
                              ("ibm1401 run --language i", ["ibm"]), ("ibm1401 run sal", ["sales.source"]),
                              ("ibm1401 serve --image sal", ["sales.source"]), ("ibm1401 serve sal", []),
                              ("ibm1401 serve --port ", []), ("ibm1401 assemble -o sal", ["sales.source"]),
                              ("ibm1401 help jour", ["journal"]), ("ibm1401 help journal ", [])]:
            self.same(typed, self.completed(typed), wanted)
        for page in self.pages[1:]:
            names = [name for each in page.options for name in each.names]
            self.same(f"{page.call}: each option", self.completed(f"{page.call} -"), names)
        first = [name for name, _ in self.pages[0].commands]
        self.same("each call", self.completed("ibm1401 "), first + ["-h", "--help", "-V", "--version"])

    @needs("fish")
    def test_fish(self):
        (self.folder / "completion").write_text(for_fish(self.pages))
        (self.folder / "sales.source").write_text("")

        def completed(typed):
            ran = run(["fish", "--no-config", "-c", f"source completion; complete -C '{typed}'"], cwd=self.folder,
                      env={**os.environ, "HOME": str(self.folder)})
            return [line.split("\t")[0] for line in ran.stdout.decode().splitlines()]
        for page in self.pages[1:]:
            self.same(f"{page.call}: each option", sorted(completed(f"{page.call} --")),
                      sorted(each.long for each in page.options))
        self.same("each call", sorted(completed("ibm1401 ")), sorted(name for name, _ in self.pages[0].commands))
        self.same("the languages", sorted(completed("ibm1401 run --language ")), ["ibm", "plain"])
        self.check("files", "" if "sales.source" in completed("ibm1401 run sal") else "none")

    @needs("zsh")
    def test_zsh(self):
        """It is read without an error, and gives _arguments each option with its help."""
        (self.folder / "_ibm1401").write_text(for_zsh(self.pages))
        said = run(["zsh", "-f", "-n", self.folder / "_ibm1401"])
        self.expect("its syntax", said, 0)
        for page in self.pages[1:]:
            script = ("_arguments() { case $* in -C*) state=words ;; *) printf '%s\\n' \"$@\" ;; esac; return 1 }; "
                      f"words=({page.name}); source {self.folder}/_ibm1401")
            ran = run(["zsh", "-f", "-c", script])
            given = ran.stdout.decode().replace("\\", "")
            lacking = [each.long for each in page.options if f"{each.long}[{each.help}]" not in given
                       and f"{each.names[-1]}[{each.help}]" not in given]
            self.check(page.call, str(lacking) if lacking else ran.stderr.decode())


if __name__ == "__main__":
    unittest.main()
