"""The files of journals among other processes: files that others put there, cut, take away or lock, files that aren't
regular ones, a limit on the size of files, and memory that is refused."""
import os
import resource
import shutil
import subprocess
import unittest

from tests.support import PROGRAM, REPLY_SECONDS, SECONDS, TOP, ProgramTest, at_a_port, program

HEAD = b"JOURNAL1 4000\n"
FIRST = b"1\t0\tDEPOSIT 0700 ~999\tOK\n"
LINES = b"DEPOSIT 0700 ~999\nQUIT\n"
REPLIES = b"OK\nBYE\n"
UNKEPT = "ibm1401: session ended: UNKEPT\n"
MEMORY = b"ibm1401: memory refused\n"
# More allocations than a short run asks for.
MOST_GROWTHS = 400
# How often the time of a call is taken.
TURNS = 5
THEIRS = b"another process wrote this\n"

# Preloaded into the program: what another process, or the file system, does at the moment of a call.
MEDDLING = r"""
#define _GNU_SOURCE
#include <errno.h>
#include <fcntl.h>
#include <stdio.h>
#include <stdlib.h>
#include <string.h>
#include <sys/syscall.h>
#include <unistd.h>

static int asks(const char *what)
{
    const char *asked = getenv("MEDDLING");
    return asked && strstr(asked, what) != NULL;
}

/* A sync of the folder: another process puts its own file in the journal's place, and the sync is refused. */
int fsync(int file)
{
    if (asks("replace"))
        rename(getenv("THEIRS"), getenv("JOURNAL"));
    if (asks("replace") || asks("unsynced")) {
        errno = EIO;
        return -1;
    }
    return syscall(SYS_fsync, file);
}

/* A lock: notes whether the journal has its name by then; or another process has the lock. */
int flock(int file, int how)
{
    if (asks("note")) {
        int events = syscall(SYS_openat, AT_FDCWD, getenv("EVENTS"), O_CREAT | O_WRONLY | O_APPEND, 0600);
        write(events, syscall(SYS_faccessat, AT_FDCWD, getenv("JOURNAL"), F_OK) == 0 ? "named " : "unnamed ",
              syscall(SYS_faccessat, AT_FDCWD, getenv("JOURNAL"), F_OK) == 0 ? 6 : 8);
        close(events);
    }
    if (asks("locked")) {
        errno = EWOULDBLOCK;
        return -1;
    }
    return syscall(SYS_flock, file, how);
}

/* A file system without links. */
int link(const char *from, const char *to)
{
    if (asks("unlinked")) {
        errno = EPERM;
        return -1;
    }
    return syscall(SYS_linkat, AT_FDCWD, from, AT_FDCWD, to, 0);
}
"""


class JournalFilesTest(ProgramTest):
    """What becomes of a journal's file."""

    def setUp(self):
        self.journal, self.mark = self.folder / "a journal", self.folder / "refused.events"

    def written(self, text):
        """The journal's file, with this text."""
        self.journal.write_bytes(text)
        return self.journal

    def left(self):
        """What there is in the folder but libraries and notes."""
        return sorted(each.name for each in self.folder.iterdir() if each.suffix not in (".so", ".c", ".events"))

    def compiled(self, name, text):
        """A library that is preloaded, made of this text."""
        if shutil.which("cc") is None:
            raise unittest.SkipTest("there is no C compiler cc")
        source, library = self.folder / f"{name}.c", self.folder / f"{name}.so"
        source.write_text(text)
        subprocess.run(["cc", "-shared", "-fPIC", "-O2", "-o", library, source], check=True)
        return library

    def meddled(self, what, *words, lines=LINES):
        """A run of the program in which this is done to it."""
        theirs = self.folder / "theirs"
        named = {"JOURNAL": self.journal, "THEIRS": theirs, "EVENTS": self.folder / "lock.events", "MEDDLING": what}
        library = self.compiled("meddling", MEDDLING)
        environment = {**os.environ, "LD_PRELOAD": str(library), **{name: str(each) for name, each in named.items()}}
        return program(*words, lines=lines, env=environment)

    def test_a_failed_start_leaves_the_file_of_another_process(self):
        """Another process puts its own file in the new journal's place, and then the start fails: its file stays."""
        image = self.folder / "image"
        for words in (
            ("console", "--sync", "--journal", self.journal), ("load", "--sync", "--journal", self.journal, image),
            ("serve", "--port", "PORT", "--seats", "1", "--keep-seats", "--sync", "--journal", self.journal),
        ):
            image.write_bytes(b"IMAGE1 4000\n0400 02 ~HI\nEND 0400\n")
            self.journal.unlink(missing_ok=True)
            (self.folder / "theirs").write_bytes(THEIRS)
            ran = at_a_port(
                lambda port: self.meddled("replace", *(str(port) if word == "PORT" else word for word in words)))
            self.expect(f"{words[0]}: the start fails", ran, 1, b"", f"ibm1401: {self.journal}: cannot be written\n")
            self.holds(f"{words[0]}: their file", self.journal, THEIRS)

    def test_a_failed_start_leaves_no_file_of_its_own(self):
        """The folder isn't synced: neither the journal nor another file is left."""
        ran = self.meddled("unsynced", "console", "--sync", "--journal", self.journal)
        self.expect("the start fails", ran, 1, b"", f"ibm1401: {self.journal}: cannot be written\n")
        self.same("no file is left", self.left(), [])

    def test_a_journal_is_locked_before_it_has_its_name(self):
        """No other process can open a new journal before this one has locked it."""
        self.expect("a session", self.meddled("note", "console", "--journal", self.journal), 0, REPLIES)
        self.same("the journal's name at the lock", (self.folder / "lock.events").read_bytes(), b"unnamed ")
        self.holds("the journal", self.journal, HEAD + FIRST)
        self.same("no other file is left", self.left(), ["a journal"])

    def test_a_lock_that_another_process_has_leaves_no_empty_journal(self):
        """A new file that can't be locked is taken away again."""
        ran = self.meddled("locked", "console", "--journal", self.journal)
        self.expect("the start fails", ran, 1, b"", f"ibm1401: {self.journal}: is in use\n")
        self.same("no file is left", self.left(), [])

    def test_a_file_system_without_links_has_journals_too(self):
        """There the file is made under its name, and locked; one that is there isn't overwritten."""
        self.expect("a session", self.meddled("unlinked", "console", "--journal", self.journal), 0, REPLIES)
        self.holds("the journal", self.journal, HEAD + FIRST)
        ran = self.meddled("unlinked", "console", "--journal", self.journal)
        self.expect("it isn't overwritten", ran, 1, b"", f"ibm1401: {self.journal}: already exists\n")
        self.holds("it stays", self.journal, HEAD + FIRST)
        self.same("no other file is left", self.left(), ["a journal"])

    def test_a_file_system_that_is_read_only_is_reported_as_denied(self):
        folder = self.folder / "read only"
        folder.mkdir()
        mounted = 'mount -t tmpfs -o ro none "$1" 2> /dev/null || exit 77; exec "$0" console --journal "$1/new"'
        words = ["unshare", "--mount", "sh", "-c", mounted, str(PROGRAM), str(folder)]
        if not shutil.which("unshare"):
            self.skipTest("there is no unshare")
        ran = subprocess.run(words, input=LINES, capture_output=True, timeout=SECONDS)
        if ran.returncode == 77 or ran.stderr.startswith(b"unshare:"):
            self.skipTest("nothing may be mounted here")
        self.expect("the session", ran, 1, "", f"ibm1401: {folder / 'new'}: permission denied\n")

    def test_a_name_that_is_taken_stays(self):
        """A link to nowhere, a folder and a file are there already, and nothing is left next to them."""
        for name, make in [
            ("a link", lambda path: path.symlink_to("nowhere")), ("a folder", lambda path: path.mkdir()),
            ("a file", lambda path: path.write_bytes(THEIRS)),
        ]:
            path = self.folder / name
            make(path)
            ran = program("console", "--journal", path, lines=LINES)
            self.expect(f"{name}", ran, 1, b"", f"ibm1401: {path}: already exists\n")
        self.same("nothing else is left", self.left(), ["a file", "a folder", "a link"])

    def test_a_room_that_cannot_begin_leaves_no_journal(self):
        """A room whose first commands can't be given, for lack of memory or of a seat, leaves no new journal."""
        other = self.folder / "of two seats"
        other.write_bytes(HEAD + b"1\t2\tSTART 4000\tREFUSED 1 ADDRESS\n")
        words = ["resume", other, "--journal", self.journal, "--seats", "1", "--port"]
        ran = at_a_port(lambda port: program(*words, str(port)))
        self.expect("no seat 2", ran, 1, b"", "ibm1401: there is no seat 2, whose commands the journal has\n")
        self.same("no new journal is left", self.left(), ["of two seats"])
        image = self.folder / "image"
        image.write_bytes(b"IMAGE1 4000\n0400 02 ~HI\nEND 0400\n")
        reached = False
        for number in range(1, MOST_GROWTHS):
            words = ("serve", "--image", image, "--seats", "1", "--keep-seats", "--journal", self.journal, "--port")
            ran = at_a_port(lambda port: self.refused(number, *words, str(port))[0])
            if not self.mark.exists():
                break
            listened = ran.stdout.startswith(b"READY\n")
            reached |= not listened and ran.returncode == 1
            self.same(f"growth {number} refused: the journal is there if the room was", self.journal.exists(), listened)
            self.journal.unlink(missing_ok=True)
        self.same("a start was refused", reached, True)

    def session(self, *words, **how):
        """A session that goes on, with pipes."""
        pipes = {"stdin": subprocess.PIPE, "stdout": subprocess.PIPE, "stderr": subprocess.PIPE}
        ran = subprocess.Popen([PROGRAM, *map(str, words)], **pipes, **how)
        self.addCleanup(self.end, ran)
        return ran

    def end(self, ran):
        """Ends a session."""
        ran.kill()
        ran.communicate()

    def noticed(self, name, meddle, text):
        """A kept journal that another process meddles with: the next command has no reply, and the session ends."""
        self.journal.unlink(missing_ok=True)
        ran = self.session("console", "--journal", self.journal)
        ran.stdin.write(b"DEPOSIT 0700 ~999\n")
        ran.stdin.flush()
        self.same(f"{name}: the first reply", ran.stdout.readline(), b"OK\n")
        meddle()
        output, error = ran.communicate(b"EXAMINE 0700\nEXAMINE 0700\n", timeout=SECONDS)
        ran = subprocess.CompletedProcess(name, ran.returncode, output, error)
        self.expect(f"{name}: the next command isn't kept", ran, 1, b"", UNKEPT)
        self.holds(f"{name}: the file", self.journal, text)

    def test_a_journal_that_was_cut_or_taken_away_is_noticed(self):
        """The entry after that isn't kept, and so no reply goes out that no file has."""
        self.noticed("a journal that is taken away", self.journal.unlink, b"(no file)")
        self.noticed("a journal that is cut", lambda: os.truncate(self.journal, 20), (HEAD + FIRST)[:20])
        self.noticed("a journal that is emptied", lambda: self.journal.write_bytes(b""), b"")
        self.noticed("a journal that another one is put over", self.replace, THEIRS)
        self.noticed("a journal that is added to", self.add, HEAD + FIRST + THEIRS)

    def replace(self):
        """Puts another file in the journal's place."""
        theirs = self.folder / "theirs"
        theirs.write_bytes(THEIRS)
        theirs.rename(self.journal)

    def add(self):
        """Adds to the journal."""
        with self.journal.open("ab") as file:
            file.write(THEIRS)

    def test_a_journal_that_is_renamed_is_kept_on(self):
        """A journal keeps its lines under its new name, or under another that it has."""
        ran = self.session("console", "--journal", self.journal)
        ran.stdin.write(b"DEPOSIT 0700 ~999\n")
        ran.stdin.flush()
        ran.stdout.readline()
        moved = self.folder / "moved"
        self.journal.rename(moved)
        output, _ = ran.communicate(b"EXAMINE 0700\n", timeout=SECONDS)
        self.same("the next reply", (ran.returncode, output), (0, b"~9\n"))
        self.holds("the journal", moved, HEAD + FIRST + b"2\t0\tEXAMINE 0700 1\t~9\n")

    def test_a_limit_on_the_size_of_files_ends_a_session_in_order(self):
        """The process isn't killed by the signal: the line that goes beyond the limit isn't kept."""
        most = len(HEAD + FIRST) + 10
        limit = {"preexec_fn": lambda: resource.setrlimit(resource.RLIMIT_FSIZE, (most, most))}
        ran = program("console", "--journal", self.journal, lines=b"DEPOSIT 0700 ~999\n" + LINES, **limit)
        self.expect("a line beyond the limit", ran, 1, b"OK\n", UNKEPT)
        self.holds("it breaks off", self.journal, HEAD + FIRST + b"2\t0\tDEPOSIT 0700 ~999\tOK\n"[:10])
        self.journal.unlink()
        none = {"preexec_fn": lambda: resource.setrlimit(resource.RLIMIT_FSIZE, (0, 0))}
        ran = program("console", "--journal", self.journal, lines=LINES, **none)
        self.expect("a head beyond the limit", ran, 1, b"", f"ibm1401: {self.journal}: cannot be written\n")
        self.same("no file is left", self.left(), [])

    def test_what_is_no_regular_file_is_not_taken_up(self):
        """A pipe, a device and a folder keep no journal."""
        pipe = self.folder / "pipe"
        os.mkfifo(pipe)
        no_file = "is not a regular file"
        for path, told in (pipe, no_file), ("/dev/null", no_file), (self.folder, "is a folder"):
            ran = program("resume", path, lines=LINES, timeout=REPLY_SECONDS)
            self.expect(f"resume {path}", ran, 1, b"", f"ibm1401: {path}: {told}\n")

    def test_a_pipe_that_has_a_journal_is_shown(self):
        """Where nothing is added a pipe will do."""
        journal = HEAD + FIRST
        ran = program("journal", "--check", "/dev/stdin", lines=journal)
        self.expect("a journal from a pipe", ran, 0, b"1 entries\n")

    def refused(self, number, *words, lines=b""):
        """A run in which the allocation of this number is refused, and whether it was asked for."""
        library = self.folder / "refuse_growth.so"
        if not library.exists():
            self.compiled("refuse_growth", (GROWTH.read_text()))
        self.mark.unlink(missing_ok=True)
        asked = {"LD_PRELOAD": library, "REFUSED_GROWTH": number, "REFUSED_FILE": self.mark}
        environment = {**os.environ, **{name: str(each) for name, each in asked.items()}}
        return program(*words, lines=lines, env=environment), self.mark.exists()

    def test_memory_that_is_refused_is_no_fault_of_a_file(self):
        """Whichever allocation is refused, a journal's text is never blamed for it."""
        self.written(HEAD + b"".join(b"%d\t0\tDEPOSIT 0700 ~999\tOK\n" % number for number in range(1, 4)))
        before, new = self.journal.read_bytes(), self.folder / "new"
        listing = program("journal", self.journal).stdout
        for words, output in [
            (("journal", self.journal), listing), (("journal", "--check", self.journal), b"3 entries\n"),
            (("resume", self.journal), b""), (("resume", "--until", "2", self.journal), b""),
            (("resume", "--without", "2", "--journal", new, self.journal), b""),
        ]:
            name, wrong, failed = " ".join(words[:-1][:2]), [], 0
            for number in range(1, MOST_GROWTHS):
                new.unlink(missing_ok=True)
                ran, refused = self.refused(number, *words)
                if not refused:
                    break
                failed += ran.returncode != 0
                end = (ran.returncode, ran.stdout, ran.stderr, new.exists())
                if ran.returncode != 0 and end != (1, b"", MEMORY, False):
                    wrong.append(f"growth {number}: {end}")
            self.check(f"{name}: each growth refused in turn", wrong)
            self.same(f"{name}: some of them ended it", failed > 0, True)
            self.expect(f"{name}: with ample memory", ran, 0, output)
        self.holds("the journal stays", self.journal, before)

    def test_many_commands_are_left_out_in_about_the_time_of_one(self):
        """Leaving out each second of 40,000 commands takes no more than a few times as long as leaving out one."""
        count = 40_000
        entries = b"".join(b"%d\t0\tDEPOSIT 0700 ~999\tOK\n" % number for number in range(1, count + 1))
        self.written(HEAD + entries)
        took = {}
        for without in (["1"], [str(number) for number in range(2, count, 4)]) * TURNS:
            new = self.folder / "without"
            begun = resource.getrusage(resource.RUSAGE_CHILDREN).ru_utime
            ran = program("resume", "--without", ",".join(without), "--journal", new, self.journal)
            took.setdefault(len(without), []).append(resource.getrusage(resource.RUSAGE_CHILDREN).ru_utime - begun)
            self.expect(f"{len(without)} left out", ran, 0)
            self.same("the entries", new.read_bytes().count(b"\n"), count - len(without) + 1)
            new.unlink()
        # Other processes make some turns slower, and none faster.
        one, many = map(min, took.values())
        self.check("the time", f"{many} s for {one} s" if many > 3 * one + 0.2 else "")


GROWTH = TOP / "tests/refuse_growth.c"
