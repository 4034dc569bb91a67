"""Journals of a console that are kept: written before each reply, shown, checked, taken up again, also after a kill."""
import random
import resource
import signal
import subprocess
import unittest

from tests.preloaded import needs_compiler, preloading
from tests.support import PROGRAM, REPLY_SECONDS, ProgramTest, misuse, program, wait_until

LINES = b"DEPOSIT 0700 ~999\nEXAMINE 0700 3\nSTART 4000\nQUIT\n"
REPLIES = b"OK\n~999\nREFUSED 1 ADDRESS\nBYE\n"
TEXT = (b"JOURNAL1 4000\n1\t0\tDEPOSIT 0700 ~999\tOK\n2\t0\tEXAMINE 0700 3\t~999\n"
        b"3\t0\tSTART 4000\tREFUSED 1 ADDRESS\n")
LISTING = (b"1 seat 0  DEPOSIT 0700 ~999            OK\n2 seat 0  EXAMINE 0700 3               ~999\n"
           b"3 seat 0  START 4000                   REFUSED 1 ADDRESS\n")
UNKEPT = "ibm1401: session ended: UNKEPT\n"
# How many sessions are killed.
KILLS = 40


class Kept(ProgramTest):
    """Journals that are written, shown, checked and gone on with."""

    def setUp(self):
        self.path = self.folder / "a.journal"

    def test_a_console_is_kept_and_goes_on(self):
        self.expect("a console is kept", program("console", "--journal", self.path, lines=LINES), 0, REPLIES)
        self.holds("each command is a line", self.path, TEXT)
        ran = program("resume", self.path, lines=b"EXAMINE 0700 3\n")
        self.expect("the session goes on", ran, 0, b"~999\n")
        self.holds("in the same file", self.path, TEXT + b"4\t0\tEXAMINE 0700 3\t~999\n")

    def test_a_journal_is_shown_and_checked(self):
        self.path.write_bytes(TEXT)
        self.expect("shown", program("journal", self.path), 0, LISTING)
        third = LISTING.splitlines(keepends=True)[2]
        self.expect("shown from an entry on", program("journal", "--from", "3", self.path), 0, third)
        self.expect("another seat has no entry", program("journal", "--seat", "1", self.path), 0, b"")
        self.expect("checked", program("journal", "--check", self.path), 0, b"3 entries\n")

    def test_a_file_that_cannot_be_made(self):
        self.path.write_bytes(TEXT)
        again = program("console", "--journal", self.path, lines=LINES)
        self.expect("a journal isn't overwritten", again, 1, b"", f"ibm1401: {self.path}: already exists\n")
        ran = program("console", "--journal", "/dev/full")
        self.expect("nor a device", ran, 1, b"", "ibm1401: /dev/full: already exists\n")
        path = self.folder / "no folder" / "a.journal"
        ran = program("console", "--journal", path)
        self.expect("no journal without its folder", ran, 1, b"", f"ibm1401: {path}: no such file\n")

    def test_a_journal_in_use(self):
        self.path.write_bytes(TEXT)
        with subprocess.Popen([PROGRAM, "resume", self.path], stdin=subprocess.PIPE, stdout=subprocess.PIPE) as first:
            first.stdin.write(b"START 1\n")
            first.stdin.flush()
            first.stdout.readline()
            self.expect("by another", program("resume", self.path), 1, b"", f"ibm1401: {self.path}: is in use\n")
            first.stdin.close()
            first.wait(REPLY_SECONDS)

    def test_a_line_that_cannot_be_written(self):
        """A file that may grow by ten bytes more."""
        self.path.write_bytes(TEXT)

        def limited():
            signal.signal(signal.SIGXFSZ, signal.SIG_IGN)
            resource.setrlimit(resource.RLIMIT_FSIZE, (len(TEXT) + 10,) * 2)

        ran = program("resume", self.path, lines=b"START 2\nSTART 3\n", preexec_fn=limited)
        self.expect("its command has no reply", ran, 1, b"", UNKEPT)
        self.holds("its line breaks off", self.path, TEXT + b"4\t0\tSTART 0002\tOK\n"[:10])

    def test_sync_needs_a_journal(self):
        """It is refused before anything is read or made."""
        missing = "the following required arguments were not provided:\n  --journal <NEW>"
        nothing = "--until records nothing without --journal, so --sync has nothing to write"
        self.path.write_bytes(TEXT)
        for words, error in [
            (["console", "--sync"], misuse(missing, "console --journal <NEW> --sync")),
            (["load", "--sync", self.folder / "none"], misuse(missing, "load --journal <NEW> --sync <FILE>")),
            (["resume", "--sync", "--until", "1", self.path], misuse(nothing, "resume [OPTIONS] <FILE>")),
        ]:
            self.expect(words[0], program(*words, lines=LINES), 2, b"", error)
        self.holds("the journal stays as it is", self.path, TEXT)


class Chosen(ProgramTest):
    """Commands are left out, or only the first are given again."""

    def setUp(self):
        self.path, self.new = self.folder / "b.journal", self.folder / "c.journal"
        program("console", "--journal", self.path, lines=b"DEPOSIT 0700 A\nDEPOSIT 0700 B\nEXAMINE 0700\n")
        self.before = self.path.read_bytes()

    def tearDown(self):
        self.assertEqual(self.before, self.path.read_bytes())

    def test_without_an_entry(self):
        ran = program("resume", "--without", "2", "--journal", self.new, self.path)
        self.expect("a command is taken back", ran, 0, b"")
        text = b"JOURNAL1 4000\n1\t0\tDEPOSIT 0700 A\tOK\n2\t0\tEXAMINE 0700 1\tA\n"
        self.holds("the others are given again", self.new, text)

    def test_until_an_entry(self):
        ran = program("resume", "--until", "1", self.path, lines=b"EXAMINE 0700\n")
        self.expect("the machine as it was", ran, 0, b"A\n")
        ran = program("resume", "--until", "0", self.path, lines=b"EXAMINE 0700\n")
        self.expect("the machine at power-on", ran, 0, b" \n")

    def test_no_such_entry(self):
        ran = program("resume", "--until", "4", self.path)
        self.expect("no entry 4", ran, 1, b"", "ibm1401: there is no entry 4\n")
        ran = program("resume", "--without", "0", "--journal", self.new, self.path)
        self.expect("no entry 0", ran, 1, b"", "ibm1401: there is no entry 0\n")
        self.check("no file is made", "it is there" if self.new.exists() else "")

    def test_without_entries_of_a_list(self):
        ran = program("resume", "--without", "1,3", "--journal", self.new, self.path)
        self.expect("two of three", ran, 0, b"")
        self.holds("the other is given again", self.new, b"JOURNAL1 4000\n1\t0\tDEPOSIT 0700 B\tOK\n")
        none = self.folder / "none"
        for word in "1,x", "x", "1,", "1;2":
            ran = program("resume", "--without", word, "--journal", none, self.path)
            self.expect(f"{word} is no list of numbers", ran, 2, b"", "error: --without takes numbers ...")
        self.check("no file is made", "it is there" if none.exists() else "")


class Refused(ProgramTest):
    """What isn't the text of a journal is refused and left as it is."""

    def setUp(self):
        self.path = self.folder / "e.journal"

    def test_each_fault(self):
        for name, text, fault in [
            ("another version", TEXT.replace(b"JOURNAL1", b"JOURNAL2"), "line 1: 2 HEADER"),
            ("a changed answer", TEXT.replace(b"\t~999\n", b"\t~998\n"), "line 3: 6 ANSWER"),
            ("a changed command", TEXT.replace(b"0700 3", b"0700 2"), "line 3: 6 ANSWER"),
            ("an entry that is gone", TEXT.replace(b"1\t0\tDEPOSIT 0700 ~999\tOK\n", b""), "line 2: 3 NUMBER"),
            ("no text", b"", "line 1: 8 UNFINISHED"),
        ]:
            self.path.write_bytes(text)
            error = f"ibm1401: {self.path}: {fault}\n"
            self.expect(f"{name}: checked", program("journal", "--check", self.path), 1, b"", error)
            self.expect(f"{name}: not shown", program("journal", self.path), 1, b"", error)
            self.expect(f"{name}: taken up", program("resume", self.path), 1, b"", error)
            self.holds(f"{name}: left as it is", self.path, text)

    def test_a_journal_whose_last_line_is_cut(self):
        self.path.write_bytes(TEXT[:-1])
        shown, error = b"".join(LISTING.splitlines(True)[:2]), f"ibm1401: {self.path}: line 4: 8 UNFINISHED\n"
        self.expect("it is shown", program("journal", self.path), 1, shown, error)
        ran = program("resume", self.path, lines=b"START 1\n")
        self.expect("it is taken up", ran, 0, b"OK\n", "ibm1401: line 4 was unfinished and was discarded\n")
        text = b"".join(TEXT.splitlines(True)[:3]) + b"3\t0\tSTART 0001\tOK\n"
        self.holds("without that line", self.path, text)


@needs_compiler
class Synced(ProgramTest):
    """With --sync each entry is written once and synced once before its reply, and without it none is."""

    def noted(self, words, lines=LINES, refused=0):
        """A run in which the sync of this number is refused, and the order of its writes and syncs: w a write of a
        journal, s a sync of it, f one of its folder, x a sync that is refused, r a reply."""
        events = self.folder / "events"
        events.unlink(missing_ok=True)
        how = preloading("refuse_sync", EVENTS_FILE=events, REFUSED_SYNC=refused)
        return program(*words, lines=lines, **how), events.read_bytes() if events.exists() else b""

    def hold(self, name, words, order):
        """Subtests: a session has its replies, and its writes and syncs have this order."""
        ran, events = self.noted(words)
        self.expect(f"{name}: its replies", ran, 0, REPLIES)
        self.same(f"{name}: its writes and syncs", events, order)

    def test_a_console(self):
        """The journal is the same text, synced or not."""
        for number, (words, order) in enumerate([
            ([], b"w" + 3 * b"wr" + b"r"),
            (["--sync"], b"fws" + 3 * b"wsr" + b"r"),
        ]):
            for turned in False, True:
                path = self.folder / f"{number}{turned}.journal"
                call = ["--journal", path, *words] if turned else [*words, "--journal", path]
                self.hold(f"console {' '.join(words)}, {number}{turned}", ["console", *call], order)
                self.holds(f"its text, {number}{turned}", path, TEXT)

    def test_a_persons_console(self):
        """Each entry is synced before its answer; a refused sync ends the console, and the line is in the file."""
        lines = b"deposit 400 ~A\ndeposit 401 B\n"
        answers = b"4000 places; next is 0000; help lists the words\n00400  ~A\n00401  B\n"
        path = self.folder / "kept"
        for words, order in ([], b"w" + 2 * b"w"), (["--sync"], b"fws" + 2 * b"ws"):
            path.unlink(missing_ok=True)
            ran, events = self.noted(["operate", "--journal", path, *words], lines)
            self.expect(f"operate {' '.join(words)}", ran, 0, answers)
            self.same(f"operate {' '.join(words)}: its writes and syncs", events.replace(b"r", b""), order)
        whole = path.read_bytes()
        path.unlink()
        ran, _ = self.noted(["operate", "--journal", path, "--sync"], lines, refused=4)
        self.expect("a sync that is refused", ran, 1, b"...", "ibm1401: session ended: UNKEPT\n")
        self.check("its answer isn't shown", "00401" if b"00401" in ran.stdout else "")
        self.holds("its line is in the file", path, whole)

    def test_an_image(self):
        image = self.folder / "an image"
        image.write_bytes(b"IMAGE1 4000\n0400 02 ~HI\nEND 0400\n")
        after = TEXT.splitlines(keepends=True)[1:]
        text = b"JOURNAL1 4000\n1\t0\tDEPOSIT 0400 ~HI\tOK\n2\t0\tSTART 0400\tOK\n"
        text += b"".join(b"%d%s" % (number, line[1:]) for number, line in enumerate(after, 3))
        for number, (before, after_it, order) in enumerate([
            (["--journal"], [image], b"w" + 3 * b"wr" + b"r"),
            (["--sync", "--journal"], [image], b"fws" + 3 * b"wsr" + b"r"),
            ([image], ["--sync"], b"fws" + 3 * b"wsr" + b"r"),
            ([image], [], b"w" + 3 * b"wr" + b"r"),
        ]):
            path = self.folder / f"{number}.journal"
            named = [path] if "--journal" in before else [f"--journal={path}"]
            self.hold(f"load, call {number}", ["load", *before, *named, *after_it], order)
            self.holds(f"its text, call {number}", path, text)

    def test_a_resume(self):
        path = self.folder / "g.journal"
        path.write_bytes(TEXT)
        for name, words, order in [
            ("resume", [path], 3 * b"wr" + b"r"),
            ("resume --sync", ["--sync", path], b"f" + 3 * b"wsr" + b"r"),
            ("resume, --sync last", [path, "--sync"], b"f" + 3 * b"wsr" + b"r"),
            ("resume --until 1, which keeps nothing", [path, "--until", "1"], 3 * b"r" + b"r"),
        ]:
            self.hold(name, ["resume", *words], order)

    def test_a_resume_in_a_new_file(self):
        path = self.folder / "g.journal"
        path.write_bytes(TEXT)
        after = TEXT.splitlines(keepends=True)[1:]
        text = b"JOURNAL1 4000\n1\t0\tDEPOSIT 0700 ~999\tOK\n"
        text += b"".join(b"%d%s" % (number, line[1:]) for number, line in enumerate(after, 2))
        for name, words, order in [
            ("l", ["--until", "1", "--journal", self.folder / "l", path], b"w" + 3 * b"wr" + b"r"),
            ("m", ["--sync", "--until", "1", "--journal", self.folder / "m", path], b"fws" + 3 * b"wsr" + b"r"),
            ("t", [path, "--sync", "--until=1", f"--journal={self.folder}/t"], b"fws" + 3 * b"wsr" + b"r"),
        ]:
            self.hold(name, ["resume", *words], order)
            self.holds(f"{name}: its text", self.folder / name, text)

    def test_a_sync_that_is_refused(self):
        """Its command has no reply, and the session ends; its line is in the file, and is taken up."""
        path, entries = self.folder / "n.journal", TEXT.splitlines(keepends=True)
        ran, events = self.noted(["console", "--sync", "--journal", path], refused=4)
        self.expect("a command that isn't synced has no reply", ran, 1, b"OK\n", UNKEPT)
        self.same("after it nothing is written", events, b"fwswsrwx")
        self.holds("its line is there", path, b"".join(entries[:3]))
        ran = program("resume", "--sync", path, lines=b"START 4000\n")
        self.expect("it is taken up", ran, 0, b"REFUSED 1 ADDRESS\n")
        self.holds("it goes on after that line", path, TEXT)
        ran, _ = self.noted(["resume", "--sync", path], b"START 1\nSTART 2\n", 2)
        self.expect("no reply after a resume either", ran, 1, b"", UNKEPT)
        self.holds("its line is there too", path, TEXT + b"4\t0\tSTART 0001\tOK\n")

    def test_a_new_journal_whose_sync_is_refused(self):
        path = self.folder / "o.journal"
        for number, order in (1, b"x"), (2, b"fwx"):
            ran, events = self.noted(["console", "--sync", "--journal", path], refused=number)
            self.expect(f"sync {number}", ran, 1, b"", f"ibm1401: {path}: cannot be written\n")
            self.same(f"sync {number}: nothing else is written", events, order)
            self.check(f"sync {number}: no file is left", "it is there" if path.exists() else "")

    def test_a_folder_that_is_not_synced(self):
        path, text = self.folder / "o.journal", TEXT + b"4\t0\tSTA"
        path.write_bytes(text)
        ran, _ = self.noted(["resume", "--sync", path], refused=1)
        self.expect("the journal isn't taken up", ran, 1, b"", f"ibm1401: {path}: cannot be written\n")
        self.holds("and is as it was", path, text)


class Killed(ProgramTest):
    """Sessions killed at moments of chance."""

    def test_what_was_answered_is_kept(self):
        chance = random.Random(1401)
        for turn in range(KILLS):
            path, given, replies = self.folder / f"{turn}.journal", self.folder / "lines", self.folder / "replies"
            lines = [b"START %d\n" % chance.randrange(1, 1000) for _ in range(50_000)]
            given.write_bytes(b"".join(lines))
            with given.open("rb") as typed, replies.open("wb") as paper:
                with subprocess.Popen([PROGRAM, "console", "--journal", path], stdin=typed, stdout=paper) as session:
                    many = 3 * chance.randrange(10_000)
                    wait_until(lambda: path.exists() and replies.stat().st_size >= many)
                    session.kill()
            answered = replies.read_bytes().count(b"\n")
            self.check(f"turn {turn}, killed after {answered} replies", wrong_with(path, lines, answered))


def wrong_with(path, lines, answered):
    """What is wrong with the journal of a session that was killed after this many replies: it has their commands in
    order, and one more at most."""
    if not path.exists():
        return "replies without a journal" if answered else ""
    ran = program("resume", path, lines=b"QUIT\n")
    found = [line.split(b"\t")[2] for line in path.read_bytes().splitlines()[1:]]
    if ran.returncode != 0 and (answered or b"line 1: 8 UNFINISHED" not in ran.stderr):
        return f"it isn't taken up: {ran.stderr}"
    if not answered <= len(found) <= answered + 1:
        return f"{answered} answered, {len(found)} kept"
    if [b"START %d" % int(command.split()[1]) for command in found] != [line[:-1] for line in lines[:len(found)]]:
        return "other commands"
    return ""


if __name__ == "__main__":
    unittest.main()
