"""`console` and the program's own words: exit statuses, standard error, sizes, streams that fail, and bounds."""
import os
import re
import resource
import select
import signal
import socket
import subprocess
import tempfile
import unittest

from tests.limits import bounds_memory, within
from tests.preloaded import needs_compiler, preloading
from tests.session_texts import GRAPHICS
from tests.support import (EXAMPLES, LONE, MOST_BYTES, MOST_ENTRIES, PROGRAM, REPLY_SECONDS, TESTS, ProgramTest, misuse,
                           program, run, shell)

READ, WRITE = "ibm1401: session ended: READ\n", "ibm1401: session ended: WRITE\n"


def help_texts():
    """What the program's help says: that of the program, and of each subcommand that it lists."""
    whole = program("--help").stdout.decode()
    listed = re.findall(r"^  (\w+) ", whole.partition("Commands:\n")[2].partition("\n\n")[0], re.MULTILINE)
    texts = [("", whole)]
    texts += [(f" {name}", program(name, "--help").stdout.decode()) for name in listed if name != "help"]
    return "".join(f"$ ibm1401{words} --help\n{text}" for words, text in texts)


class Statuses(ProgramTest):
    """Each exit status, with the text of standard error."""

    def test_a_session_ends_with_0(self):
        self.expect("QUIT", program("console", lines=b"QUIT\n"), 0, "BYE\n")
        self.expect("the end of input", program("console"), 0)
        self.expect("a refused line", program("console", lines=b"HELLO\n"), 0, "ERROR 1 WORD\n")

    def test_help_ends_with_0(self):
        self.expect("the program's", program("--help"), 0, "An IBM 1401 card system...")
        self.expect("a subcommand's", program("console", "--help"), 0, "Carries out the lines...")

    def test_help_texts(self):
        """Where one was changed on purpose, ./check --help-texts renews them."""
        found, wanted = (text.split("$ ibm1401")[1:] for text in (help_texts(), (TESTS / "help.txt").read_text()))
        titles = [text.partition(" --help\n")[0] for text in wanted]
        self.same("there is one for each subcommand", [text.partition(" --help\n")[0] for text in found], titles)
        for text, title in zip(wanted, titles):
            self.check(f"ibm1401{title}", "" if text in found else "its help is another")

    def test_misuse_ends_with_2(self):
        """It says why, and nothing is written to standard output."""
        usage, number, tip = "console [OPTIONS]", "'--size <N>'", "  tip: a similar subcommand exists: 'console'"
        near = "  tip: a similar argument exists: '--fit'"
        for words, error in [
            (["console", "--bad"], misuse("unexpected argument '--bad' found", usage)),
            (["console", "--xref"], misuse("unexpected argument '--xref' found", usage)),
            (["console", "--list"],
             misuse(f"unexpected argument '--list' found\n\n{near}", "console --fit <FEATURES>")),
            (["console", "extra"], misuse("unexpected argument 'extra' found", usage)),
            (["console", "--size", "-1"], misuse("unexpected argument '-1' found", usage)),
            (["console", "--size"], misuse(f"a value is required for {number} but none was supplied")),
            (["console", "--size", "x"], misuse(f"invalid value 'x' for {number}: invalid digit found in string")),
            (["console", "--size", "65536"], misuse(f"invalid value '65536' for {number}: 65536 is not in 0..=65535")),
            (["--bad"], misuse("unexpected argument '--bad' found", "<COMMAND>")),
            (["consol"], misuse(f"unrecognized subcommand 'consol'\n\n{tip}", "<COMMAND>")),
            ([], "error: 'ibm1401' requires a subcommand but one was not provided\n..."),
            ([b"\xff"], "ibm1401: command line refused: it isn't UTF-8\n"),
        ]:
            ran = program(*words, lines=b"EXAMINE 0\n")
            self.expect(f"{words}", ran, 2, "", error)

    def test_streams_that_are_closed_or_take_nothing(self):
        refused, size, unwritten = "error: ...", "ibm1401: size refused\n", "ibm1401: cannot write\n"
        for words, status, output, error in [
            ("--bad 2>/dev/full", 2, "", ""),
            ("--help >/dev/full 2>/dev/full", 1, "", ""),
            ("$'\\xff' 2>/dev/full", 2, "", ""),
            ("console --bad 2>&-", 2, "", ""),
            ("console --bad 2>/dev/full", 2, "", ""),
            ("console --bad >&-", 2, "", refused),
            ("console --bad >/dev/full", 2, "", refused),
            ("console --size 17 2>&-", 1, "", ""),
            ("console --size 17 2>/dev/full", 1, "", ""),
            ("console --size 17 >&-", 1, "", size),
            ("--help >&-", 1, "", unwritten),
            ("--help >/dev/full", 1, "", unwritten),
            ("--help >/dev/full 2>&-", 1, "", ""),
            ("--help 2>&-", 0, "An IBM 1401 card system...", ""),
            ("console --help >/dev/full", 1, "", unwritten),
            ("console <<< QUIT >&-", 1, "", WRITE),
            ("console <<< QUIT >/dev/full", 1, "", WRITE),
            ("console <<< QUIT >/dev/full 2>/dev/full", 1, "", ""),
            ("console <<< '' >/dev/full", 0, "", ""),
            ("console <<< QUIT 2>&-", 0, "BYE\n", ""),
            ("console <&-", 1, "", READ),
        ]:
            self.expect(f"ibm1401 {words}", shell(f'"$0" {words}'), status, output, error)


class Lines(ProgramTest):
    """Lines whose bytes or lengths a session text doesn't show."""

    def test_what_is_no_graphic_and_what_is_too_long(self):
        nines = b"9" * 79
        for name, line, reply in [
            ("one carriage return after a line", b"QUIT\r", "BYE\n"),
            ("two of them", b"QUIT\r\r", "ERROR 1 WORD\n"),
            ("a tab before a word", b"\tREGS", "ERROR 1 WORD\n"),
            ("200 blanks", b" " * 200, ""),
            ("201 blanks", b" " * 201, "ERROR 4 LENGTH\n"),
            ("a line after 201 bytes", b"EXAMINE 0" + b" " * 192 + b"\nEXAMINE 0", "ERROR 4 LENGTH\n \n"),
            ("a carriage return after each line", b"DEPOSIT 0500 K\r\n\r\nEXAMINE 500\r\nQUIT\r", "OK\nK\nBYE\n"),
            ("a byte in a card's last column, before a column too many", b"FEED " + nines + b"\xb99",
             "ERROR 3 GRAPHIC\n"),
        ]:
            self.expect(name, program("console", lines=line + b"\n"), 0, reply)


    def test_a_carriage_return_is_a_byte_of_its_line_where_no_line_feed_follows(self):
        line = b"EXAMINE 0" + b" " * 191
        for name, lines, reply in [
            ("QUIT", b"QUIT\r", "ERROR 1 WORD\n"),
            ("200 bytes, and both", line + b"\r\n", " \n"),
            ("200 bytes, and a carriage return", line + b"\r", "ERROR 4 LENGTH\n"),
        ]:
            self.expect(name, program("console", lines=lines), 0, reply)

    def test_each_byte_is_read(self):
        """256 deposits: each of a graphic is made, and no other byte is one. A line feed ends its line, as a carriage
        return before one does; a line without a text is too short."""
        graphics = GRAPHICS.encode()
        lines = b"".join(b"DEPOSIT 0500 %c\nEXAMINE 0500\n" % byte for byte in range(256))
        replies, shown = b"", b" "
        for byte in range(256):
            is_graphic = byte in graphics
            shown = b"%c" % byte if is_graphic else shown
            fault = b"ERROR 4 LENGTH" if byte in b"\r\n" else b"ERROR 3 GRAPHIC"
            replies += b"%b\n%b\n" % (b"OK" if is_graphic else fault, shown)
        self.expect("the session", program("console", lines=lines), 0, replies)


class Sizes(ProgramTest):
    """Core storage of each size, and of no other."""

    def test_each_size(self):
        for size in "1400", "2000", "4000", "8000", "12000":
            lines = f"EXAMINE {int(size) - 1}\nEXAMINE {size}\n".encode()
            self.expect(size, program("console", "--size", size, lines=lines), 0, " \nREFUSED 1 ADDRESS\n")
        lines = b"EXAMINE 15999\nEXAMINE 15999 2\nEXAMINE 16000\n"
        ran = program("console", "--size", "16000", lines=lines)
        self.expect("16000", ran, 0, " \nREFUSED 1 ADDRESS\nERROR 2 NUMBER\n")
        ran = program("console", lines=b"EXAMINE 3999\nEXAMINE 4000\n")
        self.expect("4,000 where no size is named", ran, 0, " \nREFUSED 1 ADDRESS\n")

    def test_no_other_size(self):
        for size in "0", "100", "1401", "4001", "16001", "65535":
            ran = program("console", "--size", size, lines=b"EXAMINE 0\n")
            self.expect(size, ran, 1, "", "ibm1401: size refused\n")


class Broken(ProgramTest):
    """A read or a write that fails ends a session there, with what went before answered."""

    def test_the_first_read(self):
        folder = os.open("/", os.O_RDONLY)
        self.addCleanup(os.close, folder)
        self.expect("of a folder", program("console", stdin=folder), 1, "", READ)

    def test_a_connection_that_breaks_in_a_line(self):
        """One end of a pair is closed with a byte unread: a read of the other fails once it has had what came."""
        ours, theirs = socket.socketpair()
        with theirs:
            theirs.send(b"x")
            ours.send(b"EXAMINE 0\nEXAMI")
            ours.close()
            self.expect("the session", program("console", stdin=theirs), 1, " \n", READ)

    def test_a_read_that_fails_in_a_line(self):
        """A read of an empty pipe that doesn't wait fails, and would go on when more comes."""
        reads, writes = os.pipe()
        self.addCleanup(os.close, reads)
        self.addCleanup(os.close, writes)
        os.set_blocking(reads, False)
        os.write(writes, b"EXAMINE 0\nEXAMI")
        self.expect("the session", program("console", stdin=reads), 1, " \n", READ)
        os.write(writes, b"NE 0\nQUIT\n")
        self.same("nothing is read after it", os.read(reads, 100), b"NE 0\nQUIT\n")

    def test_a_read_that_fails_in_the_first_line(self):
        """Nothing is answered, and nothing recorded."""
        journal = self.folder / "unfinished.journal"
        reads, writes = os.pipe()
        self.addCleanup(os.close, reads)
        self.addCleanup(os.close, writes)
        os.set_blocking(reads, False)
        for words in [], ["--journal", journal]:
            os.write(writes, b"EXAMINE 0")
            self.expect(f"a session, {len(words)} words", program("console", *words, stdin=reads), 1, "", READ)
        self.holds("the journal has no command", journal, b"JOURNAL1 4000\n")

    @needs_compiler
    def test_writes_that_take_a_part(self):
        """The reply that isn't taken whole is the last, its command is the last in the journal, and no later line is
        read."""
        lines = b"DEPOSIT 0500 ~K\nEXAMINE 0500\nQUIT\n"
        head, entries = b"JOURNAL1 4000\n", [b"1\t0\tDEPOSIT 0500 ~K\tOK\n", b"2\t0\tEXAMINE 0500 1\t~K\n"]
        whole = b"OK\n~K\nBYE\n"
        for width, limit, kept, status, error, unread in [
            (1, 99, 2, 0, "", b""),
            (2, 99, 2, 0, "", b""),
            (3, 99, 2, 0, "", b""),
            (9, 0, 1, 1, WRITE, b"EXAMINE 0500\nQUIT\n"),
            (9, 1, 1, 1, WRITE, b"EXAMINE 0500\nQUIT\n"),
            (2, 2, 1, 1, WRITE, b"EXAMINE 0500\nQUIT\n"),
            (9, 3, 2, 1, WRITE, b"QUIT\n"),
            (1, 5, 2, 1, WRITE, b"QUIT\n"),
        ]:
            for takes_none, keeps in (0, False), (1, False), (0, True), (1, True):
                name = f"{width} bytes with each write, {limit} in all, {takes_none}, {keeps}"
                how = preloading("narrow_writes", WRITE_WIDTH=width, WRITE_LIMIT=limit, WRITE_TAKES_NONE=takes_none)
                journal = self.folder / f"{width}-{limit}-{takes_none}.journal"
                with tempfile.TemporaryFile() as typed:
                    typed.write(lines)
                    typed.seek(0)
                    ran = program("console", *(["--journal", journal] if keeps else []), stdin=typed, **how)
                    self.expect(name, ran, status, whole[:limit], error)
                    self.same(f"{name}: what isn't read", typed.read(), unread)
                if keeps:
                    self.holds(f"{name}: the journal", journal, head + b"".join(entries[:kept]))

    def test_a_second_reply_that_is_not_taken(self):
        def for_one_reply():
            signal.signal(signal.SIGXFSZ, signal.SIG_IGN)
            resource.setrlimit(resource.RLIMIT_FSIZE, (2, 2))

        with tempfile.TemporaryFile() as lines, tempfile.TemporaryFile() as replies:
            lines.write(b"EXAMINE 0\nEXAMINE 0\nQUIT\n")
            lines.seek(0)
            ran = program("console", stdin=lines, stdout=replies, preexec_fn=for_one_reply)
            self.expect("the session", ran, 1, "", WRITE)
            replies.seek(0)
            self.same("the first reply was taken", replies.read(), b" \n")
            self.same("nothing is read after the second", lines.read(), b"QUIT\n")


class Reading(ProgramTest):
    """What follows QUIT stays for the next program, and each reply is there before the next line is asked for."""

    def test_nothing_is_read_after_quit(self):
        with tempfile.TemporaryFile() as lines:
            lines.write(b"EXAMINE 0\nQUIT\nEXAMINE 0\nQUIT\n")
            lines.seek(0)
            self.expect("nothing is answered", program("console", stdin=lines), 0, " \nBYE\n")
            self.same("nothing is read", lines.read(), b"EXAMINE 0\nQUIT\n")

    def test_each_reply_comes_before_the_next_line(self):
        for lines, last in [
            ([], b""),
            ([(b"REGS X\n", b"ERROR 5 EXTRA\n"), (b"\nEXAMINE 0\n", b" \n")], b""),
            ([(b"EXAMINE 0\n", b" \n"), (b"EXAMINE 0", b"")], b" \n"),
            ([(b"DEPOSIT 0 K\n", b"OK\n"), (b"EXAMINE 0\n", b"K\n"), (b"QUIT\n", b"BYE\n")], b""),
            ([(b"QUIT\n", b"BYE\n")], b""),
        ]:
            self.hold_in_turn(b"".join(line for line, _ in lines), lines, last)

    def hold_in_turn(self, name, lines, last):
        """Subtests: each line is given when the one before it was answered: with a reply, with what comes at the end of
        the input, or with the end itself, which QUIT is without an end of the input."""
        pipes = {"stdin": subprocess.PIPE, "stdout": subprocess.PIPE, "stderr": subprocess.PIPE}
        with subprocess.Popen([PROGRAM, "console"], **pipes) as session:
            for line, reply in lines:
                os.write(session.stdin.fileno(), line)
                ready = reply and select.select([session.stdout], [], [], REPLY_SECONDS)[0]
                found = os.read(session.stdout.fileno(), 100) if ready else b""
                self.same(f"{name}: the reply to {line}", found, reply)
                if line == b"QUIT\n":
                    session.wait(REPLY_SECONDS)
            output, error = session.communicate(timeout=REPLY_SECONDS)
        self.same(f"{name}: the end", (session.returncode, output, error), (0, last, b""))


class Bounds(ProgramTest):
    """Sessions that read, or record, as much as there may be, and those whose memory is bounded."""

    def test_the_bytes_of_a_session(self):
        ran = program("console", lines=b"\n" * (MOST_BYTES + 1))
        self.expect("as many as there may be", ran, 1, "", "ibm1401: session ended: BOUND\n")
        ran = program("console", lines=b" " * (MOST_BYTES + 1))
        self.expect("as many, all of one line", ran, 1, "", "ibm1401: session ended: BOUND\n")
        ran = program("console", lines=b"\n" * (MOST_BYTES - 5) + b"QUIT\n")
        self.expect("QUIT with the last of them", ran, 0, "BYE\n")

    def test_a_full_journal(self):
        lines = b"EXAMINE 0\n" * MOST_ENTRIES + b"REGS\nHELLO\nQUIT\n"
        replies = b" \n" * MOST_ENTRIES + b"FAULT 2 JOURNAL FULL\nERROR 1 WORD\nBYE\n"
        self.expect("the session", program("console", lines=lines), 0, replies)

    def test_memory_refused_before_the_session(self):
        bounds_memory(self)
        refused = [program("console", preexec_fn=within(size)) for size in range(120, 400, 8)]
        ends = {(ran.returncode, ran.stderr) for ran in refused}
        self.assertIn((1, b"ibm1401: memory refused\n"), ends)

    def test_a_journal_that_cannot_grow(self):
        """How far it grows within a bound is the system's; from its first refusal on each command is refused."""
        bounds_memory(self)
        ran = program("console", lines=b"EXAMINE 0\n" * MOST_ENTRIES + b"QUIT\n", preexec_fn=within(2_000))
        grown = ran.stdout.find(b"FAULT") // len(b" \n")
        replies = b" \n" * grown + b"FAULT 1 MEMORY\n" * (MOST_ENTRIES - grown) + b"BYE\n"
        self.expect("the session", ran, 0, replies)
        self.check("it has grown before", "" if 0 < grown < MOST_ENTRIES else f"by {grown} entries")


@unittest.skipUnless(LONE.exists(), "crates/console_program isn't built; ./check builds it")
class ConsoleAlone(ProgramTest):
    """The console alone, which the launcher runs where the whole program isn't there: it does what the program does."""

    def test_examples(self):
        sessions = sorted(EXAMPLES.glob("*.console"))
        plain = [lines for lines in sessions if not lines.with_suffix(".image").exists()]
        self.assertTrue(plain)
        for lines in plain:
            replies = lines.with_suffix(".out").read_bytes()
            self.expect(lines.name, run([LONE], lines.read_bytes()), 0, replies)

    def test_its_core_storage(self):
        lines = b"EXAMINE 3999\nEXAMINE 4000\nREGS\nQUIT\nEXAMINE 0\n"
        self.expect("the session", run([LONE], lines), 0, program("console", lines=lines).stdout)

    def test_streams_that_are_closed_or_take_nothing(self):
        for ends, status, error in [
            ("<<< QUIT >&-", 1, WRITE),
            ("<<< QUIT >/dev/full", 1, WRITE),
            ("<<< QUIT >/dev/full 2>/dev/full", 1, ""),
            ("<<< '' >/dev/full", 0, ""),
            ("<&-", 1, READ),
            ("</", 1, READ),
        ]:
            self.expect(ends, run(["bash", "-c", f'"$0" {ends}', LONE]), status, "", error)


if __name__ == "__main__":
    unittest.main()
