"""Standard streams that are closed: each subcommand with each of the three closed, and the files that it writes."""
import os
import subprocess

from tests.support import EXAMPLES, PROGRAM, SECONDS, ProgramTest, at_a_port, shell

LINES = b"DEPOSIT 0700 ~999\nEXAMINE 0700 3\nQUIT\n"
REPLIES = b"OK\n~999\nBYE\n"
HEAD = b"JOURNAL1 4000\n"
FIRST = b"1\t0\tDEPOSIT 0700 ~999\tOK\n"
ENTRIES = FIRST + b"2\t0\tEXAMINE 0700 3\t~999\n"
READ, WRITE = "ibm1401: session ended: READ\n", "ibm1401: session ended: WRITE\n"
CANNOT = "ibm1401: cannot write\n"
IMAGE = b"IMAGE1 4000\n0400 02 ~HI\nEND 0400\n"
LOADED = b"1\t0\tDEPOSIT 0400 ~HI\tOK\n2\t0\tSTART 0400\tOK\n"


class ClosedStreamsTest(ProgramTest):
    """A closed stream stays closed: no file takes its place. Its reads and writes fail, and the status says so."""

    def sessions(self, closed, kept, status, output, error):
        """Sessions in which a stream is closed: their journals have these of the commands."""
        image = self.folder / "image"
        image.write_bytes(IMAGE)
        renumbered = [line[1:] for line in kept.splitlines(keepends=True)]
        after_image = b"".join(b"%d%s" % (number, line) for number, line in enumerate(renumbered, 3))
        for call, first, text in [
            ("console --journal $1", None, HEAD + kept),
            ("load --journal $1 $2", None, HEAD + LOADED + after_image),
            ("resume $1", HEAD, HEAD + kept),
            ("resume --until 0 --journal $1 $3", None, HEAD + kept),
        ]:
            journal, other = self.folder / "a journal", self.folder / "another"
            journal.unlink(missing_ok=True)
            other.write_bytes(HEAD + FIRST)
            if first is not None:
                journal.write_bytes(first)
            words = call.replace("$1", '"$1"').replace("$2", '"$2"').replace("$3", '"$3"')
            ran = shell(f'"$0" {words} {closed}', journal, image, other, lines=LINES)
            self.expect(f"{call} {closed}", ran, status, output, error)
            self.holds(f"{call} {closed}: the journal", journal, text)
            self.holds(f"{call} {closed}: the other journal", other, HEAD + FIRST)
        for call in "console", 'load "$1"', 'resume --until 0 "$2"':
            other.write_bytes(HEAD + FIRST)
            ran = shell(f'"$0" {call} {closed}', image, other, lines=LINES)
            self.expect(f"{call} {closed}", ran, status, output, error)
            self.holds(f"{call} {closed}: the image", image, IMAGE)
            self.holds(f"{call} {closed}: the other journal", other, HEAD + FIRST)

    def test_a_session_whose_input_is_closed_ends_as_read(self):
        """The first read of a session fails: nothing is carried out, and the journal has its head."""
        self.sessions("<&-", b"", 1, b"", READ)

    def test_a_session_whose_output_is_closed_ends_as_write(self):
        """The first reply of a session can't go out: its command is the last in the journal."""
        self.sessions(">&-", FIRST, 1, b"", WRITE)

    def test_a_session_whose_errors_are_closed_is_whole(self):
        """Nothing is reported, and nothing is lost."""
        self.sessions("2>&-", ENTRIES, 0, REPLIES, b"")

    def test_a_persons_console(self):
        """It greets, and ends at its first read; nothing is carried out if it can't greet; errors aren't missed."""
        greeting = b"4000 places; next is 0000; help lists the words\n"
        for closed, status, output, error, kept in [
            ("<&-", 1, greeting, READ, b""), (">&-", 1, b"", CANNOT, b""), ("<&- >&-", 1, b"", CANNOT, b""),
            ("2>&-", 0, greeting + b"00700  ~999\n", b"", FIRST), ("<&- >&- 2>&-", 1, b"", b"", b""),
        ]:
            journal = self.folder / "a journal"
            journal.unlink(missing_ok=True)
            ran = shell(f'"$0" operate --journal "$1" {closed}', journal, lines=b"deposit 700 ~999\nquit\n")
            self.expect(f"operate {closed}", ran, status, output, error)
            self.holds(f"operate {closed}: the journal", journal, HEAD + kept)

    def test_what_is_reported_of_a_cut_line_goes_into_no_file(self):
        """With standard error closed, resume cuts an unfinished line off and writes only entries."""
        journal = self.folder / "a journal"
        journal.write_bytes(HEAD + FIRST[:9])
        ran = shell('"$0" resume "$1" 2>&-', journal, lines=LINES)
        self.expect("resume 2>&- after an unfinished line", ran, 0, REPLIES)
        self.holds("the journal", journal, HEAD + ENTRIES)

    def test_journals_and_images_are_shown_or_cannot_be(self):
        """A listing or a count that can't be written is a failure; a closed input isn't read."""
        journal, image = self.folder / "a journal", self.folder / "image"
        journal.write_bytes(HEAD + FIRST)
        image.write_bytes(IMAGE)
        listing = b"1 seat 0  DEPOSIT 0700 ~999            OK\n"
        shown = shell('"$0" disassemble "$1"', image)
        self.same("an image is listed", (shown.returncode, bool(shown.stdout)), (0, True))
        for call, output in [
            ('journal "$1"', listing), ('journal --check "$1"', b"1 entries\n"), ('disassemble "$2"', shown.stdout),
        ]:
            self.expect(f"{call} <&-", shell(f'"$0" {call} <&-', journal, image), 0, output)
            self.expect(f"{call} 2>&-", shell(f'"$0" {call} 2>&-', journal, image), 0, output)
            self.expect(f"{call} >&-", shell(f'"$0" {call} >&-', journal, image), 1, b"", CANNOT)
            self.expect(f"{call} all closed", shell(f'"$0" {call} <&- >&- 2>&-', journal, image), 1)
        self.holds("the journal stays", journal, HEAD + FIRST)
        self.holds("the image stays", image, IMAGE)

    def test_assembled_files_are_whole(self):
        """The image and the deck of a source are what they are with all streams open."""
        source = EXAMPLES / "five_and_five.source"
        wanted = (EXAMPLES / "five_and_five.image").read_bytes()
        deck = self.folder / "deck"
        shell('"$0" assemble "$1" --deck "$2"', source, deck)
        cards = deck.read_bytes()
        for closed in "<&-", ">&-", "2>&-", "<&- >&-", "<&- >&- 2>&-":
            out, deck = self.folder / "out", self.folder / "deck"
            out.unlink(missing_ok=True)
            deck.unlink(missing_ok=True)
            self.expect(f"assemble -o {closed}", shell(f'"$0" assemble "$1" -o "$2" {closed}', source, out))
            self.holds(f"assemble -o {closed}: the image", out, wanted)
            self.expect(f"assemble --deck {closed}", shell(f'"$0" assemble "$1" --deck "$2" {closed}', source, deck))
            self.holds(f"assemble --deck {closed}: the deck", deck, cards)
        self.expect("assemble --list >&-", shell('"$0" assemble --list "$1" >&-', source), 1, b"", CANNOT)

    def test_a_run_puts_its_paper_and_cards_where_they_belong(self):
        """A run whose paper can't be written ends so; its punched cards, its trace and its paper's file have no other
        text."""
        sales, paper = EXAMPLES / "sales", (EXAMPLES / "sales.paper").read_bytes()
        for closed, status, output, error in [
            ("<&-", 0, paper, b"..."), ("2>&-", 0, paper, b""), ("<&- 2>&-", 0, paper, b""),
            (">&-", 1, b"", CANNOT), ("<&- >&-", 1, b"", CANNOT),
        ]:
            punch = self.folder / "punch"
            words = f'"$0" run {sales}.source --cards {sales}.cards --switches A --punch "$1" {closed}'
            self.expect(f"run --punch {closed}", shell(words, punch), status, output, error)
            self.holds(f"run --punch {closed}: the cards", punch, b"")
        for closed in "<&-", ">&-", "2>&-", "<&- >&- 2>&-":
            own = self.folder / "paper"
            words = f'"$0" run {sales}.source --cards {sales}.cards --switches A --paper "$1" {closed}'
            self.expect(f"run --paper {closed}", shell(words, own), 0, b"", b"" if "2>" in closed else b"...")
            self.holds(f"run --paper {closed}: the paper", own, paper)

    def test_help_and_misuse_have_their_status(self):
        """Help that can't be written is a failure; a misused call has its status whatever is closed."""
        self.expect("--help >&-", shell('"$0" --help >&-'), 1, b"", CANNOT)
        for closed in "<&-", "2>&-":
            self.expect(f"--help {closed}", shell(f'"$0" --help {closed}'), 0, b"...")
        for closed in "<&-", ">&-", "2>&-":
            told = b"" if "2>" in closed else b"..."
            self.expect(f"no subcommand {closed}", shell(f'"$0" nothing {closed}'), 2, b"", told)

    def closed_room(self, words, closed):
        """A room that is opened with a stream closed, on a free port, until it ends or listens: how it ended."""
        return at_a_port(lambda port: self.closed_room_at(port, words, closed))

    def closed_room_at(self, port, words, closed):
        """The same at this port."""
        call = f'exec "$0" {words} --port {port} --seats 1 {closed}'
        pipes = {"stdin": subprocess.DEVNULL, "stdout": subprocess.PIPE, "stderr": subprocess.PIPE}
        with subprocess.Popen(["bash", "-c", call, PROGRAM, self.folder / "room"], **pipes) as ran:
            try:
                output, error = ran.communicate(timeout=SECONDS)
            except subprocess.TimeoutExpired:
                ran.kill()
                output, error = ran.communicate()
            return subprocess.CompletedProcess(call, ran.returncode, output, error)

    def test_a_room_whose_output_is_closed_cannot_say_that_it_listens(self):
        """READY can't be written: the room ends, and its journal has its head, or what it had."""
        journal = self.folder / "room"
        self.expect("serve >&-", self.closed_room("serve", ">&-"), 1, b"", CANNOT)
        for words, before in [
            ('serve --keep-seats --journal "$1"', None), ('resume "$1"', HEAD + FIRST.replace(b"\t0\t", b"\t1\t")),
        ]:
            journal.unlink(missing_ok=True)
            if before:
                journal.write_bytes(before)
            for closed in ">&-", "<&- >&-":
                self.expect(f"{words} {closed}", self.closed_room(words, closed), 1, b"", CANNOT)
                self.holds(f"{words} {closed}: the journal", journal, before or HEAD)
                if before is None:
                    journal.unlink()

    def test_a_room_whose_input_is_closed_is_closed_at_once(self):
        """Its input fails: the room ends in order, and its journal has its head, or what it had."""
        journal = self.folder / "room"
        before = HEAD + FIRST.replace(b"\t0\t", b"\t1\t")
        for words, text, count in [
            ("serve --keep-seats", None, 0), ('serve --keep-seats --journal "$1"', HEAD, 0), ('resume "$1"', before, 1),
        ]:
            journal.unlink(missing_ok=True)
            if text == before:
                journal.write_bytes(before)
            ran = self.closed_room(words, "<&-")
            self.expect(f"{words} <&-", ran, 1, f"READY\nJOURNAL {count}\n", "ibm1401: input failed\n")
            if text:
                self.holds(f"{words} <&-: the journal", journal, text)

    def test_a_room_whose_errors_are_closed_keeps_its_journal(self):
        """The journal of a room has entries alone, and an unfinished line is cut off without a word."""
        journal, entry = self.folder / "a room", FIRST.replace(b"\t0\t", b"\t1\t")
        journal.write_bytes(HEAD + entry[:9])
        for call in ("serve", "--keep-seats", "--journal", self.folder / "a new room"), ("resume", journal):
            room = self.room(*call, seats=1, preexec_fn=lambda: os.close(2))
            self.same(f"{call[0]} 2>&-: it listens", room.first, b"READY\n")
            with room.console() as one:
                self.same(f"{call[0]} 2>&-: a reply", one.say(b"DEPOSIT 0700 ~999\n"), b"OK\n")
            self.holds(f"{call[0]} 2>&-: the journal", call[-1], HEAD + entry)
            self.ended(room, f"{call[0]} 2>&-: the end", 1)
