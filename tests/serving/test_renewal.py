"""Rooms that follow each other: by a key of a page, after idle minutes, and before a journal is full."""
import os
import threading
import time

from tests.support import SECONDS, ProgramTest, a_port, program, status, wait_until
from tests.serving.test_holds import QUICK

# The text of a card.
CARD = "HELLO FROM AN IBM 1401"
# An idle room, and a notice, have a minute.
MINUTE = 60
# A journal with this many entries is nearly full.
NEARLY_FULL = 95_000


class Renewal(ProgramTest):
    """Tests of rooms with --renew-after."""

    # A journal of a machine of another size, and what seat 1 gives next.
    LINES = "JOURNAL1 1400\n1\t1\tDEPOSIT 0700 ~2\tOK\n"
    NEXT = "2\t1\tEXAMINE 0700 1\t~2\n"
    ANEW = "JOURNAL1 1400\n1\t1\tEXAMINE 0700 1\t \n"

    def rooms(self, *words, seats=1, minutes=60, **how):
        """A room with pages and consoles that new ones follow, after so many idle minutes at the latest."""
        return self.room("serve", "--renew-after", minutes, *words, seats=seats, pages=True, **how)

    def resumed(self, *words, name="day.journal", minutes=60, **how):
        """The room of a journal of this name, which was a file's already, and that new ones follow."""
        file = self.folder / name
        file.write_text(how.pop("lines", self.LINES))
        return self.room("resume", "--renew-after", minutes, *words, file, seats=1, pages=True, **how)

    def deck(self):
        """The name of a deck of one card."""
        deck = self.folder / "hello.deck"
        deck.write_text(f"{CARD}\n")
        return deck

    def ask_anew(self, room, seat=1, **fields):
        """The status and the text of the answer to a request for a new room, from the page of a seat."""
        return room.ask(seat, "POST", "/renewal", "", {"Origin": room.address(seat), **fields})

    def when(self, room, seat=1):
        """What a page is answered that asks when a new room follows."""
        return room.ask(seat, path="/renewal")[1]

    def follows(self, name, room, made, journal=1):
        """A subtest: soon a picture of seat 1 shows a machine of a new room, in which it made this many commands."""
        soon = wait_until(lambda: room.made() == made, SECONDS)
        self.check(name, "" if soon else f"seat 1 has made {room.made()} commands, not {made}, after journal {journal}")

    def goes_on_and_anew(self, room):
        """Subtests: the first room has what the journal left, and the next one is at power-on; both then end."""
        self.same("the room is the journal's", room.give(1, 1, b"EXAMINE 0700 1"), (200, b"~2\n"))
        self.same("a new room is asked for", self.ask_anew(room), (200, b"RENEWAL IN 0\n"))
        self.follows("it follows", room, 0)
        self.same("nothing is loaded", room.give(1, 0, b"EXAMINE 0700 1"), (200, b" \n"))
        self.same("its size is the journal's", room.give(1, 1, b"GLANCE 1400"), (200, b"GLANCE FAULT 1 RANGE\n"))
        self.same("and so do its pages say", room.ask(1, path="/hold")[1].split(b"\n")[3], b"BEGAN PLAIN")
        self.expect("both rooms", room.end(), 0, f"{room.ready}JOURNAL 2\nROOM 2\nJOURNAL 1\n")

    def holds_all(self, **texts):
        """Subtests: these files, with a point in the name for each underscore, have these texts; no others are there."""
        named = {name.replace("_", "."): text for name, text in texts.items()}
        self.same("the files", sorted(path.name for path in self.folder.iterdir()), sorted(named))
        for name, text in named.items():
            self.holds(name, self.folder / name, text)


class ByKey(Renewal):
    """A page asks for a new room."""

    def test_a_new_room_has_the_cards_and_a_journal_of_its_own(self):
        first, second = (self.folder / name for name in ("day.journal", "day.journal.2"))
        room = self.rooms("--journal", first, "--cards", self.deck(), seats=2)
        self.same("a line is carried out", room.give(1, 1, b"DEPOSIT 0700 ~2"), (200, b"OK\n"))
        self.same("another seat asks", self.ask_anew(room, 2), (200, b"RENEWAL IN 0\n"))
        self.follows("the card is fed again, and nothing else was done", room, 1)
        picture = room.ask(1, path="/picture?core=0700&paper=0")[1]
        self.check("what was deposited is gone", "" if b"\n" + b" " * 40 + b"\n" in picture else str(picture))
        self.check("the hopper has the card", "" if f"\nHOPPER {CARD}\n".encode() in picture else str(picture))
        self.same("a line goes on from there", room.give(1, 1, b"EXAMINE 0700 1"), (200, b" \n"))
        ended = room.end()
        self.expect("both rooms", ended, 0, f"{room.ready}JOURNAL 2\nROOM 2\nJOURNAL 2\n")
        fed = f"1\t1\tFEED {CARD}\tOK\n"
        self.holds("the first journal", first, f"JOURNAL1 4000\n{fed}2\t1\tDEPOSIT 0700 ~2\tOK\n")
        self.holds("the second journal", second, f"JOURNAL1 4000\n{fed}2\t1\tEXAMINE 0700 1\t \n")
        for journal in first, second:
            self.expect(f"{journal.name} is legal", program("journal", "--check", journal), 0, "2 entries\n")

    def test_consoles_end_with_their_room_and_come_again(self):
        room = self.rooms(seats=2)
        with room.console() as console:
            self.same("a console deposits", console.say(b"DEPOSIT 0700 ~2\n"), b"OK\n")
            self.same("the page of the other seat asks", self.ask_anew(room, 2)[0], 200)
            self.same("the console ends", console.hear(), b"")
        self.follows("the new room", room, 0)
        again, reply = room.seated(b"EXAMINE 0700 1\n")
        again.close()
        self.same("and its operator comes into the new room", reply, b" \n")
        self.expect("both rooms", room.end(), 0, f"{room.ready}JOURNAL 1\nROOM 2\nJOURNAL 1\n")

    def test_rooms_follow_each_other_ten_times_and_quit_ends_the_last(self):
        room = self.rooms()
        for number in range(1, 11):
            self.same(f"a line in room {number}", room.give(1, 0, b"DEPOSIT 0700 ~2"), (200, b"OK\n"))
            self.same(f"room {number} is asked to end", self.ask_anew(room)[0], 200)
            self.follows(f"room {number + 1}", room, 0)
        settled = wait_until(lambda: room.handles() < 16)
        self.check("no handle is left of the rooms before", "" if settled else f"there are {room.handles()}")
        texts = "".join(f"JOURNAL 1\nROOM {number}\n" for number in range(2, 12))
        self.expect("all rooms", room.end(), 0, f"{room.ready}{texts}JOURNAL 0\n")

    def test_a_name_that_is_taken_is_passed_over(self):
        kept = self.folder / "day.journal"
        (self.folder / "day.journal.2").write_text("a diary\n")
        room = self.rooms("--journal", kept)
        self.same("a line in the first room", room.give(1, 0, b"START 1"), (200, b"OK\n"))
        self.same("a new room is asked for", self.ask_anew(room)[0], 200)
        self.follows("the new room", room, 0)
        self.same("a line there", room.give(1, 0, b"DEPOSIT 0700 ~2"), (200, b"OK\n"))
        self.expect("both rooms", room.end(), 0, f"{room.ready}JOURNAL 1\nROOM 2\nJOURNAL 1\n")
        self.holds("what was there stays", self.folder / "day.journal.2", "a diary\n")
        self.holds("the next name is taken", self.folder / "day.journal.3",
                   "JOURNAL1 4000\n1\t1\tDEPOSIT 0700 ~2\tOK\n")

    def test_a_hold_keeps_a_new_room_off(self):
        self.trial(self.ask_during_a_hold, QUICK)

    def ask_during_a_hold(self):
        """Subtests: seat 1 holds the machine of a new room, which ends soon since its page doesn't look."""
        room = self.rooms(seats=2)
        self.same("a line", room.give(1, 0, b"FEED CARD"), (200, b"OK\n"))
        self.same("seat 1 holds the machine", room.ask(1, "POST", "/hold", "", {"Origin": room.address()})[0], 200)
        kept_off, text = self.ask_anew(room, 2)
        self.same("seat 2 asks for a new room", (kept_off, text.split(b" FOR ")[0]), (423, b"HOLD 1"))
        self.same("the machine is there", room.made(), 1)
        self.same("the holder asks for one", self.ask_anew(room), (200, b"RENEWAL IN 0\n"))
        self.follows("it follows", room, 0)
        self.same("nobody holds its machine", room.ask(2, path="/hold"), (200, b"HOLD FREE\nLAST NONE\nTAKEN\nBEGAN PLAIN\n"))

    def test_without_the_option_no_page_asks_for_a_room(self):
        room = self.room("serve", seats=1, pages=True)
        self.same("a line", room.give(1, 0, b"DEPOSIT 0700 ~2"), (200, b"OK\n"))
        for name, asked in ("when", room.ask(1, path="/renewal")), ("a new one", self.ask_anew(room)):
            self.same(name, asked, (200, b"RENEWAL OFF\n"))
        time.sleep(1)
        self.same("the room goes on", room.made(), 1)
        self.ended(room, "the room", 1)


class AfterAJournal(Renewal):
    """The room of a journal is followed by rooms at power-on."""

    def test_a_new_room_has_the_journal_s_size_and_the_next_name(self):
        self.goes_on_and_anew(self.resumed())
        self.holds_all(day_journal=self.LINES + self.NEXT, day_journal_2=self.ANEW)

    def test_the_number_in_a_name_goes_on(self):
        self.goes_on_and_anew(self.resumed(name="day.journal.3"))
        self.holds_all(day_journal_3=self.LINES + self.NEXT, day_journal_4=self.ANEW)

    def test_a_number_that_no_other_name_would_have_is_part_of_the_name(self):
        for name in "day.03", "day.1", "day.1000000", "day.+2":
            self.goes_on_and_anew(self.resumed(name=name))
            self.holds(f"after {name}", self.folder / f"{name}.2", self.ANEW)

    def test_a_name_that_is_taken_is_passed_over(self):
        (self.folder / "day.journal.4").write_text("a diary\n")
        self.goes_on_and_anew(self.resumed(name="day.journal.3"))
        self.holds_all(day_journal_3=self.LINES + self.NEXT, day_journal_4="a diary\n", day_journal_5=self.ANEW)

    def test_a_new_room_is_fitted_as_the_journal_s_machine(self):
        fitted = "JOURNAL1 1400\n1\t1\tFIT MULTIPLY TAPES\tOK\n"
        new = self.folder / "new.journal"
        for name, words, made, later in [
            ("day.journal", (), 1, fitted),
            ("new.journal", ("--without", 1, "--journal", new), 0, "JOURNAL1 1400\n"),
        ]:
            room = self.resumed(*words, lines=f"{fitted}2\t1\tDEPOSIT 0700 ~2\tOK\n")
            self.same(f"{name}: the journal's commands are given", room.made(), made + 1)
            self.same(f"{name}: a new room is asked for", self.ask_anew(room), (200, b"RENEWAL IN 0\n"))
            self.follows(f"{name}: it follows", room, made)
            texts = f"JOURNAL {made + 1}\nROOM 2\nJOURNAL {made}\n"
            self.expect(f"{name}: both rooms", room.end(), 0, room.ready + texts)
            self.holds(f"{name}: the next journal", self.folder / f"{name}.2", later)

    def test_a_new_journal_is_followed_by_its_own_name(self):
        self.goes_on_and_anew(self.resumed("--journal", self.folder / "new.5"))
        self.holds_all(day_journal=self.LINES, new_5=self.LINES + self.NEXT, new_5_2=self.ANEW)

    def test_without_a_journal_none_is_kept_later(self):
        self.goes_on_and_anew(self.resumed("--until", 1))
        self.holds_all(day_journal=self.LINES)


class LastOfASeries(Renewal):
    """`resume --last` goes on with the last journal after the one named."""

    def test_without_a_series_it_is_the_journal_itself(self):
        self.goes_on_and_anew(self.resumed("--last"))
        self.holds_all(day_journal=self.LINES + self.NEXT, day_journal_2=self.ANEW)

    def test_of_three_it_is_the_third(self):
        for name in "day.journal", "day.journal.2":
            (self.folder / name).write_text("JOURNAL1 4000\n")
        self.goes_on_and_anew(self.last_of("day.journal", "day.journal.3"))
        self.holds_all(day_journal="JOURNAL1 4000\n", day_journal_2="JOURNAL1 4000\n",
                       day_journal_3=self.LINES + self.NEXT, day_journal_4=self.ANEW)

    def test_after_a_gap_it_is_the_highest_number_and_no_other_name_counts(self):
        others = "day.journal.11x", "day.journal.012", "day.journal.1000000", "day.journal.5.9", "a.day.journal.7", "day.8"
        for name in ("day.journal", "day.journal.2", *others):
            (self.folder / name).write_text("JOURNAL1 4000\n")
        (self.folder / os.fsdecode(b"day.journal.\xff")).write_text("a diary\n")
        self.goes_on_and_anew(self.last_of("day.journal", "day.journal.10"))
        self.holds("it goes on", self.folder / "day.journal.10", self.LINES + self.NEXT)
        self.holds("the next", self.folder / "day.journal.11", self.ANEW)

    def test_a_number_may_be_named(self):
        (self.folder / "day.journal.2").write_text("JOURNAL1 4000\n")
        self.goes_on_and_anew(self.last_of("day.journal.2", "day.journal.3"))
        self.holds_all(day_journal_2="JOURNAL1 4000\n", day_journal_3=self.LINES + self.NEXT, day_journal_4=self.ANEW)

    def test_at_a_console_and_in_the_folder_of_the_process(self):
        (self.folder / "day.journal").write_text("JOURNAL1 4000\n")
        (self.folder / "day.journal.2").write_text(self.LINES)
        ran = program("resume", "--last", "day.journal", lines=b"EXAMINE 0700 1\n", cwd=self.folder)
        self.expect("a console of the last", ran, 0, "~2\n")
        self.holds("it goes on", self.folder / "day.journal.2", f"{self.LINES}2\t0\tEXAMINE 0700 1\t~2\n")

    def test_a_first_journal_that_is_not_there_is_refused_by_its_name(self):
        first = self.folder / "day.journal"
        (self.folder / "day.journal.2").write_text(self.LINES)
        for path in first, self.folder / "nowhere/day.journal":
            for words in (), ("--page", a_port(), "--seats", "1", "--renew-after", "60"):
                ran = program("resume", "--last", path, *words)
                self.expect(f"{path} {words}", ran, 1, b"", f"ibm1401: {path}: no such file\n")
        self.holds("the second is as it was", self.folder / "day.journal.2", self.LINES)

    def test_only_resume_takes_it(self):
        for words in ("serve", "--port", a_port(), "--seats", "1"), ("console",), ("journal", "day.journal"):
            self.same(f"{words[0]} doesn't", program(*words, "--last").returncode, 2)

    def last_of(self, name, last):
        """The room of the last journal after this one, which is that of the other name."""
        (self.folder / last).write_text(self.LINES)
        file = self.folder / name
        return self.room("resume", "--last", "--renew-after", 60, file, seats=1, pages=True)


class Requests(Renewal):
    """Which requests a page may make about a new room."""

    def test_a_request_that_is_refused_asks_for_nothing(self):
        room = self.rooms()
        own, foreign = {"Origin": room.address()}, {"Origin": "http://museum.example"}
        for name, method, fields, wanted in [
            ("of nobody", "POST", {}, 403), ("of another page", "POST", foreign, 403),
            ("of a page of another room", "POST", {**own, "X-1401-Room": "0" * 16}, 409),
            ("by another method", "PUT", own, 405),
        ]:
            self.same(name, room.ask(1, method, "/renewal", "" if method == "POST" else None, fields), (wanted, b""))
        foreign = room.ask(1, "POST", "/renewal", "", {**own, "Host": "museum.example"})
        self.same("to another host", foreign, (403, room.elsewhere().encode()))
        twice = f"Host: 127.0.0.1:{room.page}\r\nOrigin: {room.address()}\r\nOrigin: {room.address()}\r\n"
        with room.connect() as connection:
            connection.sendall(f"POST /renewal HTTP/1.1\r\n{twice}Content-Length: 0\r\n\r\n".encode())
            self.same("with two origins", status(connection.hear()), 400)
        self.same("no new room follows", self.when(room), b"RENEWAL ON\n")
        self.ended(room, "the room", 0)

    def test_neither_question_takes_the_seat(self):
        room = self.rooms()
        self.same("a page asks when", self.when(room), b"RENEWAL ON\n")
        with room.console() as console:
            self.same("a console has the seat", console.say(b"EXAMINE 1\n"), b" \n")
            self.same("and the page is answered meanwhile", self.when(room), b"RENEWAL ON\n")
        self.ended(room, "the room", 1)


class ByTime(Renewal):
    """Idle minutes, and a minute's notice: all tests wait for a minute, at the same time."""

    def test_an_idle_room_is_followed_and_a_nearly_full_one_after_a_notice(self):
        idle, untouched, full = self.rooms(minutes=1), self.rooms("--cards", self.deck(), minutes=1), self.rooms()
        resumed, unused = self.resumed(minutes=1), self.resumed(name="unused.journal", minutes=1)
        entries = "".join(f"{number}\t1\tEXAMINE 0001 1\t \n" for number in range(1, NEARLY_FULL + 1))
        long = self.resumed(name="long.journal", lines=f"JOURNAL1 1400\n{entries}")
        given = time.monotonic()
        self.same("a command is given", idle.give(1, 0, b"DEPOSIT 0700 ~2"), (200, b"OK\n"))
        self.same("and one in a room of a journal", resumed.give(1, 1, b"DEPOSIT 0700 ~2"), (200, b"OK\n"))
        self.check("a long journal gives notice", "" if self.when(long).startswith(b"RENEWAL IN ") else "it doesn't")
        begun = time.monotonic()
        self.fill(full)
        notice, took = self.when(full), time.monotonic() - begun
        left = range(MINUTE - int(took) - 2, MINUTE + 1)
        self.check("a notice is given", "" if notice in [b"RENEWAL IN %d\n" % each for each in left] else repr(notice))
        self.same("the machine goes on meanwhile", full.give(1, NEARLY_FULL, b"EXAMINE 1"), (200, b" \n"))
        self.lasts("the idle room", idle, 1, given)
        self.lasts("the nearly full one", full, NEARLY_FULL + 1, begun)
        self.follows("the idle room of a journal is followed", resumed, 0)
        self.follows("that of a long journal is", long, 0)
        self.same("a room in which nobody gave a command isn't followed", untouched.made(), 1)
        self.same("nor is one in which nobody but the journal did", unused.made(), 1)
        self.expect("the idle room", idle.end(), 0, f"{idle.ready}JOURNAL 1\nROOM 2\nJOURNAL 0\n")
        self.expect("the full one", full.end(), 0, f"{full.ready}JOURNAL {NEARLY_FULL + 1}\nROOM 2\nJOURNAL 0\n")
        self.expect("the untouched one", untouched.end(), 0, f"{untouched.ready}JOURNAL 1\n")
        self.expect("the journal's", resumed.end(), 0, f"{resumed.ready}JOURNAL 2\nROOM 2\nJOURNAL 0\n")
        self.expect("the long one's", long.end(), 0, f"{long.ready}JOURNAL {NEARLY_FULL}\nROOM 2\nJOURNAL 0\n")
        self.expect("the unused one's", unused.end(), 0, f"{unused.ready}JOURNAL 1\n")
        self.holds("the next journal", self.folder / "long.journal.2", "JOURNAL1 1400\n")

    def fill(self, room):
        """A console gives so many commands that the journal is nearly full."""
        with room.console() as console:
            console.settimeout(SECONDS)
            writer = threading.Thread(target=console.sendall, args=(b"EXAMINE 1\n" * NEARLY_FULL + b"QUIT\n",))
            writer.start()
            replies = console.hear()
            writer.join()
        self.same("each has its reply", len(replies), 2 * NEARLY_FULL + 4)

    def lasts(self, name, room, made, begun):
        """A subtest: seat 1 has made this many commands for nearly a minute, and then none."""
        while time.monotonic() < begun + MINUTE - 5:
            if room.made() != made:
                break
            time.sleep(1)
        early = time.monotonic() < begun + MINUTE - 5
        self.check(f"{name} lasts", f"it ended after {time.monotonic() - begun:.0f} s" if early else "")
        followed = wait_until(lambda: room.made() == 0)
        self.check(f"{name} is followed", "" if followed else "it isn't")


class Misuse(ProgramTest):
    """Command lines that are refused."""

    def test_the_minutes_are_from_one_to_a_day_and_need_pages(self):
        for call in ("serve",), ("resume", self.folder / "day.journal"):
            for minutes in "0", "1441", "-1", "soon":
                ran = program(*call, "--seats", "1", "--page", "8080", "--renew-after", minutes)
                self.same(f"{call[0]}: {minutes} minutes", (ran.returncode, ran.stdout), (2, b""))
            ran = program(*call, "--seats", "1", "--port", "1401", "--renew-after", "5")
            self.same(f"{call[0]}: without pages", (ran.returncode, ran.stdout), (2, b""))
        ran = program("resume", "--renew-after", "5", self.folder / "day.journal")
        self.same("without seats", (ran.returncode, ran.stdout), (2, b""))
