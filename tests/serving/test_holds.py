"""A page that holds the machine for a minute: meanwhile no other page gives it lines."""
import re
import threading
import time
import unittest

from tests.support import EXAMPLES, MOST_TRIALS, body, status, wait_until
from tests.serving.test_page_lines import NAME
from tests.serving.test_page_requests import PageTest

# How long a hold lasts, and after how many seconds without its page it ends; a clock in whole seconds makes it shorter.
HELD = 60
GONE = 5
# Within this time nothing of that ends, and neither does it where pages look as often.
QUICK = GONE - 2
# How exact a clock in whole seconds is, and how often a page looks.
EXACT = 2
LOOK = 0.25
# How many windows of a page look: on a host with much to do the looks of one may come late.
LOOKERS = 8
PICTURE = "/picture?core=0&paper=0"
# A loop that moves 3,400 characters again and again, how many of its instructions are timed, and how many a run may
# have; and how long a run is to take for whose end lines wait.
LONG_LOOP = "DEPOSIT 0600 ~A\nDEPOSIT 0001 ~MI99I99~B001\nSTART 1"
TIMED, MOST_STEPS = 2000, 1_000_000
LONG = 2
# How many lines a request brings, and how long it takes at most until a request that was sent waits for its turn.
MANY = 1000
SENT = 0.1


class Holds(PageTest):
    """Requests about the hold, and what it keeps off."""

    def ask(self, room, seat, path="/hold", method="POST", **fields):
        """The status and the text of the answer to a request of the page of a seat."""
        own = {"Origin": room.address(seat), **{name.replace("_", "-"): each for name, each in fields.items()}}
        return room.ask(seat, method, path, None if method == "GET" else "", own)

    def holder(self, room, seat=2):
        """Who holds the machine, as a page is answered that asks; a number of seconds is left out."""
        first = room.ask(seat, path="/hold")[1].decode().split("\n")[0]
        return " ".join(first.split(" ")[:2])

    def look(self, room, seat):
        """The page of a seat looks at the machine, as it does four times a second."""
        return room.ask(seat, path=PICTURE, fields={"Origin": room.address(seat)})[0]

    def test_lines_of_other_pages_are_kept_off(self):
        self.trial(self.keep_off_others, QUICK)

    def keep_off_others(self):
        """Subtests: seat 2 of a new room holds the machine, and releases it."""
        room = self.pages(3)
        self.same("nobody holds the machine", room.ask(1, path="/hold"), (200, b"HOLD FREE\nLAST NONE\nTAKEN\nBEGAN PLAIN\n"))
        self.same("seat 2 holds it", self.ask(room, 2), (200, b"HOLD 2 FOR 60\nLAST NONE\nTAKEN\nBEGAN PLAIN\n"))
        self.same("its line is carried out", room.give(2, 0, b"FEED OF SEAT 2"), (200, b"OK\n"))
        for seat, taken in (1, "2"), (3, "1 2"):
            held = f"HOLD 2 FOR 60\nLAST 2 FEED\nTAKEN {taken}\nBEGAN PLAIN\n".encode()
            for path, line in ("/line", "FEED A"), ("/lines", "FEED A\nFEED B"), ("/line?a=b", "START 1"):
                name = f"seat {seat}, {path}"
                self.look(room, 2)
                late = room.post(seat, line, 0, path)
                self.same(name, status(late), 423)
                self.check(f"{name}: the text", self.apart(body(late), held))
            self.same(f"seat {seat} has made nothing", room.made(seat), 0)
            self.same(f"seat {seat} sees the machine", self.look(room, seat), 200)
            self.same(f"seat {seat} asks to hold it", self.ask(room, seat)[0], 200)
            self.same(f"seat {seat} ends a hold that isn't its own", self.ask(room, seat, "/release")[0], 200)
            self.same("seat 2 holds it still", self.holder(room), "HOLD 2")
        self.unchanged("nothing is recorded", room, 1)
        ended = b"HOLD FREE\nLAST 2 FEED\nTAKEN 1 2 3\nBEGAN PLAIN\n"
        self.same("seat 2 ends it", self.ask(room, 2, "/release"), (200, ended))
        self.same("lines are carried out again", room.give(1, 0, b"START 1"), (200, b"OK\n"))
        self.same("the last one is named", room.ask(3, path="/hold")[1].split(b"\n")[1], b"LAST 1 START")
        self.ended(room, "the room", 2)

    def apart(self, found, wanted):
        """In what an answer differs, but for up to ten seconds that have passed."""
        texts = [wanted.replace(b"FOR 60", b"FOR %d" % left) for left in range(HELD - 10, HELD + 1)]
        return "" if found in texts else f"it is {found!r}"

    def test_lines_that_came_before_it_are_kept_off(self):
        """At most one line of a page is carried out once the hold is answered: it has its turn, or waits for it."""
        for _ in range(MOST_TRIALS):
            wrong, is_certain = self.hold_during_lines()
            if is_certain:
                break
        self.check("lines waited when the hold began", "" if is_certain else "they never did")
        self.check("what came of them", wrong)

    def hold_during_lines(self):
        """Has seat 1 of a new room hold the machine while a run goes on, and lines of two seats wait for its end: what
        is wrong with their answers, and whether they waited for certain."""
        room, answers = self.pages(4), {}
        self.same("the loop is there", body(room.post(4, LONG_LOOP, 0, "/lines")), b"OK\nOK\nOK\n")
        timed = time.monotonic()
        self.same("it is timed", status(room.post(4, f"RUN {TIMED}", 3)), 200)
        steps = min(MOST_STEPS, int(TIMED * LONG / (time.monotonic() - timed)))

        def send(name, seat, text, made, path="/line"):
            answers[name] = room.post(seat, text, made, path), time.monotonic()

        senders = [threading.Thread(target=send, args=args) for args in [
            ("run", 4, f"RUN {steps}", 4), ("lines", 2, "\n".join(["START 1"] * MANY), 0, "/lines"),
            ("first", 3, "START 1", 0), ("second", 3, "START 1", 1),
        ]]
        for sender in senders:
            sender.start()
            time.sleep(SENT)
        asked = time.monotonic()
        held, _ = self.ask(room, 1)
        begun = looked = time.monotonic()
        longest = begun - asked
        while any(sender.is_alive() for sender in senders):
            self.look(room, 1)
            looked, before = time.monotonic(), looked
            longest = max(longest, looked - before)
            time.sleep(LOOK)
        found = {name: (status(answer), body(answer)) for name, (answer, _) in answers.items()}
        made = [room.made(seat) for seat in (2, 3)]
        said = rb"HOLD 1 FOR \d+\nLAST \d .+\nTAKEN[ 1-4]+\nBEGAN PLAIN\n"
        wrong = [f"{name}: {found[name]}" for name, wanted, text in [
            ("run", 200, rb"STOP 01 LIMIT STEPS %d I 0000\d\n" % steps), ("lines", 423, rb"(OK\n){%d}" % made[0] + said),
            ("first", *((200, rb"OK\n") if made[1] else (423, said))), ("second", *((423, said) if made[1] else (409, rb""))),
        ] if found[name][0] != wanted or not re.fullmatch(text, found[name][1])]
        wrong += [f"lines that were carried out: {made}"] if max(made) > 1 else []
        self.ended(room, "the room", 5 + sum(made))
        is_late = held == 200 and answers["run"][1] - begun > SENT and answers["first"][1] > begun
        return wrong, is_late and longest < GONE - EXACT and time.monotonic() - begun < HELD - EXACT

    def test_who_may_hold_it(self):
        self.trial(self.ask_to_hold, QUICK)

    def ask_to_hold(self):
        """Subtests: requests to hold the machine of a new room, and which of them do."""
        room = self.pages(2)
        for name, fields, wanted in [
            ("nobody's page", {"Origin": ""}, 403), ("a foreign page", {"Origin": "http://museum.example"}, 403),
            ("the page of another seat", {"Origin": room.address(2)}, 403),
            ("a page of another room", {"X_1401_Room": "0" * 16}, 409),
        ]:
            for path in "/hold", "/release":
                self.same(f"{name}, {path}", self.ask(room, 1, path, **fields), (wanted, b""))
        elsewhere = (403, room.elsewhere().encode())
        self.same("for another host", self.ask(room, 1, Host=f"localhost:{room.page}"), elsewhere)
        self.same("by another method", self.ask(room, 1, method="PUT"), (405, b""))
        self.same("an end by GET", self.ask(room, 1, "/release", "GET"), (405, b""))
        twice = room.post(1, "", 0, "/hold", Origin=f"{room.address()}\r\nOrigin: {room.address()}")
        self.refused("with two origins", twice, "1.1 400")
        self.same("nobody holds it", self.holder(room), "HOLD FREE")
        name = NAME.match(body(room.get(1, f"/picture?room=&{PICTURE[9:]}")))[1].decode()
        self.same("its own page, which names the room", self.ask(room, 1, X_1401_Room=name)[0], 200)
        self.same("seat 1 holds it", self.holder(room), "HOLD 1")
        self.ended(room, "the room", 0)

    def test_foreign_lines_are_refused_as_without_a_hold(self):
        self.trial(self.send_foreign_lines, QUICK)

    def send_foreign_lines(self):
        """Subtests: lines of others, and requests for another page, while seat 1 holds the machine of a new room."""
        room = self.pages(2)
        self.ask(room, 1)
        for name, fields, wanted, text in [
            ("a foreign page", {"Origin": "http://museum.example"}, 403, ""),
            ("another room", {"X_1401_Room": "0" * 16}, 409, ""),
            ("another host", {"Host": "museum.example"}, 403, room.elsewhere(2)),
        ]:
            self.refused(name, room.post(2, "START 1", 0, **fields), f"1.1 {wanted}", text)
        self.same("a page is served", status(room.get(2, "/")), 200)
        self.same("an unknown path", status(room.get(2, "/nothing")), 404)
        self.same("a line by GET", status(room.get(2, "/line")), 405)

    def test_it_ends_by_itself(self):
        """After a minute; sooner when its page is gone."""
        room = self.pages(2)
        begun = time.monotonic()
        self.same("seat 1 holds it", self.ask(room, 1)[0], 200)
        gone = wait_until(lambda: self.holder(room) == "HOLD FREE")
        took = time.monotonic() - begun
        self.check("a page that is gone holds it no more", "" if gone and took > GONE - 1 else f"after {took:.1f} s")
        for _ in range(MOST_TRIALS):
            wrong, is_certain = self.hold_to_its_end(room)
            if is_certain or not wrong:
                break
        self.check("it ends after a minute", wrong)
        self.ended(room, "the room", 0)

    def hold_to_its_end(self, room):
        """Has seat 1 hold the machine until that ends by itself: what is wrong with its length, and whether the page
        looked, and asked again, early enough for that to be certain."""
        begun = time.monotonic()
        self.same("seat 1 holds it again", self.ask(room, 1)[0], 200)
        held = seen = time.monotonic()
        looks, is_over = [(begun, held)], threading.Event()
        lookers = [threading.Thread(target=self.look_again, args=(room, looks, is_over)) for _ in range(LOOKERS)]
        for looker in lookers:
            looker.start()
        is_certain = True
        while seen - held < HELD + EXACT:
            asked = time.monotonic()
            if self.holder(room) != "HOLD 1":
                break
            seen = asked
            # Asking again doesn't make it longer.
            self.ask(room, 2)
            if HELD / 2 < time.monotonic() - begun < HELD - GONE:
                self.ask(room, 1)
                is_certain &= time.monotonic() - begun < HELD - EXACT
            time.sleep(LOOK)
        least, most = seen - held, time.monotonic() - begun
        is_over.set()
        for looker in lookers:
            looker.join()
        self.ask(room, 2, "/release")
        looks.sort(key=lambda look: look[1])
        gaps = [after - before for (before, _), (_, after) in zip(looks, looks[1:])]
        wrong = "" if least < HELD + EXACT and most > HELD - EXACT else f"after {least:.1f} to {most:.1f} s"
        return wrong, is_certain and max(gaps) < GONE - EXACT

    def look_again(self, room, looks, is_over):
        """Has the page of seat 1 look again and again until it is over, and notes each look's beginning and end."""
        while not is_over.wait(LOOK):
            begun = time.monotonic()
            self.look(room, 1)
            looks.append((begun, time.monotonic()))

    def test_seats_that_are_taken(self):
        room = self.room("serve", seats=3, pages=True)

        def taken():
            return room.ask(3, path="/hold")[1].split(b"\n")[2]

        self.same("none", taken(), b"TAKEN")
        self.same("the page of seat 2 looks", self.look(room, 2), 200)
        with room.console() as console:
            self.same("a console has seat 1", console.say(b"GLANCE 0\n"), b"AFTER 0  \n")
            self.same("both are taken", taken(), b"TAKEN 1 2")
        self.check("the console has left", "" if wait_until(lambda: taken() == b"TAKEN 2") else f"{taken()}")

    def test_how_the_room_was_begun(self):
        """With an image or with cards; what a journal has isn't the staff's."""
        deck, journal = self.folder / "hello.deck", self.folder / "day.journal"
        deck.write_text("HELLO\n")
        kept = ["serve", "--journal", journal, "--cards", deck]
        for name, call, began in [
            ("an image", ["serve", "--image", EXAMPLES / "five_and_five.image"], "PREPARED"), ("cards", kept, "PREPARED"),
            ("a journal", ["resume", journal], "PLAIN"), ("nothing", ["serve"], "PLAIN"),
        ]:
            room = self.room(*call, seats=1, pages=True, consoles=False)
            self.same(name, room.ask(1, path="/hold")[1].split(b"\n")[3], f"BEGAN {began}".encode())
            self.same(f"{name}: the end", room.end().returncode, 0)

    def test_what_was_done_last(self):
        """Each command has its word; a run has its limit too, and a glance is no command."""
        room = self.pages(1)
        for made, (line, word) in enumerate([
            ("DEPOSIT 0001 ~.", "DEPOSIT"), ("EXAMINE 0001 1", "EXAMINE"), ("REGS", "REGS"), ("START 1", "START"),
            ("SWITCH A ON", "SWITCH"), ("FEED A CARD", "FEED"), ("LOAD", "LOAD"), ("RUN 27", "RUN 27"),
            ("LINE", "LINE"), ("CARD", "CARD"),
        ]):
            self.same(f"{line} is carried out", room.give(1, made, line.encode())[0], 200)
            self.same(line, room.ask(1, path="/hold")[1].split(b"\n")[1], f"LAST 1 {word}".encode())
        self.same("a glance", room.give(1, 10, b"GLANCE 1")[0], 200)
        self.same("is none", room.ask(1, path="/hold")[1].split(b"\n")[1], b"LAST 1 CARD")

    def test_consoles_go_on(self):
        room = self.room("serve", seats=2, pages=True)
        self.same("seat 2 holds it", self.ask(room, 2)[0], 200)
        with room.console() as console:
            self.same("a console's line is carried out", console.say(b"FEED CARD\n"), b"OK\n")
            self.same("and named as the last one", room.ask(2, path="/hold")[1].split(b"\n")[1], b"LAST 1 FEED")
        self.ended(room, "the room", 1)


if __name__ == "__main__":
    unittest.main()
