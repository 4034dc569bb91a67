"""Several screens at one machine: the guide holds it for its visitor, and the others wait in line."""
import time
import unittest

from tests.chromium import NARROW
from tests.support import PAUSE, SECONDS
from tests.serving.test_browser import Browser
from tests.serving.test_exhibit import LIT, ONE_MORE, PRINTED, SIZES

PUPILS = 8
# A name for the pupil at each seat, in letters alone.
NAMES = [f"PUPIL {'ABCDEFGH'[seat]}" for seat in range(PUPILS)]
HOW = "byId('name').value = '{}', byId('name-form').requestSubmit(), 0"


class Visitor:
    """A visitor who presses whatever is lit, until nothing is."""

    def __init__(self, page, name):
        self.page, self.name, self.presses = page, name, []

    def goes_on(self):
        """One press, if a key is lit and on, and the step that the guide was at. All that decides is asked at once: the
        key of somebody who waits gives the machine away as soon as their turn has come."""
        step, lit, asks, waits = self.page.value(
            f"[guide.step(), isOff(byId(({LIT}) || 'help-key')) ? '' : {LIT}, byId('ask').open, turn.wants]")
        if step == "done":
            return step
        if asks:
            self.page.click("ask-yes")
        elif step == "name":
            self.page.value(HOW.format(self.name))
        elif lit and not waits:
            self.presses.append(lit)
            self.page.mouse(lit)
        return step


class TwoScreens(Browser):
    """A visitor at one screen, while something else goes on at the other."""

    def visit(self, page, name="ADA"):
        """Subtests: a visitor comes to the printed name, and it is on the paper when the guide says so."""
        visitor = Visitor(page, name)
        for _ in range(400):
            if visitor.goes_on() == "done":
                break
            page.value("delay(50)")
        self.same("the guide says that the name is there", page.value("guide.step()"), "done")
        self.shows("and it is", f"{PRINTED}.split('|').at(-1)", name, page)
        return visitor

    def test_the_other_screen_plays_by_itself(self):
        """Its cards are in the hopper; the guide lights the key that clears them, and no card goes after them."""
        second = self.open_page(2)
        self.page.value("PROGRAMS.forEach(program => program.alone = program.name === 'listing'), 0")
        self.page.value("Object.assign(IDLE, {attractMs: 0, pauseMs: 0, seatMs: 0}), 0")
        self.shows("a program runs there", ONE_MORE)
        self.shows("the guide here sees its cards", "guide.step()", "other", second)
        for size in SIZES["the smallest screen"], NARROW:
            second.resize(size)
        self.visit(second)
        self.pages.remove(self.page)

    def test_another_seat_feeds_cards(self):
        """In the middle of the steps."""
        second = self.open_page(2)
        second.value("feedChosen()")
        self.shows("the visitor here holds the machine", "isHolder()", page=second)
        self.shows("the other's keys are off", "isOff(byId('feed-key')) && guide.step()", "wait")
        self.page.value("turn.has = false, guide.state = 'aside', 0")
        second.value("giveTurn()")
        self.page.until("isHeld()", False)
        self.page.value("feedText('ANOTHER')")
        self.shows("a card is after theirs", "view.picture.registers.HOPPER", 2, second)
        self.visit(second)

    def test_one_after_the_other(self):
        """By seat, with what the one before has left."""
        second = self.open_page(2)
        self.visit(self.page, "ADA")
        self.shows("the machine is given back", "isHeld() || turn.has", False)
        second.value("attract.touched = performance.now(), takeTurn()")
        self.shows("who has a name reads so while the next is at the machine", "isKeptOff() && guide.step()", "done")
        self.visit(second, "GRACE")
        self.shows("both names are on the paper", PRINTED, "|".join(
            ["HELLO FROM AN IBM 1401", "ADA", "HELLO FROM AN IBM 1401", "GRACE"]))


class Turns(Browser):
    """Who holds the machine, and until when."""

    def test_the_first_step_takes_it(self):
        second = self.open_page(2)
        self.page.mouse("feed-key")
        self.shows("the page holds the machine", "isHolder() && turn.has")
        self.shows("the other one says so", "byId('guide-now').textContent",
                   'Seat 1 is at the machine. Press "Wait in line", and your turn comes.', second)
        self.shows("and lights its key", LIT, "turn-key", second)
        second.mouse("turn-key")
        self.shows("it waits", "byId('guide-now').textContent", "Seat 1 is at the machine; you are next.", second)
        self.page.mouse("turn-key")
        self.shows("the machine is given to the next", "isHolder() && turn.has", page=second)
        self.shows("which says so", "byId('said-words').textContent", "It is your turn.", second)
        self.shows("the guide of the first steps aside", "guide.state", "aside")

    def test_it_ends_after_a_minute_without_a_hand(self):
        self.page.mouse("feed-key")
        self.shows("the page holds the machine", "isHolder() && turn.has")
        self.page.value("attract.touched -= TURN_IDLE_MS, 0")
        self.shows("and gives it back", "isHeld() || turn.has", False)

    def test_it_goes_on_after_a_minute_with_hands(self):
        """A hold has a minute at most; the page holds the machine again before the next in line takes it."""
        self.page.mouse("feed-key")
        self.shows("the page holds the machine", "isHolder() && turn.has")
        second = self.open_page(2)
        second.mouse("turn-key")
        self.shows("another waits", "turn.wants && isKeptOff()", page=second)
        self.page.value("askForHold('/release', 'POST')")
        self.page.value("attract.touched = performance.now(), delay(1500)")
        self.shows("the page holds the machine", "isHolder() && turn.has")
        self.shows("the other still waits", "turn.wants && isKeptOff()", page=second)

    def test_the_order_is_that_of_the_seats(self):
        """Seats at which nobody sits are left out."""
        self.page.value("window.own = view.picture, 0")
        for seat, last, taken, place in (3, 2, [2, 3, 5], 1), (5, 2, [2, 3, 5], 2), (2, 3, [2, 3, 5], 2), \
                (2, 2, [2, 3, 5], 3), (1, 8, [1, 8], 1), (8, 1, [1, 8], 1):
            placed = f"""view.picture = {{...own, seat: {seat}, seats: 8}}, Object.assign(hold, {{seat: 0, last: {last},
                taken: {taken}}}), window.found = placeInLine(), view.picture = own, hold.last = 0, found"""
            self.shows(f"seat {seat} after {last}", placed, place)


class Class(Browser):
    """Eight pupils at once, each with a page."""

    def setUp(self):
        self.served = self.room("serve", seats=PUPILS, pages=True, consoles=False)
        self.pages = []
        self.page = self.open_page()

    def test_all_eight_get_their_line(self):
        pupils = [Visitor(self.page, NAMES[0])]
        pupils += [Visitor(self.open_page(seat + 1), NAMES[seat]) for seat in range(1, PUPILS)]
        pages, left = self.pages, list(pupils)
        reduced = [{"name": "prefers-reduced-motion", "value": "reduce"}]
        for pupil in pupils:
            pupil.page.call("Emulation.setEmulatedMedia", features=reduced)
            pupil.page.value("attract.touched = performance.now()")
        # Seven of them are refused the hold, which is a complaint of the browser.
        self.pages = []
        for pupil in pupils:
            pupil.page.click("feed-key")
        # Each has this long, whatever the seven others take.
        late = time.monotonic() + SECONDS
        while left and time.monotonic() < late:
            for pupil in list(left):
                while (step := pupil.goes_on()) not in ("wait", "done", None) and time.monotonic() < late:
                    pass
                if step == "done":
                    left.remove(pupil)
                    late = time.monotonic() + SECONDS
            # The pages have the processors meanwhile.
            time.sleep(PAUSE)
        self.same("pupils without a line", [pupil.name for pupil in left], [])
        lines = pages[0].until(PRINTED, "").split("|")
        self.same("each name is on the paper once", sorted(line for line in lines if line in NAMES), NAMES)


if __name__ == "__main__":
    unittest.main()
