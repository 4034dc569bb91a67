"""The page of a seat in a browser, where chromium is installed."""
import http.server
import shutil
import threading
import time
import unittest

from tests.chromium import NARROW, OTHER_NAME, WIDE, Chromium, Page
from tests.support import EXAMPLES, SECONDS, ProgramTest, wait_until

# How many looks make up ten minutes, at four a second, and how many are asked for at a time.
LOOKS = 2_400
LOOKS_AT_A_TIME = 50
# How many seconds a test may take at most, on a host with much to do: as long as eight pupils who wait for each other.
MOST_SECONDS = 8 * SECONDS
# How many seconds a test of a hold may take: a hold lasts for a minute, and ends when its page doesn't look for some
# seconds.
QUICK = 10
TELEPHONE = (360, 740)
BEAMER = (1920, 950)


@unittest.skipIf(shutil.which("chromium") is None, "chromium isn't installed")
class Browser(ProgramTest):
    """Tests with a browser, each with a room of its own."""

    @classmethod
    def setUpClass(cls):
        cls.browser = Chromium()
        cls.addClassCleanup(cls.browser.end)

    def run(self, result=None):
        """Runs the test, which ends by itself: the browser answers it for so long."""
        if hasattr(self, "browser"):
            self.browser.late = time.monotonic() + MOST_SECONDS
        return super().run(result)

    # How many seconds this test may still wait in vain. A wait that comes to nothing takes them from the next ones, so
    # each test ends.
    left = SECONDS

    def setUp(self):
        self.served = self.room("serve", seats=2, pages=True, consoles=False)
        self.pages = []
        self.page = self.open_page()

    def tearDown(self):
        """The pages have no complaint, and can be closed."""
        self.browser.late += SECONDS
        for page in self.pages:
            self.assertEqual([], page.complaints())

    def open(self, address):
        """A page at an address, which is closed with the test."""
        page = Page(self.browser, address)
        self.addCleanup(page.close)
        return page

    def open_page(self, seat=1):
        """The page of a seat, which has seen the machine. It runs no deck by itself, however long nobody touches it.
        `rested` is for two presses of one key: the second one waits until the key is on again."""
        page = self.open(self.served.address(seat))
        self.check(f"the page of seat {seat} sees the machine", "" if page.is_ready() else "it doesn't")
        page.value("IDLE.attractMs = 1e9, window.rested = async () => { while (guarded.size) await delay(10); }, 0")
        self.pages.append(page)
        return page

    def shows(self, name, expression, wanted=True, page=None):
        """A subtest: an expression in the page comes to a value."""
        begun = time.monotonic()
        found = (page or self.page).until(expression, wanted, self.left)
        if found != wanted:
            self.left = max(0, self.left - (time.monotonic() - begun))
        self.same(name, found, wanted)

    def complains_once(self, page, status):
        """A subtest: the browser itself reports a line that was refused with this status, and the page nothing else."""
        wait_until(lambda: page.value("0") == 0 and page.complaints())
        self.same("one complaint, of that line", [status in each for each in page.complaints()], [True])
        self.pages.remove(page)


class Window(Browser):
    """What a page has when it is loaded."""

    def test_it_loads(self):
        addresses = ",".join(f"{self.served.address(seat)}/" for seat in range(1, self.served.seats + 1))
        self.shows("its title names the seat", "document.title", "IBM 1401, seat 1")
        links = "[...document.querySelectorAll('#seats a')].map(a => a.href).join()"
        self.shows("it links to the other seats", links, addresses)
        self.shows("it has no banner", "byId('banner').hidden")
        self.shows("every part has its text", "[...document.querySelectorAll('[data-text]')].every(e => e.textContent)")
        self.shows("no text is missing", "/undefined|\\{\\w+\\}/.test(document.body.innerText)", False)

    def test_it_fits_each_width(self):
        for name, size in [("a telephone", TELEPHONE), ("a narrow window", NARROW), ("a wide window", WIDE),
                           ("a beamer", BEAMER)]:
            self.page.resize(size)
            self.shows(name, "document.documentElement.scrollWidth <= innerWidth")


class DeckToPaper(Browser):
    """A deck from a file is fed, loaded and run, and the paper is the one that the deck's run prints."""

    def setUp(self):
        super().setUp()
        deck = EXAMPLES / "listing.deck"
        self.cards = [card.rstrip() for card in deck.read_text().splitlines()]
        self.paper = (EXAMPLES / "listing.paper").read_text()
        root = self.page.call("DOM.getDocument")["root"]["nodeId"]
        file = self.page.call("DOM.querySelector", nodeId=root, selector="#file")["nodeId"]
        self.page.call("DOM.setFileInputFiles", nodeId=file, files=[str(deck)])
        self.shows("a deck from a file is fed", "byId('HOPPER').textContent", f"{len(self.cards):03}")

    def run_the_deck(self):
        """Presses the keys that load and run the deck."""
        self.page.value("document.querySelector('#switches button').click()")
        pressed = "document.querySelector('#switches button').getAttribute('aria-pressed')"
        self.shows("a sense switch is on", pressed, "true")
        self.page.click("load-key")
        self.shows("the load key", "byId('said-words').textContent === TEXTS.said.load")
        self.shows("the next instruction is shown", "byId('next').textContent.startsWith('SW')")
        self.shows("and lit", "document.querySelectorAll('#grid td.next').length", 7)
        # At this pace the rest of it takes more than ten seconds.
        self.page.value("byId('pace').selectedIndex = 0")
        self.page.click("run-key")
        self.shows("lines are printed while the program runs", "run !== null && view.paper.length > 3")
        self.page.value("byId('pace').selectedIndex = FASTEST")
        self.shows("the program halts", "byId('said-words').textContent === TEXTS.stops.HALT")

    def test_the_paper(self):
        next_card = "byId('card-next').querySelector('.typed').textContent"
        self.shows("the first card is shown", next_card, self.cards[0].ljust(80))
        self.run_the_deck()
        self.shows("the paper, as `run` writes it", "paperText(view.paper)", self.paper)
        heading = "[...sheets.values()].map(sheet => sheet.rows[3].textContent).join()"
        self.shows("each form has its heading at line 4, and one follows", heading, 2 * "LISTING OF THE DECK,")
        self.page.browser.call("Browser.setDownloadBehavior", behavior="allow", downloadPath=str(self.folder))
        self.page.click("save-key")
        saved = self.folder / "paper.txt"
        wait_until(lambda: saved.exists() and saved.stat().st_size)
        self.holds("the paper is saved as text", saved, self.paper)
        self.page.value("tearOff() && 0")
        self.shows("the paper isn't torn off unasked", "byId('ask').open")
        self.page.click("ask-yes")
        self.shows("the paper is torn off", "view.paper.length === 0 && torn.length", 23)
        self.shows("the page keeps it", "paperText(torn)", self.paper)
        self.page.value("layOutForPrint()")
        self.shows("it is laid out for print", "byId('sheets-to-print').querySelectorAll('.sheet').length", 2)

    def test_punched_cards(self):
        self.run_the_deck()
        self.shows("21 cards were punched", "byId('STACKER').textContent", "021")
        self.page.click("card-key")
        self.shows("a punched card is taken", "taken.join()", self.cards[6])
        self.shows("20 are left", "byId('STACKER').textContent", "020")


class TwoPages(Browser):
    """Two pages see each other's work, and a line that doesn't go on from the seat's count isn't carried out."""

    def test_they_see_each_other(self):
        second = self.open_page(2)
        second.value("say('DEPOSIT 0700 ~BY SEAT 2')")
        self.page.value("byId('find-at').value = '0700', byId('find').requestSubmit()")
        cell = "view.picture.cells[100].graphic + view.picture.cells[100].mark"
        self.shows("a page sees what the other seat does", cell, "Btrue")
        self.shows("and says so", "byId('others').textContent.length > 0")
        self.shows("the place is chosen", "byId('cell').textContent.startsWith('0700: B')")
        second.value("say('FEED FROM SEAT 2')")
        next_card = "byId('card-next').querySelector('.typed').textContent.trim()"
        self.shows("and its card", next_card, "FROM SEAT 2")

    def test_another_seat_that_runs_a_program(self):
        """The page says so, and so do the keys that would act in the middle of it."""
        second = self.open_page(2)
        second.value("say('DEPOSIT 0500 ~B500~.').then(() => say('START 0500'))")
        # The page says so for some seconds after the last command: as long as it hasn't said so, that is now.
        now = "view.others.at = view.others.began = performance.now()"
        self.shows("it is at work", f"view.others.count > 0 && ({now}, drawOthers(), byId('others').textContent)",
                   "Seat 2 is at work (START), on this machine too.")
        second.value("byId('pace').selectedIndex = 1, pressRun(), 0")
        runs = "Seat 2 runs a program: LOAD, RUN, STEP and START AT would act in the middle of it."
        self.shows("it runs", "byId('others').textContent", runs)
        self.shows("the panel says so", "byId('running').textContent", "seat 2 runs a program")
        for key in "load-key", "step-key", "run-key", "start-key":
            self.shows(f"{key} says so", f"byId('{key}').title", runs)
        second.value("attract.pressed = run.began = -Infinity, 0")
        self.shows("its parts are six seconds long", "run.grown", 60, second)
        self.shows("it runs still", "view.others.gap > 2000 && byId('others').textContent", runs)
        second.click("stop-key")
        self.shows("it ends", "byId('running').textContent === '' && byId('load-key').title === TEXTS.loadTitle")
        self.shows("who was last at work is said", "/^others gave \\d+ commands since you came; the last command is of "
                   "seat 2: RUN \\d+$/.test(byId('others').textContent)")

    def test_a_place_that_has_changed_glows(self):
        second = self.open_page(2)
        self.page.value("byId('find-at').value = '0700', byId('find').requestSubmit()")
        self.shows("the place is chosen", "byId('cell').textContent.startsWith('0700')")
        self.page.value("""window.glowed = 0, window.animated = Element.prototype.animate,
            Element.prototype.animate = function (...how) {
                glowed += this === core.cells[110];
                return animated.apply(this, how);
            }, 0""")
        second.value("say('DEPOSIT 0710 Z')")
        self.shows("it glows", "glowed > 0")
        reduced = [{"name": "prefers-reduced-motion", "value": "reduce"}]
        self.page.call("Emulation.setEmulatedMedia", features=reduced)
        glowing = "glow(core.cells[5]), core.cells[5].getAnimations().length"
        self.shows("but not where motion is to be reduced", glowing, 0)

    def test_a_second_window_of_a_seat(self):
        self.page.value("say('START 0003')")
        window = self.open_page()
        count = self.served.after()
        window.value("window.outcome = inTurn(() => { view.made -= 1; return send('START 0001'); })")
        told = "outcome.then(told => told.failed === TEXTS.outcomes[409])"
        self.shows("a count from before is reported in words", told, page=window)
        self.unchanged("and its line isn't carried out", self.served, count)
        line = "say('START 000{}').then(outcome => outcome.reply)"
        self.shows("a line with the count of a picture is", line.format(1), "OK", window)
        self.page.value("inTurn(look)")
        self.shows("the first window of the seat goes on too", line.format(2), "OK")
        self.complains_once(window, "409")


class Holding(Browser):
    """A page holds the machine for a minute: the keys of the others are off, and say why."""

    def test_a_hold(self):
        """It lasts for a minute, in which all of this is seen."""
        self.trial(self.hold_and_release, QUICK)

    def hold_and_release(self):
        """Subtests: seat 2 holds the machine of a new room, and releases it."""
        self.left = SECONDS
        self.served = self.room("serve", seats=2, pages=True, consoles=False)
        self.pages.clear()
        self.page = self.open_page()
        second = self.open_page(2)
        notice = "byId('notice').hidden ? '' : byId('notice-words').textContent"
        second.click("hold-key")
        self.shows("its own page says so", notice, "You hold the machine: the keys of the other pages are off.", second)
        self.shows("and its key ends it", "byId('hold-key').textContent", "Let others go on", second)
        why = "Seat 2 holds the machine, so the keys are off here."
        self.shows("the other page says who", notice, why)
        self.shows("and for how long", "/^ \\(\\d+ s\\)$/.test(byId('notice-left').textContent)")
        keys = "['load-key', 'run-key', 'step-key', 'feed-key', 'afresh-key', 'send-key', 'hold-key'].every"
        self.shows("its keys are off", f"{keys}(id => isOff(byId(id)))")
        self.shows("and say why", "byId('load-key').title", why)
        count = self.served.after()
        told = "say('START 0001').then(outcome => outcome.failed.replace(/\\d+ more/, 'N more'))"
        self.shows("a line isn't carried out", told, "Not carried out: seat 2 holds the machine for N more seconds.")
        self.unchanged("the machine is as it was", self.served, count)
        self.shows("the holder's line is", "say('START 0002').then(outcome => outcome.reply)", "OK", second)
        second.click("hold-key")
        self.shows("it ends", "byId('notice').hidden && !isOff(byId('load-key')) && byId('load-key').title",
                   self.page.value("TEXTS.loadTitle"))
        self.shows("the other page goes on", "say('START 0003').then(outcome => outcome.reply)", "OK")
        self.complains_once(self.page, "423")

    def test_a_run_of_another_page_stops(self):
        """Whether a look or the refusal of its next part says so first: here it is the refusal."""
        second = self.open_page(2)
        self.page.value("say('DEPOSIT 0500 ~B500~.').then(() => say('START 0500')).then(() => pressRun()), 0")
        self.shows("it runs", "run !== null && run.slices > 2")
        self.page.value("window.looks = lookForHold, lookForHold = async () => 0, 0")
        second.click("hold-key")
        self.shows("it ends, and says why", "run === null && byId('said-words').textContent.replace(/\\d+ more/, 'N more')",
                   "Not carried out: seat 2 holds the machine for N more seconds.")
        self.page.value("lookForHold = looks, 0")
        self.pages.remove(second)
        second.call("Page.navigate", url="about:blank")
        self.shows("the hold ends with its page", "byId('notice').hidden && !isOff(byId('run-key'))")
        self.pages.remove(self.page)

    def test_seats_that_are_taken(self):
        """They are marked, and named so."""
        room = self.room("serve", seats=3, pages=True)
        page = self.open(room.address(2))
        self.check("the page sees the machine", "" if page.is_ready() else "it doesn't")
        marked = "[...document.querySelectorAll('#seats a.taken')].map(a => a.getAttribute('aria-label')).join()"
        self.shows("nobody else is there", marked, "", page)
        with room.console() as console:
            console.say(b"REGS\n")
            self.shows("a console sits at seat 1", marked, "seat 1, taken", page)
        self.shows("it has left", marked, "", page)

    def test_a_room_of_one_seat_has_no_such_key(self):
        room = self.room("serve", seats=1, pages=True, consoles=False)
        page = self.open(room.address())
        self.check("the page sees the machine", "" if page.is_ready() else "it doesn't")
        self.shows("its key isn't shown", "byId('hold-key').hidden", page=page)
        self.shows("that of two seats is", "byId('hold-key').hidden", False)


class KeysAlone(Browser):
    """All of it with the keyboard alone."""

    def test_the_console_line(self):
        page = self.page
        page.press("c", "KeyC", 1)
        self.shows("Alt+C goes to the console line", "document.activeElement.id", "line")
        page.write("deposit 0500 ~b500~.")
        page.press("Enter")
        last = "[...document.querySelectorAll('#log .you')].at(-1).textContent"
        self.shows("a line is sent by Enter, in capitals", last, "DEPOSIT 0500 ~B500~.")
        page.write("START 0500")
        page.press("Enter")
        self.shows("START is carried out", "byId('I').getAttribute('aria-label')", "I register 00500")
        page.press("ArrowUp")
        page.press("ArrowUp")
        self.shows("the arrow keys bring earlier lines back", "byId('line').value", "DEPOSIT 0500 ~B500~.")
        page.press("r", "KeyR", 1)
        self.shows("Alt+R runs an endless program", "run !== null && run.slices > 2")
        page.press("Escape")
        stopped = "run === null && byId('said-words').textContent.startsWith('Stopped by you')"
        self.shows("Escape stops it", stopped)
        page.press("n", "KeyN", 1)
        self.shows("Alt+N is a step", "byId('said-words').textContent === TEXTS.said.step")

    def test_the_keypunch(self):
        page = self.page
        page.press("k", "KeyK", 1)
        self.shows("Alt+K opens the keypunch", "document.activeElement.id", "keyed")
        page.write("hello, 1401")
        holes = "byId('card-keyed').querySelector('.holes').getAttribute('d').split('M').length - 1"
        self.shows("the card has its holes", holes, 17)
        page.press("Enter")
        self.shows("Enter releases the card", "byId('HOPPER').textContent", "001")

    def test_an_address_and_the_paper(self):
        page = self.page
        page.value("say('DEPOSIT 0500 ~B500~.')")
        page.press("a", "KeyA", 1)
        page.write("0500")
        page.press("Enter")
        here = "document.activeElement.getAttribute('aria-label')"
        self.shows("an address is found", here, "0500 B with a word mark")
        page.press("ArrowRight")
        self.shows("an arrow key goes to the next place", here, "0501 5")
        page.press("p", "KeyP", 1)
        self.shows("Alt+P goes to the paper", "document.activeElement.id", "fold")

    def test_tab_goes_to_every_part(self):
        page = self.page
        punched = "for (const line of ['DEPOSIT 0400 ~4~.', 'START 0400', 'RUN 1']) await say(line);"
        page.value(f"(async () => {{ {punched} }})()")
        self.shows("a card is punched", "byId('STACKER').textContent", "001")
        page.press("k", "KeyK", 1)
        self.shows("the keypunch is open", "document.activeElement.id", "keyed")
        page.value("document.activeElement.blur(), window.outlineOf = e => getComputedStyle(e).outlineStyle, 0")
        reached, unseen = set(), []
        for _ in range(120):
            page.press("Tab")
            here = page.value("(e => e.id || e.value || e.textContent.slice(0, 20))(document.activeElement)")
            focus = "document.activeElement === document.body || outlineOf(document.activeElement)"
            if page.value(focus) == "none":
                unseen.append(here)
            reached.add(here)
        wanted = {"help-key", "load-key", "start-at", "run-key", "step-key", "pace", "switch-A", "600", "find-at", "follow",
                  "fold", "tear-key", "save-key", "print-key", "pick-key", "program", "feed-key", "afresh-key",
                  "card-key", "keyed", "release-key", "log", "line", "about-key", "sound-key", "language", "view-key"}
        self.same("parts that it doesn't reach", sorted(wanted - reached), [])
        self.same("what has the focus is marked", unseen, [])


class Feeding(Browser):
    """Decks that are fed, dropped or refused."""

    def test_a_full_hopper(self):
        """Feeding waits while it is full, and goes on when the machine has read some cards."""
        self.page.value("feedDeck(Array.from({length: 502}, (_, n) => `CARD ${n}`)) && 0")
        self.shows("feeding waits at 500 cards", "byId('HOPPER').textContent === '500' && feed.waits")
        self.page.value("(async () => { for (let n = 0; n < 4; n++) await say('LOAD'); })()")
        self.shows("and goes on", "feed === null && byId('HOPPER').textContent", "498")

    def test_a_file_that_is_dropped(self):
        self.page.value("""(data => { data.items.add(new File(['one\\ntwo\\377'], 'a deck'));
            document.body.dispatchEvent(new DragEvent('drop', {dataTransfer: data, cancelable: true, bubbles: true}));
        })(new DataTransfer())""")
        fault = "Nothing was fed. Line 2, column 4: no card has \u00ff; write Y"
        self.shows("it is read", "byId('deck-words').textContent", fault)

    def test_a_fault_of_a_deck(self):
        self.shows("its line and its column", "feedText('GOOD\\nBAD ~').then(() => byId('deck-words').textContent)",
                   "Nothing was fed. Line 2, column 5: no card has this character")


class Languages(Browser):
    """The page in each of its languages."""

    # The texts of a language by their paths, each with the values that it takes.
    TEXTS_OF = """(name => {
        const found = [];
        const walk = (texts, path) => {
            if (typeof texts === 'string') found.push(path + ' ' + [...new Set(texts.match(/\\{\\w+\\}/g))].sort());
            else for (const [key, inner] of Object.entries(texts)) walk(inner, path + '.' + key);
        };
        walk(LANGUAGES[name], '');
        return found.filter(text => !/one {n}$|one $|\\.one\\b/.test(text)).sort().join('|');
    })"""

    def test_each_has_the_same_texts(self):
        english = self.page.value(f"{self.TEXTS_OF}('en')")
        self.shows("German", f"{self.TEXTS_OF}('de')", english)

    def test_german(self):
        """Chosen on the page, it is all of the page."""
        self.page.value("byId('language').value = 'de', byId('language').dispatchEvent(new Event('change'))")
        self.shows("the key of a program", "byId('feed-key').textContent", "Programm einlegen")
        self.shows("the guide", "byId('guide-now').textContent === LANGUAGES.de.guideWords.feed")
        self.shows("the head says its language", "document.documentElement.lang", "de")
        self.page.click("feed-key")
        self.shows("what is said", "byId('deck-words').textContent === LANGUAGES.de.programs.hello.fed")
        self.shows("the title", "document.title", "IBM 1401, Platz 1")
        self.shows("no text is missing", "/undefined|\\{\\w+\\}/.test(document.body.innerText)", False)


class Amounts(Browser):
    """Many cards and many lines: how far it is is shown, and each can be stopped."""

    def test_a_deck_that_is_larger_than_the_hopper(self):
        """A run that goes on reads it while it is fed, and no run has to be started again."""
        for line in "DEPOSIT 0500 ~1~B500~.", "START 0500":
            self.page.value(f"say('{line}')")
        self.page.value("feedDeck(Array.from({length: 620}, (_, n) => `CARD ${n}`)), 0")
        self.shows("cards are in the hopper", "feed !== null && feed.fed > 20")
        self.page.value("byId('pace').selectedIndex = 3, pressRun(), 0")
        self.shows("all are fed", "feed", None)
        self.shows("the words are true", "byId('deck-words').textContent", "620 cards were fed.")
        self.shows("all are read", "byId('said-words').textContent === TEXTS.stops.READER")
        self.shows("the last one too", "view.picture.read", "CARD 619")

    def print_lines(self, many):
        """Has the machine print lines, two instructions each."""
        for line in "DEPOSIT 0500 ~2~B500~.", "START 0500", f"RUN {2 * many}":
            self.page.value(f"say('{line}')")
        self.shows(f"{many} lines are printed", "view.paper.length", many)

    def tear_off(self):
        """Presses the key, and says yes."""
        self.page.value("tearOff() && 0")
        self.shows("the page asks", "byId('ask').open")
        self.page.click("ask-yes")

    def test_tearing_off_is_stopped(self):
        """The first request for lines is sent here, and the second one when the key has been pressed."""
        self.print_lines(400)
        self.page.value("""window.asked = fetch, window.maySend = 1, fetch = async (...all) => {
            while (all[0] === '/lines' && maySend === 0) await delay(20);
            if (all[0] === '/lines') maySend--;
            return asked(...all);
        }, 0""")
        self.tear_off()
        words = "/^[1-9][0-9]* of 400 lines taken$/.test(byId('torn-words').textContent)"
        self.shows("it is shown how far it is", words)
        self.page.click("take-stop")
        self.page.value("maySend = Infinity, 0")
        self.shows("it is stopped", "taking === null && torn.length > 0 && torn.length < 400 "
                   "&& torn.length + view.paper.length", 400)

    def test_a_full_printer_and_a_full_stacker(self):
        """Each is taken by one key."""
        self.print_lines(500)
        self.page.value("window.took = 0, window.began = 0, tearOff().then(() => took = performance.now() - began), 0")
        self.shows("the page asks", "byId('ask').open")
        self.page.value("began = performance.now(), byId('ask-yes').click()")
        self.shows("the paper", "took > 0 && torn.length", 500)
        self.page.value("say('DEPOSIT 0500 ~4').then(() => say('RUN 1000'))")
        self.shows("500 cards are punched", "byId('STACKER').textContent", "500")
        self.page.value("took = 0, began = performance.now(), "
                        "takeAllCards().then(() => took = performance.now() - began), 0")
        self.shows("the cards", "took > 0 && taken.length", 500)

    def test_five_hundred_whole_cards(self):
        self.page.value("window.took = 0, window.began = performance.now(), feedDeck(Array.from({length: 500}, "
                        "(_, n) => `CARD ${n}`.padEnd(80, 'X'))).then(() => took = performance.now() - began), 0")
        self.shows("all are in the hopper", "took > 0 && byId('HOPPER').textContent",
                   "500")

    def test_a_run_that_waits_for_the_paper(self):
        """It says so, and goes on when the paper is torn off."""
        for line in "DEPOSIT 0500 ~2~B500~.", "START 0500":
            self.page.value(f"say('{line}')")
        self.page.value("pressRun(), 0")
        self.shows("it waits", "byId('said-words').textContent === TEXTS.waits.FORMS && run !== null")
        self.tear_off()
        again = "torn.length >= 500 && view.paper.length === 500 && run.waits"
        self.shows("it goes on, and waits again", again, "FORMS")
        self.page.click("stop-key")
        self.shows("STOP ends it", "run === null && byId('said-words').textContent === TEXTS.stops.FORMS")

    def test_all_punched_cards(self):
        for line in "DEPOSIT 0500 ~4~B500~.", "START 0500", "RUN 60":
            self.page.value(f"say('{line}')")
        self.shows("30 cards are punched", "byId('STACKER').textContent", "030")
        self.page.click("all-cards-key")
        self.shows("all are taken", "taken.length === 30 && byId('STACKER').textContent", "000")
        self.shows("and counted", "byId('taken-words').textContent", "30 cards were taken.")


class LongRuns(Browser):
    """A run that nobody watches: its parts grow, and the journal lasts."""

    # Entries of a day, by the length of each part in tenths of a second, and from how long after a press on.
    DAY = """(() => {
        let entries = 0;
        for (let at = 0; at < 86400000; at += SLICE_MS * grownBy(at)) entries++;
        return entries;
    })()"""

    def test_a_day_takes_less_than_a_fifth_of_a_journal(self):
        entries = self.page.value(self.DAY)
        self.check("entries", "" if 14_000 < entries < 20_000 else f"{entries}")
        self.shows("a part is a tenth of a second in the first minute", "grownBy(0) + grownBy(59999)", 2)
        self.shows("and six seconds at most", "grownBy(1e9) * SLICE_MS", 6000)

    def begin(self, idle):
        """A run that goes on after nobody has pressed anything for so many milliseconds."""
        for line in "DEPOSIT 0500 ~B500~.", "START 0500":
            self.page.value(f"say('{line}')")
        self.page.value("byId('pace').selectedIndex = 1, pressRun(), 0")
        self.page.value(f"run.began -= {idle}, attract.pressed -= {idle}, run.wake(), 0")

    def test_stop_answers_at_once(self):
        """In the middle of a long part too."""
        self.begin(1_000_000)
        self.shows("parts are long", "run.grown === 60 && run.steps > 500")
        self.page.value("window.took = 0, window.began = performance.now(), byId('stop-key').click(), "
                        "(async () => { while (run) await delay(2); took = performance.now() - began; })(), 0")
        self.shows("it stops", "took > 0")

    def test_a_press_makes_them_short_again(self):
        self.begin(1_000_000)
        self.shows("parts are long", "run.grown", 60)
        self.page.press("Shift")
        self.shows("they are short", "run.grown", 1)

    def test_it_pauses_when_the_journal_is_nearly_full(self):
        self.begin(0)
        # No look is asked for from here on; a look that is under way puts its own picture there first.
        self.page.value("""look = async () => true, inTurn(async () => {
            view.picture = {...view.picture, after: 95000};
            return 0;
        })""")
        self.shows("it pauses", "run === null && byId('said-words').textContent.startsWith('Paused after')")

    def test_a_run_that_was_left(self):
        """The guide says so to whoever comes, and lights the key that clears the machine."""
        self.begin(0)
        self.page.value("attract.touched -= IDLE.attractMs, 0")
        self.shows("the guide says what is left", "byId('guide-now').textContent === TEXTS.guideWords.other")
        self.shows("the key is lit", "document.querySelector('.lit').id", "afresh-key")


class Rooms(Browser):
    """A page knows its room by its name."""

    def test_another_room(self):
        """What was meant for the one before isn't sent to it."""
        self.page.value("say('START 0003')")
        self.shows("the room has a name", "/^[0-9A-F]{16}$/.test(view.picture.room)")
        self.page.value("""window.asked = fetch, window.old = view.picture.room, fetch = async (path, how) => {
            const response = await asked(path.replace(/room=\\w*/, 'room=' + '0'.repeat(16)), how);
            if (response.status !== 200 || !path.startsWith('/picture')) return response;
            return new Response((await response.text()).replace(old, '0'.repeat(16)));
        }, 0""")
        self.shows("the page says so", "byId('said-words').textContent === TEXTS.said.resumed")
        refused = "send('START 0001').then(outcome => outcome.failed === TEXTS.outcomes[409])"
        self.shows("a line that names it is refused in the other", refused)
        self.page.value("fetch = asked, 0")
        self.shows("the page goes on", "say('START 0002').then(outcome => outcome.reply)", "OK")
        self.same("the line wasn't carried out", self.served.made(), 2)
        self.pages.remove(self.page)


class Words(Browser):
    """What the page says is true of the machine."""

    def test_words_of_cards(self):
        """They are over once a card is read, whoever reads it."""
        self.page.value("say('FEED ONE').then(() => say('LINE'))")
        self.page.value("startAfresh()")
        self.shows("the machine is clear", "byId('said-words').textContent === TEXTS.said.clear")
        self.page.value("feedChosen()")
        self.shows("what is to be done", "byId('deck-words').textContent === TEXTS.programs.hello.fed")
        self.shows("it isn't clear any more", "byId('said-words').textContent", "There is 1 card in the hopper. "
                   "LOAD reads it.")
        self.page.value("send('LOAD').then(() => inTurn(look))")
        self.shows("it was done by another seat", "byId('deck-words').textContent", "")
        self.shows("a count is of what was fed", "counted(TEXTS.fedAll, 1206)", "1,206 cards were fed.")

    def test_the_steps_of_a_run(self):
        """Those of all its parts."""
        self.page.value("byId('pace').selectedIndex = 0, feedChosen().then(pressLoad).then(pressRun)")
        self.shows("all steps", "byId('said-reply').textContent", "STOP 02 HALT STEPS 7 I 00038")
        self.shows("no instruction is next", "view.picture.next = ' ', drawPanel(), byId('next').textContent "
                   "=== TEXTS.nextEnded")
        self.shows("nor on another page", "view.ended = null, view.picture.next = ' ', drawPanel(), "
                   "byId('next').textContent === TEXTS.nextNone")
        self.shows("nothing is said of a program", "view.picture.next = ' ', welcomeWords() === TEXTS.said.welcome")

    def test_a_full_journal(self):
        """Each expression has its own number of entries, since the next look has the machine's."""
        nearly = "view.picture.after = JOURNAL_NEARLY, drawBanner(), drawKeys()"
        self.shows("it is nearly full", f"renewal.mode = 'OFF', {nearly}, byId('banner').hidden", False)
        self.shows("unless another room follows", f"renewal.mode = 'ON', {nearly}, bannerText()", "")
        full = "view.picture.after = JOURNAL_ENTRIES, renewal.mode = 'OFF', drawBanner(), drawKeys()"
        self.shows("the keys are off", f"{full}, isOff(byId('load-key')) && byId('banner').textContent === TEXTS.full")

    def test_a_name_is_not_left_out(self):
        """The last step of the guide is done by a card with a name, and that card is the one to print."""
        self.page.value("feedChosen().then(pressLoad).then(pressRun).then(() => feedText(HELLO))"
                        ".then(rested).then(pressLoad).then(pressRun)")
        self.shows("the guide waits", "guide.step()", "name")
        self.page.value("byId('name').value = 'O\u2019NEILL', punchName(new Event('submit'))")
        self.shows("the name is fed", "view.picture.hopper.slice(40)", "O'NEILL")
        self.page.value("rested().then(pressLoad).then(pressRun)")
        self.shows("it is printed", "guide.step()", "done")
        self.page.value("byId('keyed').value = 'ANOTHER', releaseCard()")
        self.shows("its card is the one to print", "nameCard.slice(40)", "O'NEILL")
        self.shows("it is over with the next deck", "guide.step()", "other")

    def test_what_one_is_looking_at(self):
        self.page.click("about-key")
        self.shows("from its beginning on", "byId('about').open && byId('about').scrollTop", 0)

    def test_another_page_clears_the_machine(self):
        """Whoever is at this one begins with a clear machine too."""
        self.page.value("say('FEED ONE')")
        second = self.open_page(2)
        self.shows("the guide says what is left", "guide.step()", "other", second)
        self.page.value("startAfresh()")
        self.shows("it begins", "guide.step()", "feed", second)
        self.shows("with these words", "byId('said-words').textContent === TEXTS.said.clear", page=second)
        second.value("guide.on('fed'), 0")
        self.page.value("say('FEED ONE')")
        self.shows("a card is there", "view.picture.registers.HOPPER", 1, second)
        self.page.value("startAfresh()")
        self.shows("and once more", "guide.step() + guide.hasFed", "feedfalse", second)

    def test_a_room_that_is_prepared_anew(self):
        room = self.room("serve", "--renew-after", 5, "--cards", EXAMPLES / "listing.deck", seats=1, pages=True,
                         consoles=False)
        page = self.open(room.address())
        self.check("the page sees the machine", "" if page.is_ready() else "it doesn't")
        self.shows("the guide says what the key does", "byId('guide-now').textContent === TEXTS.guide.preparedAgain",
                   page=page)
        page.value("window.old = view.picture.room, pressAfresh(), 0")
        self.shows("the page asks", "byId('ask').open", page=page)
        page.click("ask-yes")
        self.shows("it has what the staff has prepared", "byId('said-words').textContent === TEXTS.said.prepared && "
                   "view.picture.room !== old", page=page)

    def test_after_the_end(self):
        """One more STEP isn't carried out unless it is pressed again."""
        self.page.value("feedChosen().then(pressLoad).then(pressRun)")
        self.shows("the program has ended", "byId('next').textContent === TEXTS.nextEnded")
        count = self.served.after()
        self.page.click("step-key")
        self.shows("a step is asked about", "byId('said-words').textContent === TEXTS.said.afterEnd")
        self.unchanged("and not carried out", self.served, count)
        self.page.click("step-key")
        self.shows("but the next one is", "view.picture.after", count + 1)

    def test_a_run_that_is_stopped(self):
        for line in "DEPOSIT 0500 ~B500~.", "START 0500":
            self.page.value(f"say('{line}')")
        self.page.value("byId('pace').selectedIndex = 0, pressRun(), 0")
        self.shows("it goes on", "run !== null && run.steps > 2")
        self.page.click("stop-key")
        words = "/^Stopped by you after [0-9]+ steps/.test(byId('said-words').textContent)"
        self.shows("its steps are counted once", f"{words} && byId('said-reply').textContent", "")

    def test_counts(self):
        self.shows("one", "counted(TEXTS.takenAll, 1)", "1 card was taken.")
        self.shows("several", "counted(TEXTS.takenAll, 1200)", "1,200 cards were taken.")
        self.page.value("byId('keyed').value = 'A'.repeat(80), drawKeyed()")
        self.shows("a full card", "byId('keyed-words').textContent", "all 80 columns are full")

    def test_the_first_words(self):
        """They say what is in the machine."""
        self.page.value("say('FEED ONE').then(() => say('FEED TWO')).then(() => inTurn(look))")
        wanted = "There are 2 cards in the hopper. LOAD reads the first one."
        self.shows("cards in the hopper", "welcomeWords()", wanted)

    def test_the_first_words_at_an_image(self):
        """What the staff has put into the machine isn't to be cleared, and no deck is run by the page itself."""
        room = self.room("serve", "--image", EXAMPLES / "five_and_five.image", seats=1, pages=True, consoles=False)
        page = self.open(room.address())
        self.check("the page sees the machine", "" if page.is_ready() else "it doesn't")
        self.shows("its words", "byId('said-words').textContent", "A program is in core storage. RUN carries it out.",
                   page)
        self.shows("the guide's", "byId('guide-now').textContent === TEXTS.guide.prepared", page=page)
        self.shows("no key is lit", "document.querySelectorAll('.lit').length", 0, page)
        page.value("say('START 0900')")
        self.shows("without an address", "welcomeWords()", "The staff has put a program into core storage. START AT its "
                   "address, then RUN.", page)
        page.value("attract.touched = view.changed = -Infinity, 0")
        self.shows("nobody is there for long", "isIdle()", False, page)
        page.value("hold.isPrepared = false")
        self.shows("another machine would run by itself then", "isIdle() || attract.on", page=page)

    def test_a_journal_that_cannot_be_written(self):
        """Its banner stays when the room is closed a moment later."""
        self.page.value("view.unkept = true, setLink('closed')")
        self.shows("the banner", "byId('banner').textContent === TEXTS.unkept")

    def test_decks_of_other_systems(self):
        self.shows("a mark at the head", "deckOf('\\ufeffone\\r\\ntwo\\n').cards.join()", "ONE,TWO")
        self.shows("UTF-8", "textOf(new Uint8Array([0xc3, 0x84]))", "\u00c4")
        self.shows("a hint", "deckOf('\u00c4').fault.endsWith('write AE')")

    def test_a_reload_asks(self):
        """As long as something would be lost."""
        asked = "(event => (keepsPaper(event), event.defaultPrevented))(new Event('beforeunload', {cancelable: true}))"
        self.shows("not without paper", asked, False)
        self.page.value("torn.push({form: 1, line: 1, text: 'A'}), 0")
        self.shows("but with paper", asked)

    def test_paper_that_was_torn_off_further_down(self):
        """It is as `run` writes it: a form feed for each form before it."""
        self.shows("form 3, line 2", "paperText([{form: 3, line: 2, text: 'A'}])", "\f\f\nA\n")
        self.shows("past form 9999", "paperText([{form: 9999, line: 1, text: 'A'}, {form: 0, line: 1, text: 'B'}])"
                   ".slice(9998)", "A\n\fB\n")


class Renewal(Browser):
    """Rooms that follow each other, as far as the page has part in it: the server's answers are made up here."""

    ANSWERS = """window.asked = fetch, window.posted = 0, window.text = 'RENEWAL ON\\n', window.name = '',
        fetch = async (path, how) => {
            if (path === '/renewal') {
                if (how.method === 'POST') posted++, name = '0'.repeat(16);
                return new Response(text);
            }
            const response = await asked(name ? String(path).replace(/&after=\\d+/, '') : path, how);
            if (!name || !String(path).startsWith('/picture') || response.status !== 200) return response;
            return new Response((await response.text()).replace(/^ROOM \\w+/, 'ROOM ' + name));
        }, Object.assign(renewal, {mode: '', asked: -Infinity}), 0"""

    def answer(self, more=""):
        """Puts the made-up answers in place of the server's, once the server's own first answer has come. The guide is
        off, and doesn't ask to hold a machine of a made-up name."""
        self.shows("the server's own answer has come", "renewal.mode", "OFF")
        self.page.value("guide.press()")
        self.page.value(self.ANSWERS + more)

    def test_a_notice(self):
        self.answer()
        self.shows("rooms follow each other", "renewal.mode", "ON")
        self.page.value("text = 'RENEWAL IN 43\\n', renewal.asked = -Infinity, 0")
        wanted = "This machine is put away in 43 seconds, and a new one follows."
        self.shows("the notice", "byId('notice').hidden ? '' : byId('notice').textContent.trim()", wanted)
        self.page.value("text = 'RENEWAL ON\\n', renewal.asked = -Infinity, 0")
        self.shows("it goes", "byId('notice').hidden")

    def test_start_afresh_asks_for_a_new_room(self):
        self.answer()
        self.shows("rooms follow each other", "renewal.mode", "ON")
        self.page.value("pressAfresh() && 0")
        self.shows("the page asks", "byId('ask').open")
        self.page.click("ask-yes")
        self.shows("a new room is asked for", "posted", 1)
        self.shows("the page goes on in it", "byId('said-words').textContent === TEXTS.said.clear")

    def test_a_new_room(self):
        """Here the answers are the server's own."""
        room = self.room("serve", "--renew-after", 5, seats=1, pages=True, consoles=False)
        page = self.open(room.address())
        self.check("the page sees the machine", "" if page.is_ready() else "it doesn't")
        page.value("say('FEED ONE')")
        self.shows("rooms follow each other", "renewal.mode", "ON", page)
        page.value("window.old = view.picture.room, pressAfresh(), 0")
        self.shows("the page asks", "byId('ask').open", page=page)
        page.click("ask-yes")
        self.shows("it goes on in a new room", "view.picture.room !== old && view.picture.after", 0, page)
        self.shows("which is clear", "byId('said-words').textContent === TEXTS.said.clear", page=page)
        words = "[...document.querySelectorAll('#log .words')].some(each => each.textContent === TEXTS.said.newRoom)"
        self.shows("the staff hasn't started it", words, False, page)
        self.shows("a line is carried out there", "say('FEED TWO').then(outcome => outcome.reply)", "OK", page)

    def test_no_new_room_is_asked_for_where_none_follows(self):
        self.answer(", text = 'RENEWAL OFF\\n', 0")
        self.shows("none follows", "renewal.mode", "OFF")
        self.page.value("startAfresh()")
        self.shows("none is asked for", "posted", 0)


class TakenSeat(Browser):
    """A page whose seat a console has."""

    def test_it_waits_for_the_seat(self):
        room = self.room("serve", seats=1, pages=True)
        with room.console() as console:
            console.say(b"REGS\n")
            page = self.open(room.address())
            self.shows("the page is there, and says so", "byId('banner').textContent", "Somebody sits at this seat with "
                       "a console. This page goes on when that operator has left.", page)
            self.shows("its keys are off", "isOff(byId('load-key'))", page=page)
        self.shows("it takes the seat when that is free", "view.link === 'fine' && byId('banner').hidden", page=page)
        self.shows("and gives lines", "say('FEED ONE').then(outcome => outcome.reply)", "OK", page)


class Looking(Browser):
    """A page that only looks."""

    def test_ten_minutes_leave_the_journal_as_it_was(self):
        count = self.served.after()
        looks = f"""(async () => {{
            let seen = 0;
            while (seen < {LOOKS_AT_A_TIME} && await inTurn(look)) seen++;
            return seen;
        }})()"""
        seen = [self.page.value(looks) for _ in range(LOOKS // LOOKS_AT_A_TIME)]
        self.same(f"{LOOKS} looks are answered", seen, [LOOKS_AT_A_TIME] * (LOOKS // LOOKS_AT_A_TIME))
        self.unchanged("the machine", self.served, count)


class Other(http.server.BaseHTTPRequestHandler):
    """An empty page of another origin."""

    def do_GET(self):
        self.send_response(200)
        self.send_header("content-type", "text/html")
        self.end_headers()
        self.wfile.write(b"<!doctype html><title>other</title>")

    def log_message(self, *_):
        pass


class Foreign(Browser):
    """A page of another origin, and the page by another name, reach nothing."""

    def test_a_page_of_another_origin(self):
        count = self.served.after()
        with http.server.ThreadingHTTPServer(("127.0.0.1", 0), Other) as other:
            threading.Thread(target=other.serve_forever, daemon=True).start()
            page = self.open(f"http://127.0.0.1:{other.server_address[1]}/")
            self.shows("it is there", "document.title", "other", page)
            sent = "{method: 'POST', mode: '%s', body: 'START 0001', headers: {%s}}"
            for mode, fields in ("no-cors", ""), ("cors", ""), ("cors", "'X-1401-Line': '0'"):
                asked = sent % (mode, fields)
                page.value(f"fetch('{self.served.address()}/line', {asked}).then(r => r.status, () => 'refused')")
            picture = f"{self.served.address()}/picture?core=0&paper=0"
            found = page.value(f"fetch('{picture}').then(r => r.text(), () => 'refused')")
            self.same("it doesn't read a picture", found, "refused")
            other.shutdown()
        self.unchanged("its lines aren't carried out", self.served, count)

    def test_the_page_by_another_name(self):
        named = self.open(f"http://{OTHER_NAME}:{self.served.page}/")
        named.until("document.readyState", "complete")
        self.shows("it isn't served", "typeof TEXTS", "undefined", named)


class Unplugged(Browser):
    """A server that is gone."""

    def test_it_is_reported_in_words(self):
        """A line that was on its way isn't sent again."""
        # No look is asked for from here on; a look that is under way ends first.
        self.page.value("window.polls = look, look = async () => false, inTurn(async () => 0)")
        self.served.kill()
        self.page.value("say('START 0003') && 0")
        self.shows("a line that got no answer", "byId('log').textContent.includes(TEXTS.lostAsking)")
        self.page.value("look = polls, 0")
        self.shows("the banner", "byId('banner').textContent === TEXTS.lost")
        self.pages.remove(self.page)

    def test_the_keys_are_off(self):
        """What is pressed or typed then isn't sent to the machine that comes next."""
        self.page.value("""window.sent = 0, window.asked = fetch;
            fetch = (...all) => (sent += all[0] === '/line', asked(...all)), 0""")
        self.served.kill()
        self.shows("the banner", "byId('banner').textContent === TEXTS.lost")
        off = "['load-key', 'run-key', 'step-key', 'feed-key', 'send-key', 'afresh-key'].every(id => isOff(byId(id)))"
        self.shows("the keys are off", off)
        self.shows("and the switches", "[...byId('switches').children].every(isOff)")
        self.page.mouse("load-key")
        self.page.press("l", "KeyL", 1)
        self.page.value("byId('switches').children[0].click()")
        self.page.value("byId('line').value = 'START 3', byId('line-form').requestSubmit()")
        self.shows("a line isn't sent", "say('SWITCH A ON').then(outcome => outcome.failed === TEXTS.outcomes.off)")
        self.shows("no key is", "sent", 0)
        self.pages.remove(self.page)


if __name__ == "__main__":
    unittest.main()
