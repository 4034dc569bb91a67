"""The page as the stage of an exhibit, and as the view of a projector."""
import unittest

from tests.chromium import Page
from tests.serving.test_browser import Browser
from tests.serving.test_exhibit import LIT, PRINTED, SIZES

KEYS = ["feed-key", "load-key", "step-key", "run-key"]
# Whether an element is seen as a whole, without scrolling.
SEEN = """(element => (box => box.width > 0 && box.top >= 0 && box.left >= 0 && box.bottom <= innerHeight + 1
    && box.right <= innerWidth + 1)(element.getBoundingClientRect()))"""
# What a museum's screen hasn't: files, downloads, the print dialog, other seats, the console.
ABSENT = ["pick-key", "save-key", "print-key", "tear-key", "save-cards-key", "card-print-key", "line", "log",
          "hold-key", "seats"]


class Stage(Browser):
    """A screen of an exhibit."""

    fragment = "#exhibit"

    def setUp(self):
        self.served = self.room("serve", seats=2, pages=True, consoles=False)
        self.pages = []
        self.page = self.open_stage()

    def open_stage(self, seat=1, fragment=None, size=SIZES["the smallest screen"]):
        """The page of a seat as a stage, which nobody has touched yet and which doesn't wait for that."""
        page = Page(self.browser, f"{self.served.address(seat)}/{fragment or self.fragment}", size)
        self.addCleanup(page.close)
        self.check(f"the page of seat {seat} sees the machine", "" if page.is_ready() else "it doesn't")
        page.value("VISIT.idleMs = 1e9, 0")
        self.pages.append(page)
        return page

    def step(self, name):
        """The guide is at this step, and the key for it is lit and on."""
        key = self.page.value(f"GUIDE_STEPS.{name}.key")
        self.shows(f"{name}: its key", f"guide.step() + ({LIT}) + isOff(byId('{key}'))", f"{name}{key}false")
        return key

    def visit(self, name, press):
        """Subtests: a child of ten comes to a printed name."""
        press("feed-key" if self.page.value("guide.step()") == "done" else self.step("feed"))
        for step in "load", "step", "run":
            press(self.step(step))
        self.step("name")
        self.write(name)
        press("name-key")
        for step in "loadName", "runName":
            press(self.step(step))
        self.shows("the name is on the paper", f"{PRINTED}.split('|').at(-1)", name)
        self.shows("the guide says so", "byId('guide-now').textContent === TEXTS.childWords.done")

    def write(self, name):
        self.page.value("byId('name').value = '', byId('name').focus()")
        self.page.write(name.title())

    def mouse(self, key):
        self.check(f"the mouse reaches {key}", "" if self.page.mouse(key) else "it doesn't")

    def keyboard(self, key):
        self.check(f"Tab reaches {key}", "" if self.page.tab_to(key) else "it doesn't")
        self.page.press("Enter")


class Visits(Stage):
    """A visitor at each size."""

    def test_by_mouse(self):
        for number, (place, size) in enumerate(SIZES.items()):
            with self.subTest(place):
                self.page.resize(size)
                self.visit(f"VISITOR {'ABCDEF'[number]}", self.mouse)

    def test_by_keyboard(self):
        """The focus goes on to the key that is lit next."""
        self.keyboard(self.step("feed"))
        for step in "load", "step", "run":
            key = self.step(step)
            self.shows(f"{key} has the focus", "document.activeElement.id", key)
            self.page.press("Enter")
        self.step("name")
        self.shows("the field has it", "document.activeElement.id", "name")
        self.page.write("Ada")
        self.page.press("Enter")
        for step in "loadName", "runName":
            self.keyboard(self.step(step))
        self.shows("the name is on the paper", f"{PRINTED}.split('|').at(-1)", "ADA")

    def test_by_touch(self):
        """On a screen without a keyboard."""
        def tap(key):
            box = f"byId('{key}').getBoundingClientRect()"
            at = self.page.value(f"(box => [box.x + box.width / 2, box.y + box.height / 2])({box})")
            point = [{"x": at[0], "y": at[1]}]
            self.page.call("Input.dispatchTouchEvent", type="touchStart", touchPoints=point)
            self.page.call("Input.dispatchTouchEvent", type="touchEnd", touchPoints=[])

        def write(name):
            self.page.value("byId('name').value = ''")
            for number, letter in enumerate(name):
                key = f"{name}{number}"
                found = f"[...byId('name-keys').children].find(key => key.textContent === '{letter}')"
                self.page.value(f"{found}.id = '{key}'")
                tap(key)

        self.write = write
        self.page.call("Emulation.setTouchEmulationEnabled", enabled=True)
        for place in "the smallest screen", "a telephone":
            self.page.resize(SIZES[place])
            self.visit("GRACE" if place == "a telephone" else "ADA", tap)


    def test_while_another_screen_plays(self):
        """A deck runs by itself there; the visitor here clears the machine, holds it, and comes to the name."""
        first = self.page
        self.page = self.open_stage(2)
        first.value("VISIT.idleMs = 60000, attract.touched -= 80000, IDLE.attractMs = 0, 0")
        self.shows("a deck runs there", "run !== null", page=first)
        self.shows("the first key clears it", f"byId('feed-key').textContent + {LIT}", "CLEARfeed-key")
        self.mouse("feed-key")
        self.visit("ADA", self.mouse)
        self.shows("the other screen waits for a touch", "!byId('touch-me').hidden", page=first)
        self.mouse = lambda key: first.mouse(key)
        self.mouse("touch-me")
        self.shows("a visitor there begins", "guide.step()", "feed", first)
        # Its run was refused, which is a complaint of the browser.
        self.pages.remove(first)


class Screen(Stage):
    """What is on it, at each size."""

    def test_one_screen(self):
        self.page.value("feedChosen().then(pressLoad).then(pressStep).then(pressRun)")
        self.shows("a line is printed", PRINTED, "HELLO FROM AN IBM 1401")
        parts = KEYS + ["machines", "stage-card", "strip", "band", "stage-said", "why-key", "more-key", "language"]
        for place, size in SIZES.items():
            self.page.resize(size)
            self.shows(f"{place}: parts that aren't seen", f"{parts}.filter(id => !{SEEN}(byId(id))).join()", "")
            self.shows(f"{place}: nothing scrolls", "document.documentElement.scrollHeight <= innerHeight && "
                       "document.documentElement.scrollWidth <= innerWidth")
            large = "(box => box.width >= 56 && box.height >= 56)"
            self.shows(f"{place}: large keys", f"{KEYS}.every(id => {large}(byId(id).getBoundingClientRect()))")
            self.shows(f"{place}: the newest line", "(line => parseFloat(getComputedStyle(line).fontSize) >= 24 && "
                       f"{SEEN}(line))(byId('band').lastElementChild)")

    def test_the_paper_grows(self):
        """To a third of the screen at most."""
        self.page.value("say('DEPOSIT 0500 ~2~B500~.').then(() => say('START 0500')).then(() => say('RUN 2'))")
        self.shows("one line", "byId('band').childElementCount", 1)
        self.page.value("window.one = byId('band').clientHeight, say('RUN 60')")
        self.shows("many lines", "byId('band').childElementCount", 12)
        for place, size in SIZES.items():
            self.page.resize(size)
            self.shows(place, "byId('band').getBoundingClientRect().height <= innerHeight / 3 + 1")
            self.shows(f"{place}: the newest is seen", f"{SEEN}(byId('band').lastElementChild)")

    def test_keys_keep_their_place(self):
        box = "(box => [box.x, box.y, box.width])(byId(id).getBoundingClientRect())"
        place = f"{KEYS}.map(id => {box}.join()).join('|')"
        self.page.value(f"window.places = new Set(), window.seen = () => places.add({place}), seen()")
        for key in "feedChosen()", "pressLoad()", "pressStep()", "pressRun()", "guide.begin()":
            self.page.value(f"{key}, 0")
            self.page.value("delay(450).then(() => { seen(); })")
        self.shows("they have one place", "places.size", 1)

    def test_nothing_else_is_there(self):
        """Neither before nor after More is pressed, nor by keys of the keyboard, nor by a file."""
        seen = f"{ABSENT}.filter(id => byId(id).checkVisibility()).join()"
        self.shows("at first", seen, "")
        self.shows("core storage isn't", "byId('grid').checkVisibility()", False)
        self.mouse("more-key")
        self.shows("after More", seen, "")
        self.shows("core storage is", "byId('grid').checkVisibility()")
        self.shows("the four keys of the stage aren't lost", "byId('more-key').textContent", "Back")
        self.mouse("more-key")
        self.shows("and back", "byId('grid').checkVisibility()", False)
        for key, code in ("c", "KeyC"), ("t", "KeyT"), ("k", "KeyK"):
            self.page.press(key, code, 1)
        self.shows("no dialog, no field", "byId('ask').open || document.activeElement.id === 'line'", False)
        self.page.value("""(data => { data.items.add(new File(['ONE'], 'a deck'));
            document.body.dispatchEvent(new DragEvent('drop', {dataTransfer: data, cancelable: true, bubbles: true}));
        })(new DataTransfer())""")
        self.page.value("delay(300)")
        self.shows("no card", "view.picture.registers.HOPPER", 0)

    def test_what_moves_is_the_machine(self):
        """Piles, lights, paper, the card and the places follow the picture."""
        height = "Number(machines.{}.getAttribute('height'))"
        self.shows("no card", height.format("hopper"), 0)
        self.page.value("feedChosen()")
        self.shows("a card in the hopper", height.format("hopper") + " > 0")
        self.shows("it is the next one", "byId('stage-card-name').textContent", "The next card")
        self.page.value("pressLoad()")
        self.shows("it is read", height.format("hopper"), 0)
        self.shows("lights are on", "machines.lights.filter(light => light.classList.contains('on')).length > 3")
        lit = "strip.cells.filter(cell => cell.classList.contains('{}')).map(cell => cell.textContent).join('')"
        self.shows("the next instruction", lit.format("next"), ",008015")
        self.shows("it is lit on the card", "Number(stageLit.getAttribute('width'))", 42)
        self.shows("one word mark", lit.format("mark"), ",")
        self.page.value("pressStep()")
        self.shows("three word marks", lit.format("mark"), ",,,")
        self.shows("the card is cut at two", "stageCuts.getAttribute('d').split('M').length", 3)
        self.page.value("pressRun()")
        printed = "strip.cells.slice(80).map(cell => cell.textContent).join('').replace(/\u00a0/g, ' ').trim()"
        self.shows("the print area", printed, "HELLO FROM AN IBM 1401")
        self.shows("a line on the drawing", "Number(machines.rows[0].getAttribute('width')) > 20")

    def test_run_is_stop_while_it_runs(self):
        for line in "DEPOSIT 0500 ~B500~.", "START 0500":
            self.page.value(f"say('{line}')")
        self.mouse("run-key")
        self.shows("it runs", "run !== null && byId('run-key').textContent", "STOP")
        self.page.value("delay(500)")
        self.mouse("run-key")
        self.shows("it stops", "run === null && byId('run-key').textContent", "RUN")

    def test_what_was_left_is_cleared_by_the_first_key(self):
        self.page.value("send('FEED LEFT').then(() => inTurn(look))")
        self.shows("the key says so", f"byId('feed-key').textContent + {LIT}", "CLEARfeed-key")
        self.shows("and the guide", "byId('guide-now').textContent", "Somebody was here before you. Press CLEAR.")
        self.mouse("feed-key")
        self.shows("it is clear", f"isClear(view.picture) && byId('feed-key').textContent + {LIT}", "FEEDfeed-key")

    def test_the_fragment(self):
        page = self.open_stage(2, "#exhibit&name=Museum+of+Machines&lang=de")
        self.shows("the museum's name", "byId('stage-name').textContent", "Museum of Machines", page)
        self.shows("the language", "document.documentElement.lang + byId('feed-key').textContent", "deKARTE", page)
        plain = self.open_page(2)
        seen = "byId('stage').hidden && byId('grid').checkVisibility()"
        self.shows("the page without one is as it was", seen, page=plain)


class Tour(Stage):
    """What the machine does, scene by scene."""

    def test_the_seven_instructions(self):
        self.page.value("feedChosen().then(pressLoad)")
        self.mouse("why-key")
        words = "byId('tour-words').textContent"
        self.shows("the card", words, self.page.value("TEXTS.scenes.load"))
        marks = ("It has set word marks at {}. A word mark says that something begins there; the card is cut into its "
                 "parts.")
        wanted = [marks.format(places) for places in ("8 and 15", "22 and 29", "36 and 37", "38 and 41")]
        wanted += ['It has carried letters from place 41 on to place 201 on: "HELLO FROM AN IBM 1401".',
                   'The chain of the printer has printed the places from 201 on: "HELLO FROM AN IBM 1401".',
                   "The program has ended, and the machine stops."]
        for n, sentence in enumerate(wanted):
            self.mouse("tour-next")
            self.shows(f"scene {n + 2}", words, sentence)
        self.shows("places that were touched", "tour.at = 5, drawTour(), "
                   "strip.cells.filter(cell => cell.classList.contains('touched')).length", 80)
        self.mouse("tour-back")
        self.shows("back", words, wanted[3])
        self.shows("the line is printed once", PRINTED, "HELLO FROM AN IBM 1401")
        self.shows("all of it takes two minutes at most", "tour.scenes.length * SCENE_MS <= 120000")

    def test_it_plays_and_pauses(self):
        self.page.value("feedChosen().then(pressLoad)")
        self.mouse("why-key")
        self.page.value("tour.since -= SCENE_MS, 0")
        self.shows("it goes on", "tour.scenes.length", 2)
        self.mouse("tour-pause")
        self.page.value("tour.since -= SCENE_MS, delay(600)")
        self.shows("it pauses", "tour.scenes.length + byId('tour-pause').textContent", "2Go on")
        self.mouse("why-key")
        self.shows("it ends", "byId('tour').hidden")

    def test_the_name_comes_after_it(self):
        self.page.value("feedChosen().then(pressLoad)")
        self.mouse("why-key")
        self.page.value("pressRun()")
        self.shows("the key that closes it is lit", f"byId('name-form').hidden + byId('why-key').textContent + {LIT}",
                   "trueClosewhy-key")
        self.mouse("why-key")
        self.shows("then the name is asked for", f"byId('name-form').hidden + {LIT}", "falsename-key")

    def test_another_deck(self):
        """Its scenes are made from the machine too."""
        lines = ["DEPOSIT 0500 ~A708718~S708718~,600~.", "DEPOSIT 0706 ~257", "DEPOSIT 0716 ~743", "START 0500"]
        self.page.value(f"(async () => {{ for (const line of {lines}) await say(line); }})()")
        for sentence in ("It has added the number at 708 to the one at 718.",
                         "It has subtracted the number at 708 from the one at 718.",
                         "It has set word marks at 600. A word mark says that something begins there; ..."):
            self.page.value("pressStep()")
            self.shows(sentence, f"sceneWords(tour.scenes.at(-1)).startsWith('{sentence.rstrip('.')}')")

    def test_nothing_to_explain_yet(self):
        self.mouse("why-key")
        self.shows("it says so", "byId('tour-words').textContent",
                   "Feed a card and press LOAD. Then each step is explained here.")


class Between(Stage):
    """Between two visitors."""

    def leave(self):
        """The visitor goes, and the seconds pass."""
        self.page.value("VISIT.idleMs = 60000, attract.touched -= VISIT.idleMs, 0")
        self.shows("the page asks", "byId('leaving').hidden", False)

    def test_a_hand_ends_the_countdown(self):
        self.page.value("feedChosen()")
        self.leave()
        self.shows("it counts", r"/\((10|[1-9])\)$/.test(byId('leaving-words').textContent)")
        self.mouse("why-key")
        self.shows("a touch ends it", "byId('leaving').hidden")
        self.shows("the card is there", "guide.step()", "load")

    def test_everything_is_as_new(self):
        self.page.value("feedChosen().then(pressLoad).then(pressRun)")
        self.page.value("chooseLanguage('de'), pressMore(), pressView(), enlargePaper(), byId('keyed').value = 'RUDE', "
                        "byId('deck').value = 'RUDE', byId('name').value = 'RUDE', note('you', 'RUDE WORDS'), "
                        "byId('keypunch').open = true, torn.push({form: 1, line: 1, text: 'RUDE'}), showAbout()")
        self.leave()
        self.page.value("attract.touched -= VISIT.leaveMs, 0")
        self.shows("it waits for a touch", "VISIT.isFresh && !byId('touch-me').hidden")
        self.shows("the machine is clear", "isClear(view.picture) && !isHeld()")
        self.shows("the language", "TEXTS.language", "en")
        self.shows("no dialog is open", "document.querySelectorAll('dialog[open]').length", 0)
        values = "['keyed', 'deck', 'name'].map(id => byId(id).value).join('') + byId('log').textContent.match(/RUDE/)"
        self.shows("nothing is written anywhere", values, "null")
        self.shows("nor kept", "torn.length + taken.length + tour.scenes.length", 0)
        open_parts = ["document.body.classList.contains('more')", "byId('fold').classList.contains('large')",
                      "byId('keypunch').open", "byId('view-key').getAttribute('aria-pressed') === 'true'"]
        self.shows("nothing is open", f"{' || '.join(open_parts)}", False)
        self.mouse("touch-me")
        self.shows("a touch begins", f"byId('touch-me').hidden && guide.step() + {LIT}", "feedfeed-key")
        self.shows("and does nothing else", "view.picture.registers.HOPPER", 0)

    def test_it_asks_for_a_touch_in_each_language(self):
        self.page.value("VISIT.wordsMs = 300, VISIT.idleMs = 60000, attract.touched -= 70000, 0")
        for words in "TOUCH ME", "BER\u00dcHRE MICH", "TOUCH ME":
            self.shows(words, "byId('touch-words').textContent", words)
        self.shows("in large letters", "parseFloat(getComputedStyle(byId('touch-words')).fontSize) >= 60")

    def test_a_deck_runs_most_of_the_time(self):
        """From the first deck's beginning to the second one's."""
        self.page.value("""VISIT.idleMs = 60000, attract.touched -= 80000, IDLE.attractMs = 0, window.ran = 0,
            window.all = 0, window.decks = 0, window.was = false, setInterval(() => {
                if (run !== null && !was) decks++;
                was = run !== null;
                if (decks > 0 && decks < 2) all++, ran += run !== null;
            }, 50), PROGRAMS.forEach(program => program.alone = program.name === 'calculation'), 0""")
        self.shows("two decks run", "decks", 2)
        self.shows("three quarters of the time", "ran / all >= .75")


class Watch(Stage):
    """The view of a projector."""

    fragment = "#watch"

    def test_it_shows_the_machine_and_who_is_there(self):
        pupil = self.open_page(2)
        pupil.mouse("feed-key")
        self.shows("who is at the machine", "byId('stage-who').textContent", "Seat 2 is at the machine")
        pupil.value("pressLoad().then(pressRun)")
        self.shows("the line", "byId('band').lastElementChild.textContent", "HELLO FROM AN IBM 1401")
        self.page.resize(SIZES["a large screen"])
        size = "parseFloat(getComputedStyle(e).fontSize)"
        large = f"[strip.cells[0], byId('band').lastElementChild].every(e => {size} >= 24)"
        self.shows("paper and core storage are large", large)
        self.shows("no key of the machine", f"{KEYS}.some(id => byId(id).checkVisibility())", False)

    def test_the_teacher_stops_a_run(self):
        pupil = self.open_page(2)
        endless = "say('DEPOSIT 0500 ~B500~.').then(() => say('START 0500')).then(() => pressRun())"
        pupil.value(f"guide.press(), {endless}, 0")
        self.shows("it runs", "run !== null && run.slices > 2", page=pupil)
        self.mouse("watch-stop")
        self.shows("it is stopped", "run", None, pupil)
        self.shows("then the keys are on again", "isHeld()", False, pupil)
        self.pages.remove(pupil)

    def test_the_teacher_holds_for_all(self):
        pupil = self.open_page(2)
        self.mouse("watch-hold")
        self.shows("the keys of all are off", "isKeptOff() && isOff(byId('load-key'))", page=pupil)
        self.page.value("askForHold('/release', 'POST')")
        self.shows("it is asked for again", "isHolder()")
        self.mouse("watch-hold")
        self.shows("they are on again", "isHeld() || isOff(byId('load-key'))", False, pupil)


if __name__ == "__main__":
    unittest.main()
