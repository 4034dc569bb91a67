"""Strangers at a page, one after the other: each is led by the guide to a printed line with his own name."""
import unittest

from tests.serving.test_browser import Browser
from tests.support import EXAMPLES

SIZES = {"the smallest screen": (1024, 768), "a small screen": (1280, 800), "a wide screen": (1366, 768),
         "a large screen": (1920, 1080), "a screen of 4K": (3840, 2160), "a telephone": (390, 844)}
SCREENS = [size for size in SIZES if size != "a telephone"]
NAMES = ("ADA LOVELACE", "GRACE HOPPER", "HEDY LAMARR", "KATHERINE JOHNSON", "MARGARET HAMILTON", "MARY KENNETH KELLER",
         "ALAN TURING", "KONRAD ZUSE", "JEAN BARTIK", "BETTY HOLBERTON", "JOHN BACKUS", "ERNA HOOVER")
LIT = "[...document.querySelectorAll('.lit')].map(element => element.id).join()"
PRINTED = "view.paper.map(line => line.text).join('|')"
# Whether a program runs by itself; none follows it then.
ONE_MORE = "run !== null && (IDLE.attractMs = 1e9) > 0"


class Visitors(Browser):
    """Visitors who come one after the other."""

    def press(self, key):
        """Presses the key that is lit, after it is seen to be lit and on."""
        self.shows(f"{key} is lit", f"({LIT}) + isOff(byId('{key}'))", f"{key}false")
        self.by(key)

    def mouse(self, key):
        """A press with the mouse."""
        self.check(f"the mouse reaches {key}", "" if self.page.mouse(key) else "it doesn't")

    def keyboard(self, key):
        """A press with the keyboard alone."""
        self.check(f"Tab reaches {key}", "" if self.page.tab_to(key) else "it doesn't")
        self.page.press("Enter")

    def reads(self, words):
        """What the visitor reads below the keys."""
        self.shows("the words below the keys", "byId('said-words').textContent", words)

    def guided(self, step):
        """The guide's words."""
        self.shows(f"the guide's words at {step}", f"byId('guide-now').textContent === TEXTS.guideWords.{step}")

    def come(self):
        """A visitor finds the machine as somebody has left it, and clears it."""
        self.shows("the turn of the one before is over", "byId('guide-key').hidden", False)
        self.by("guide-key")
        self.page.value("send('FEED LEFT')")
        self.guided("other")
        self.press("afresh-key")
        self.shows("the page asks", "byId('ask').open")
        self.by("ask-yes")
        self.reads("The machine is clear: no card, no paper, nothing in core. The lamps and the A and B registers have no "
                   "key that clears them.")
        self.shows("no card is in the read station", "byId('moving-card').className", "none")
        self.shows("no card and no line is left", "view.paper.length + view.picture.registers.HOPPER", 0)

    def follow_the_guide(self, name):
        """The five steps, and what is read at each."""
        self.guided("feed")
        self.press("feed-key")
        self.shows("the card is in the hopper", "byId('HOPPER').textContent", "001")
        self.guided("load")
        self.press("load-key")
        self.reads("The first card was read into 001 to 080. RUN carries it out.")
        self.guided("step")
        self.press("step-key")
        self.reads("One instruction was carried out.")
        self.guided("run")
        self.press("run-key")
        self.reads("The program has ended. Its result is on the paper; feed another program and press LOAD.")
        self.shows("the program has ended", "byId('next').textContent", "the program has ended")
        self.shows("a line is printed", PRINTED, "HELLO FROM AN IBM 1401")
        self.guided("name")
        self.by("name")
        self.page.write(name.title())
        self.press("name-key")
        self.guided("loadName")
        self.press("load-key")
        self.guided("runName")
        self.press("run-key")
        self.shows("the name is printed", PRINTED, f"HELLO FROM AN IBM 1401|{name}")
        self.guided("done")
        self.shows("nothing is lit", LIT, "")

    def visit_at_each_size(self):
        """Two visitors at each size."""
        names = iter(NAMES)
        for place, size in SIZES.items():
            self.page.resize(size)
            for visitor in "the first", "the second":
                with self.subTest(f"{visitor} at {place}"):
                    if self.served.after():
                        self.come()
                    self.follow_the_guide(next(names))

    def test_by_mouse(self):
        self.by = self.mouse
        self.visit_at_each_size()

    def test_by_keyboard(self):
        self.by = self.keyboard
        self.visit_at_each_size()


class FirstScreen(Browser):
    """What a visitor needs is on one screen."""

    def test_it_needs_no_scrolling(self):
        self.page.value("feedChosen().then(pressLoad).then(pressRun)")
        self.shows("a line is printed", PRINTED, "HELLO FROM AN IBM 1401")
        parts = "['feed-key', 'load-key', 'run-key', 'stop-key', 'step-key', 'said-words', 'guide-now']"
        seen = f"""[...{parts}.map(byId), sheets.get(1).rows[0]].every(element => {{
            const box = element.getBoundingClientRect();
            return box.top >= 0 && box.bottom <= innerHeight && box.left >= 0 && box.left < innerWidth;
        }})"""
        for place in SCREENS:
            self.page.resize(SIZES[place])
            self.shows(f"{place}: feed, LOAD, RUN, words and paper", f"scrollY === 0 && {seen}")

    def test_a_telephone_has_the_newest_line(self):
        """At its lower edge, wherever the page is scrolled to."""
        self.page.resize(SIZES["a telephone"])
        box = "byId('newest').getBoundingClientRect()"
        self.shows("not before there is one", f"{box}.height", 0)
        self.page.value("feedChosen().then(pressLoad).then(pressRun)")
        for scroll in 0, 500, 5000:
            self.page.value(f"scrollTo(0, {scroll})")
            self.shows("it is seen", f"{box}.height > 20 && {box}.bottom === innerHeight && byId('newest').textContent",
                       "HELLO FROM AN IBM 1401")

    def test_the_paper_is_no_larger_than_needed(self):
        """It grows with its lines, and core storage is on the first screen."""
        self.page.resize(SIZES["a wide screen"])
        height = "byId('fold').clientHeight"
        self.shows("without a line", f"{height} < 130 && byId('grid').getBoundingClientRect().bottom < innerHeight")
        self.page.value("say('DEPOSIT 0500 ~2~B500~.').then(() => say('START 0500')).then(() => say('RUN 40'))")
        self.shows("with lines", f"view.paper.length === 20 && {height} > 220 && {height} < innerHeight / 2")

    def test_keys_keep_their_place(self):
        """Whatever the guide says."""
        for place in SCREENS:
            self.page.resize(SIZES[place])
            tops = """Object.keys(TEXTS.guideWords).map(name => {
                byId('guide-now').textContent = TEXTS.guideWords[name];
                byId('guide-end').hidden = name !== 'done';
                byId('name-form').hidden = name !== 'name';
                return byId('load-key').getBoundingClientRect().top;
            })"""
            self.shows(place, f"new Set({tops}).size", 1)
        self.page.value("guide.draw(), 0")

    def test_keys_keep_their_place_in_a_visit(self):
        """With a hold, which the page takes with the first card and gives back with the name."""
        top = "byId('load-key').getBoundingClientRect().top"
        for place in "the smallest screen", "a large screen":
            self.page.resize(SIZES[place])
            self.page.value(f"guide.begin(), window.tops = new Set([{top}]), 0")
            for key in "feedChosen()", "pressLoad()", "pressStep()", "pressRun()", \
                    "(byId('name').value = 'ADA', feedName())", "rested().then(pressLoad)", "pressRun()":
                self.page.value(f"{key}.then(() => delay(300)).then(() => {{ tops.add({top}); }})")
            others = "[...tops].map(Math.round).filter((top, at, all) => all[0] !== top)"
            self.shows(place, f"guide.step() + {others}.join()", "done")

    def test_the_text_of_the_paper(self):
        """It has 11 pixels at least, and *Larger* makes it larger."""
        height = "parseFloat(getComputedStyle(document.querySelector('.sheet')).fontSize)"
        for place, size in SIZES.items():
            self.page.resize(size)
            self.shows(f"{place}: 11 pixels", f"{height} >= 11")
            before = self.page.value(height)
            self.page.click("large-key")
            self.shows(f"{place}: larger", f"{height} >= {before} * 1.3")
            self.page.click("large-key")

    def test_parts_follow_each_other_on_a_telephone(self):
        self.page.resize(SIZES["a telephone"])
        parts = "['guide', 'feeder', 'load-key', 'said-words', 'fold', 'core', 'reader', 'line']"
        tops = f"{parts}.map(id => byId(id).getBoundingClientRect().top)"
        self.shows("one after the other", f"{tops}.every((top, at, all) => at === 0 || top > all[at - 1])")


class Guide(Browser):
    """The guide next to the machine."""

    def test_it_asks_the_machine(self):
        """Whoever has fed, loaded or run something, here or at another seat, the key is the one for what is there."""
        hello = "'FEED ' + HELLO"
        for what, lines, step in [
            ("a card of another program", "'FEED ANOTHER CARD'", "other"),
            ("its card in core", "'LOAD'", "other"),
            ("the hello card", f"'START 0', 'DEPOSIT 0001 {12 * ' '}', {hello}", "load"),
            ("two hello cards", hello, "load"),
            ("one of them in core", "'LOAD'", "step"),
            ("its first instruction is done", "'RUN 1'", "run"),
            ("in the middle of an instruction", "'START 5'", "load"),
            ("read again", "'LOAD'", "step"),
            ("it has halted", "'RUN 7'", "feed"),
            ("a word mark in the print area", "'DEPOSIT 0220 ~A'", "other"),
            ("none any more", "'DEPOSIT 0220 A'", "feed"),
            ("a card with somebody's name", "'FEED ' + HELLO.slice(0, 40) + 'ADA'", "other"),
            ("it is in core, and was left", "'LOAD'", "feed"),
            ("in the middle", "'RUN 3'", "feed"),
        ]:
            sent = f"for (const line of [{lines}]) await send(line); await inTurn(look);"
            self.page.value(f"(async () => {{ {sent} }})()")
            self.shows(what, "guide.step()", step)
            self.shows(f"{what}: the key", LIT, self.page.value(f"GUIDE_STEPS.{step}.key"))

    def test_another_program(self):
        """The guide says which one is there, and takes none of its steps for its own."""
        for name, words in ("game", "Higher and lower"), ("listing", "Listing"):
            self.page.value(f"byId('program').value = '{name}', drawProgram(), rested().then(feedChosen)")
            for after, key in ("feeding", None), ("LOAD", "pressLoad()"), ("STEP", "pressStep()"):
                self.page.value(key or "0")
                said = "byId('guide-now').textContent"
                if name == "listing":
                    self.shows(f"{words} after {after}", f"{said} === filled(TEXTS.guideWords.program, "
                               f"{{name: '{words}'}})")
                done = "document.querySelectorAll('#guide-steps .done').length"
                self.shows(f"{words} after {after}: no step is done", f"guide.step() + {done}", "other0")
            self.page.value("startAfresh().then(() => guide.begin())")
            self.shows("it begins again", "guide.step()", "feed")

    def test_detours(self):
        """A visitor who presses other keys comes back to the line."""
        self.page.value("feedChosen()")
        self.shows("a card", "guide.step()", "load")
        self.page.value("pressStep().then(pressRun)")
        self.shows("LOAD is needed", "guide.step() + byId('said-words').textContent",
                   "loadNothing is in core storage yet: press LOAD first.")
        self.page.value("pressLoad().then(pressRun)")
        self.shows("RUN without STEP", "guide.step()", "name")
        self.page.value("feedText(HELLO), 0")
        self.shows("another hello card", "guide.step()", "load")
        self.page.value("byId('name').value = 'Ada', feedName()")
        for step, key in ("loadName", "rested().then(pressLoad)"), ("runName", "pressRun()"), \
                ("loadName", "rested().then(pressLoad)"):
            self.shows(step, "guide.step()", step)
            self.page.value(key)
        self.shows("the name is in core, not on the paper", "guide.step()", "runName")
        self.page.value("pressRun()")
        self.shows("now it is", f"guide.step() + {PRINTED}", "doneHELLO FROM AN IBM 1401|HELLO FROM AN IBM 1401|ADA")

    def test_a_full_printer(self):
        self.page.value("feedChosen()")
        full = f"view.picture.registers.PAPER = 500, guide.draw(), {LIT}"
        self.shows("the paper is to be torn off", full, "tear-key")

    def test_it_gives_up_after_a_while(self):
        """But not while somebody writes."""
        self.page.value("feedChosen()")
        self.shows("the first step", "guide.step()", "load")
        self.page.value("guide.since -= GUIDE_WAITS_MS, attract.touched = performance.now(), 0")
        self.page.value("delay(600)")
        self.shows("a hand is there", "guide.step()", "load")
        self.page.value("attract.touched -= GUIDE_WAITS_MS, 0")
        self.shows("it steps aside", "guide.state", "aside")
        self.shows("nothing is lit", LIT, "")

    def test_after_a_reload(self):
        """Guide and panel say the same."""
        self.page.value("feedChosen().then(pressLoad)")
        self.shows("a step is next", "guide.step()", "step")
        again = self.open_page()
        self.shows("it goes on there", "guide.step() + byId('said-words').textContent",
                   "stepA program is in core storage. RUN carries it out.", again)

    def test_names_in_other_letters(self):
        """Each gets letters that cards have, or words that ask for others."""
        for name, card in [
            ("Zo\u00eb M\u00fcller-Stra\u00df", "ZOE MUELLER-STRASS"), ("Bj\u00f8rn \u00c5se", "BJOERN AASE"),
            ("\u0141ukasz \u0110or\u0111e", "LUKASZ DORDE"), ("\u0130zmir \u0131\u015f\u0131k", "IZMIR ISIK"),
            ("\u0393\u03b9\u03ce\u03c1\u03b3\u03bf\u03c2", "GIORGOS"),
            ("\u042e\u043b\u0438\u044f \u0429\u0443\u043a", "YULIYA SHCHUK"),
            ("\u0414\u0438\u043c\u0438\u0442\u0440\u0438\u0439", "DIMITRIY"),
            ("\u0641\u0627\u0637\u0645\u0629", "FATMA"),
            ("\u05d3\u05d5\u05d3", "DVD"),
        ]:
            self.shows(card, f"plain('{name}')", card)
        self.page.value("feedChosen().then(pressLoad).then(pressRun)")
        self.shows("the name is asked for", "byId('name-form').hidden", False)
        self.page.value("byId('name').focus()")
        self.page.write("\u0141ukasz")
        self.shows("a proposal", "byId('name-words').textContent", "On the card: LUKASZ")
        self.page.value("byId('name').value = ''")
        self.page.write("\u674e\u660e")
        self.shows("none", "byId('name-words').textContent", "No card has \u674e. Choose a name in A to Z.")
        self.page.mouse("name-key")
        self.shows("nothing is fed", "view.picture.registers.HOPPER", 0)

    def test_a_name_without_a_keyboard(self):
        """By the page's own keys, in the order of the language's letters."""
        self.page.value("feedChosen().then(pressLoad).then(pressRun)")
        self.shows("the name is asked for", "byId('name-form').hidden", False)
        keys = "[...byId('name-keys').children].map(key => key.textContent).join('')"
        self.shows("the keys", keys, "ABCDEFGHIJKLMNOPQRSTUVWXYZ0123456789-SPACE\u232b")
        for size in SIZES.values():
            self.page.resize(size)
            large = "[...byId('name-keys').children].every(key => key.offsetWidth >= 44 && key.offsetHeight >= 44)"
            self.shows(f"they are large at {size}", large)
        self.page.resize(SIZES["a telephone"])
        for number, letter in enumerate(("A", "X", "\u232b", "D", "A", "SPACE", "7")):
            found = f"[...byId('name-keys').children].find(key => key.textContent === '{letter}')"
            self.page.value(f"{found}.id = 'k{number}'")
            self.check(f"a finger reaches {letter}", "" if self.page.mouse(f"k{number}") else "it doesn't")
        self.shows("the name", "byId('name').value", "ADA 7")
        self.page.value("chooseLanguage('de')")
        self.shows("the letters of German", f"({keys}).slice(24, 30)", "YZ\u00c4\u00d6\u00dc\u00df")

    def test_a_double_press(self):
        """Of LOAD and of a feed key: the second one does nothing."""
        self.page.value("feedText('ONE\\nTWO\\nTHREE')")
        for _ in range(2):
            self.page.mouse("load-key")
        self.shows("one card is read", "!guarded.size && view.picture.registers.HOPPER", 2)
        for _ in range(2):
            self.page.mouse("feed-key")
        self.shows("one card is fed", "!guarded.size && view.picture.registers.HOPPER", 3)
        self.page.mouse("load-key")
        self.shows("the key works again", "view.picture.registers.HOPPER", 2)

    def test_run_on_an_empty_machine(self):
        count = self.served.after()
        for key in "run-key", "step-key":
            self.page.value("byId('said-words').textContent = ''")
            self.page.mouse(key)
            self.shows(key, "byId('said-words').textContent", "The machine is empty: feed a program first.")
        self.unchanged("nothing is sent", self.served, count)


class Lessons(Browser):
    """The guide through a lesson, up to the paper of the mended program."""

    def at(self, step, key, press=True):
        """The guide is at a step, whose key is lit and then pressed."""
        on = f"isOff(byId('{key or 'help-key'}'))"
        self.shows(step, f"[guide.step(), {LIT}, {on}].join()", f"{step},{key},false")
        if key and press:
            self.check(f"the mouse reaches {key}", "" if self.page.mouse(key) else "it doesn't")

    def send(self, line):
        """Sends a line at the console, by the keyboard."""
        self.page.press("c", "KeyC", 1)
        self.page.write(line)
        self.page.press("Enter")

    def load(self):
        """From the clear machine to the first card in core storage."""
        for step, key in ("Feed", "feed-key"), ("Switch", "switch-A"), ("Load", "load-key"):
            self.at(f"lesson{step}", key)

    def test_the_first_lesson(self):
        printed = "view.paper.map(line => line.text.trimEnd()).filter(text => text)"
        course = EXAMPLES / "course/01-three-fields"
        broken, wanted = ([line.rstrip() for line in (course / f"{name}.paper").read_text().split("\n") if line.strip()]
                          for name in ("program", "wanted"))
        self.page.value("byId('program').value = 'lesson1', byId('program').dispatchEvent(new Event('change'))")
        self.shows("the steps to a name aren't shown", "byId('guide-steps').checkVisibility()", False)
        self.load()
        self.at("lessonRun", "run-key")
        self.at("lessonLook", "afresh-key")
        self.check("the paper is wrong", "" if self.page.value(printed) != wanted else f"it is {broken}")
        self.page.click("ask-yes")
        self.load()
        self.shows("the line to send is named", "byId('guide-now').textContent.includes('RUN 203')")
        self.at("lessonSend", "send-key", press=False)
        self.send("RUN 203")
        self.at("lessonMend", "send-key", press=False)
        self.shows("step 4 is named", "byId('said-words').textContent === filled(TEXTS.lessonSaid.loaded, {n: 1})")
        self.send("DEPOSIT 0031 ~1")
        self.shows("the console is in sight", "getComputedStyle(document.querySelector('.below')).position", "sticky")
        self.at("lessonAgain", "run-key")
        self.at("lessonDone", "")
        self.shows("step 5 is named", "byId('said-words').textContent === filled(TEXTS.lessonSaid.mended, {n: 1})")
        self.shows("the paper is right", printed, wanted)
        self.page.value("byId('program').value = 'hello', byId('program').dispatchEvent(new Event('change'))")
        self.shows("another program ends it", f"guide.step() + ' ' + ({LIT})", "other afresh-key")

    def choose(self, lesson):
        """Chooses a lesson, which is fed without the guide's leave."""
        self.page.value(f"byId('program').value = 'lesson{lesson}', "
                        "byId('program').dispatchEvent(new Event('change')), rested().then(feedChosen)")

    def runs(self, name, words, wanted):
        """RUN is pressed, and these words come below the keys."""
        self.page.value("rested().then(pressRun)")
        self.shows(name, "byId('said-words').textContent === " + words if wanted is True else
                   "byId('said-words').textContent", wanted)

    def test_a_lesson_without_switch_a(self):
        self.choose(2)
        self.shows("the guide says where the lesson is", "byId('guide-now').textContent.startsWith('Lesson 2 is in')")
        self.page.value("pressLoad()")
        self.runs("the switch is named", "TEXTS.lessonSaid.noSwitch", True)
        self.at("lessonNoSwitch", "afresh-key", press=False)
        self.page.value("rested().then(feedChosen)")
        count = self.served.after()
        self.runs("a lesson that is fed again isn't read as data", "TEXTS.lessonSaid.loadFirst", True)
        self.unchanged("nothing is sent", self.served, count)
        self.page.click("afresh-key")
        self.page.click("ask-yes")
        self.at("lessonFeed", "feed-key", press=False)

    def test_a_lost_word_mark(self):
        for lesson, line, wanted in [
                (3, "DEPOSIT 0463 L612233", "The instruction at 456 is too long: is the word mark missing that should "
                    "begin the next one? In DEPOSIT, ~ sets it."),
                (4, "DEPOSIT 0500 B600", "No instruction begins at 503: there is no word mark at that place. Perhaps "
                    "the instruction before it, at 500, has lost its own.")]:
            self.choose(lesson)
            self.page.value("say('SWITCH A ON').then(() => rested()).then(pressLoad)")
            self.page.value("say(chosenProgram().loads)")
            self.send(line)
            self.shows("its place has no mark", "byId('log').textContent.includes('Word marks there: none.')")
            self.runs(f"lesson {lesson}", "", wanted)
            self.page.value("startAfresh()")

    def test_run_after_the_end(self):
        """RUN before the program is mended leads back to step 3, and the console says what a DEPOSIT has filled."""
        self.choose(1)
        self.page.value("say('SWITCH A ON').then(() => rested()).then(pressLoad)")
        self.runs("the lesson goes on", "filled(TEXTS.lessonSaid.halt, {n: 1})", True)
        self.send("DEPOSIT 0031 ~X")
        self.shows("what is filled", "byId('log').textContent.includes('Filled: 031 to 031. Word marks there: 031.')")
        self.runs("nothing new is printed", "TEXTS.lessonSaid.again", True)
        self.page.value("byId('program').value = 'lesson2', byId('program').dispatchEvent(new Event('change'))")
        self.at("lessonOther", "afresh-key", press=False)

    def test_the_source_of_a_lesson(self):
        """It is shown whole, and each line that fills places has their address."""
        self.page.value("byId('program').value = 'lesson3', byId('program').dispatchEvent(new Event('change'))")
        self.shows("all lines", "byId('source').scrollHeight <= byId('source').clientHeight")
        self.shows("a line", "byId('source').textContent.includes('00463 L500233                 LCA  WORD,233')")
        self.shows("its number is in the title", "byId('guide-title').textContent", "Lesson 3")

    def test_without_a_mended_program(self):
        """A run that ends as before leads to the question again."""
        self.page.value("byId('program').value = 'lesson1', byId('program').dispatchEvent(new Event('change'))")
        for _ in range(2):
            self.load()
            self.page.value("rested().then(pressRun)")
            self.at("lessonLook", "afresh-key")
            self.page.click("ask-yes")
        self.shows("the lesson is still chosen", "byId('program').value", "lesson1")


class StartAfresh(Browser):
    """The page clears the machine by lines that an operator could type."""

    def test_addresses(self):
        """As the manual writes them: thousands are zones of the hundreds and of the units."""
        for place, text in (99, "'99"), (399, "399"), (1399, "T99"), (3999, "I99"), (15999, "I9I"), (7999, "I9Z"):
            if place != 99:
                self.shows(str(place), f"addressOf({place})", text)
        self.shows("99", "addressOf(99)", "099")

    def test_it_clears_each_size(self):
        for size in "1400", "16000":
            room = self.room("serve", "--size", size, seats=1, pages=True, consoles=False)
            page = self.open(room.address())
            self.check("it is there", "" if page.is_ready() else "it isn't")
            last = int(size) - 1
            for line in f"DEPOSIT {last} ~A", "DEPOSIT 0000 ~B", "DEPOSIT 0700 ~CD~E", "SWITCH C ON", "FEED 1", "FEED 2":
                self.shows(line, f"say('{line}').then(outcome => outcome.reply)", "OK", page)
            self.shows("it is cleared", "startAfresh().then(() => isClear(view.picture))", True, page)
            for at in 0, 700, last:
                self.shows(f"{size}: {at}", f"say('EXAMINE {at} 1').then(outcome => outcome.reply)", " ", page)

    def test_others_at_work_are_named(self):
        second = self.open_page(2)
        second.value("say('FEED A CARD')")
        self.shows("the other's command is seen", "view.others.count", 1)
        self.page.value("view.others.at = performance.now(), pressAfresh() && 0")
        self.shows("the question names them", "byId('ask-text').textContent === TEXTS.afreshOthers")


class Attract(Browser):
    """Idle minutes."""

    def test_it_runs_until_somebody_touches_it(self):
        self.page.value("Object.assign(IDLE, {attractMs: 0, pauseMs: 0, seatMs: 0}), PROGRAMS[0].alone = false, 0")
        self.shows("the guide says so", "byId('guide-now').textContent === TEXTS.guide.attract")
        self.shows("a program runs", ONE_MORE)
        self.page.mouse("load-key")
        self.shows("a touch ends it and clears the machine", "!attract.on && isClear(view.picture)")
        self.shows("the guide begins", LIT, "feed-key")
        self.shows("the key that was touched does nothing", "byId('said-words').textContent === TEXTS.said.clear")

    def test_a_touch_between_two_decks(self):
        """The words ask for it as long as they are there."""
        self.page.value("say('FEED LEFT').then(() => { guide.state = 'attract'; guide.draw(); }), 0")
        self.shows("the guide asks for a touch", "byId('guide-now').textContent === TEXTS.guide.attract")
        self.page.mouse("load-key")
        self.shows("it clears the machine", "!attract.on && isClear(view.picture) && guide.state", "on")
        self.shows("the key that was touched does nothing", "byId('said-words').textContent === TEXTS.said.clear")

    def test_a_hand_that_lifts_once_the_machine_is_clear(self):
        """The click of its press reaches no key; that of the next press does."""
        self.page.value("say('FEED LEFT').then(() => { guide.state = 'attract'; guide.draw(); }), 0")
        self.shows("the guide asks for a touch", "byId('guide-now').textContent === TEXTS.guide.attract")
        clear = "!attract.on && isClear(view.picture) && guide.state"
        self.page.mouse("load-key", lambda: self.shows("the machine is clear before", clear, "on"))
        self.page.value("inTurn(look)")
        self.shows("the key that was touched does nothing", "byId('said-words').textContent === TEXTS.said.clear")
        self.page.mouse("feed-key")
        self.shows("the next press feeds a card", "byId('HOPPER').textContent", "001")

    def test_it_yields_to_another_seat(self):
        """A visitor there finds the machine as they leave it."""
        second = self.open_page(2)
        self.page.value("PROGRAMS.forEach(program => program.alone = program.name === 'listing'), 0")
        self.page.value("Object.assign(IDLE, {attractMs: 0, pauseMs: 0, seatMs: 0}), 0")
        self.shows("a program runs", ONE_MORE)
        second.value("say('SWITCH G ON')")
        self.shows("it stops", "run === null && !attract.on")
        self.shows("the guide steps aside", "guide.state", "aside")
        self.shows("nothing is cleared", "/A.*G/.test(view.picture.registers.SWITCHES)")

    def test_it_spares_the_journal(self):
        self.page.value("Object.assign(IDLE, {attractMs: 0, pauseMs: 0, seatMs: 0, mostAfter: -1}), 0")
        self.shows("it doesn't begin then", "isIdle()", False)


class Senses(Browser):
    """What a visitor sees and hears of a machine at work."""

    def test_what_am_i_looking_at(self):
        self.page.mouse("about-key")
        parts = "byId('about').open && document.querySelectorAll('#about-drawing rect').length"
        self.shows("a drawing of three parts", parts, 3)
        self.shows("ten words", "document.querySelectorAll('#about-words dt').length", 10)
        self.page.press("Escape")
        self.shows("it closes", "byId('about').open", False)

    def test_cards_and_paper_move(self):
        self.page.value("window.moved = [], moveCard = () => moved.push('card'), movePaper = n => moved.push(n), 0")
        self.page.value("feedChosen().then(pressLoad)")
        self.shows("a card goes through the read station", "moved.join()", "card")
        self.page.value("pressRun()")
        self.shows("the paper moves by a line", "moved.join()", "card,1")

    def test_sound_is_off_until_it_is_asked_for(self):
        heard = "sound = name => speaker && heard.push(name)"
        self.page.value(f"window.heard = [], {heard}, 0")
        self.page.value("feedChosen().then(pressLoad).then(pressRun)")
        self.shows("nothing is heard", "heard.length + (speaker === null ? 0 : 1)", 0)
        self.page.mouse("sound-key")
        self.shows("the key says that it is on", "byId('sound-key').getAttribute('aria-pressed')", "true")
        self.page.value("heard.length = 0, view.ended = null, "
                        "rested().then(feedChosen).then(pressLoad).then(pressRun)")
        self.shows("reader and printer are heard", "heard.includes('read') && heard.includes('print')")

    def test_the_pace_of_1960(self):
        """A printed line takes a tenth of a second, and a card 75 milliseconds."""
        for line in "DEPOSIT 0500 ~2~B500~.", "START 0500":
            self.page.value(f"say('{line}')")
        self.page.value("byId('pace').selectedIndex = PACES.indexOf(OWN_PACE)")
        self.page.value("window.began = performance.now(), pressRun(), 0")
        self.shows("lines are printed", "view.paper.length >= 12")
        self.shows("no faster than a printer", "view.paper.length - OWN_STEPS / 2 <= (performance.now() - began) / 100")
        self.page.click("stop-key")

    def test_the_lamps_of_a_console(self):
        """The bits of a character, with a check bit that makes their number odd: a blank is C, 1 is 1, 0 is C82."""
        self.page.value("say('DEPOSIT 0500 ~1').then(() => say('START 0500'))")
        self.page.mouse("view-key")
        row = "row => [...row.querySelectorAll('.on')].map(lamp => lamp.textContent).join('')"
        lit = f"[...byId('bulbs').children].map({row}).join('|')"
        self.shows("B and A at 0, OP at 500, and I as five digits", lit, "C|C|1|C82|C82|C41|C82|C82")
        self.shows("the registers are hidden then", "byId('registers').hidden")

    def test_a_card_to_take_home(self):
        """It is printed alone, with the visitor's name."""
        text = "document.body.className + ':' + byId('card-to-print').querySelector('.typed').textContent"
        self.page.value(f"nameCard = HELLO.slice(0, NAME_COLUMN) + 'ADA', window.print = () => {{ printed = {text}; }}, "
                        "window.printed = '', printCard()")
        self.shows("it has the name", "printed.startsWith('prints-card:,008015') && printed.slice(52).trim()", "ADA")


class Programs(Browser):
    """Each program that can be chosen, fed, loaded and run."""

    # The last line that each prints, and the stop.
    ENDS = {"calculation": ("  20    1,048,576", "HALT"), "payroll": (f"TOTAL{36 * ' '}287.10", "HALT"),
            "listing": ("0021 THE LAST CARD", "HALT"), "hello": ("HELLO FROM AN IBM 1401", "HALT")}

    def test_programs_that_halt(self):
        for name, (last, stop) in self.ENDS.items():
            self.page.value(f"byId('program').value = '{name}', drawProgram()")
            self.page.value("(p => p.switches ? say(`SWITCH ${p.switches} ON`) : 0)(chosenProgram())")
            self.page.value("rested().then(feedChosen).then(pressLoad).then(pressRun)")
            self.shows(f"{name} ends", f"byId('said-words').textContent === TEXTS.stops.{stop}")
            self.shows(f"{name} prints", "view.paper.at(-1).text.trim()", last.strip())
            self.shows(f"{name} has a source", "byId('source').textContent.length > 40")

    def test_a_banner_of_a_name(self):
        self.page.value("byId('program').value = 'banner', drawProgram()")
        self.page.value("feedChosen().then(pressLoad).then(pressRun)")
        self.shows("it stops for cards", "byId('said-words').textContent === TEXTS.stops.READER")
        self.page.value("feedText('IT').then(pressRun)")
        rows = "view.paper.slice(-8, -1).map(line => line.text).join('|')"
        self.shows("the letters", rows, " III  TTTTT" + 5 * "|  I     T" + "| III    T")

    def test_higher_and_lower(self):
        self.page.value("PROGRAMS.find(p => p.name === 'game').extra = () => ['42'], byId('program').value = 'game'")
        self.page.value("feedChosen().then(pressLoad).then(pressRun)")
        for guess, answer in ("50", "50   THE SECRET IS LOWER"), ("17", "17   THE SECRET IS HIGHER"), \
                ("42", "42 IS RIGHT AFTER   3  GUESSES"):
            self.page.value(f"feedText('{guess}').then(pressRun)")
            self.shows(guess, "view.paper.at(-1).text", answer)


if __name__ == "__main__":
    unittest.main()
