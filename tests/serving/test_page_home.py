"""A card to take home, requests that hang, and proxies: what the page makes of addresses and answers."""
import shutil
import subprocess
import unittest

from tests.chromium import Page
from tests.support import PAGE
from tests.serving.test_browser import Browser
from tests.serving.test_exhibit import PRINTED

HOME = "https://museum.example/1401"
CARD = "&card=%2C008015%2C022029%2C036037%2C038041M0802402.+++ADA+%26+CO&line=ADA+%26+CO"


class Home(Browser):
    """The code that a telephone reads, and the page that it opens."""

    def test_the_page_of_a_card(self):
        """It asks nothing of a room."""
        page = self.open(f"{self.served.address()}/#{CARD[1:]}")
        self.shows("the line", "document.readyState === 'complete' && byId('home-line').textContent", "ADA & CO", page)
        self.shows("the card", "byId('home-card').querySelector('.typed').textContent.trim()",
                   ",008015,022029,036037,038041M0802402.   ADA & CO", page)
        seen = "['load-key', 'banner', 'stage'].some(id => byId(id).checkVisibility())"
        self.shows("nothing else is seen", seen, False, page)
        page.value("delay(600)")
        asked = "performance.getEntriesByType('resource').length"
        self.shows("no request is made", asked, 0, page)

    def test_it_opens_from_a_file(self):
        file = self.folder / "card.html"
        file.write_bytes(PAGE)
        page = self.open(f"file://{file}#{CARD[1:]}")
        self.shows("the line", "document.readyState === 'complete' && byId('home-line').textContent", "ADA & CO", page)

    def test_text_that_no_card_has_is_left_out(self):
        page = self.open(f"{self.served.address()}/#card=%3Cb%3Ea~%7B&line=%C3%84x")
        self.shows("it is text", "document.readyState === 'complete' && byId('home-line').textContent + "
                   "byId('home-card').querySelector('.typed').textContent.trim()", "X<B>A", page)

    def test_the_code_is_there_with_the_name(self):
        """If a telephone can reach the page that it names."""
        self.shows("not at the loopback", "homeAddress(HELLO)", "")
        page = Page(self.browser, f"{self.served.address(2)}/#exhibit&home={HOME}")
        self.addCleanup(page.close)
        self.check("the page sees the machine", "" if page.is_ready() else "it doesn't")
        page.value("feedChosen().then(pressLoad).then(pressRun).then(() => { byId('name').value = 'Ada & Co'; "
                   "return feedName(); }).then(() => delay(500)).then(pressLoad).then(pressRun)")
        self.shows("the name is on the paper", f"{PRINTED}.split('|').at(-1)", "ADA & CO", page)
        self.shows("the code is seen", "byId('home-code').checkVisibility() && byId('home-code').dataset.address",
                   f"{HOME}#{CARD[1:]}", page)

    @unittest.skipIf(shutil.which("zbarimg") is None, "zbarimg isn't installed")
    def test_codes_are_read_by_another_program(self):
        """Of each version."""
        # A picture in black and white, with eight pixels a module and four modules around it.
        drawn = """(code => {
            const side = Array.from({length: code.length + 8}, (_, at) => at - 4), eight = Array(8).fill(0);
            const rows = side.map(y => side.flatMap(x => eight.map(() => code[y]?.[x] ? 1 : 0)).join(' '));
            return `P1 ${8 * side.length} ${8 * side.length}\\n` + rows.flatMap(row => eight.map(() => row)).join('\\n');
        })"""
        for length in 10, 30, 50, 75, 100, 130, 150, 190, 225, 270:
            text = (f"{HOME}{CARD}" * 4)[:length]
            file = self.folder / f"{length}.pbm"
            file.write_text(self.page.value(f"{drawn}(qrOf('{text}'))"))
            found = subprocess.run(["zbarimg", "-q", "--raw", file], stdout=subprocess.PIPE, stderr=subprocess.DEVNULL)
            self.same(f"{length} bytes", found.stdout.decode().rstrip("\n"), text)
        self.shows("a text that is too long", "qrOf('A'.repeat(272))", None)


class Hanging(Browser):
    """A server that takes a line and doesn't answer."""

    def test_a_line_that_hangs(self):
        """What others do is seen meanwhile, and after a while the line has failed."""
        second = self.open_page(2)
        self.page.value("""LIMIT.requestMs = 4000, window.asked = fetch,
            fetch = (path, how) => path !== '/line' ? asked(path, how)
                : new Promise((_, fail) => { how.signal.onabort = () => fail(how.signal.reason); }),
            say('START 0003'), 0""")
        self.shows("it hangs", "view.posting")
        second.value("say('FEED SEEN')")
        self.shows("the machine is seen", "view.posting && view.picture.hopper", "SEEN")
        self.shows("it has failed", "byId('log').textContent.includes(TEXTS.lostNotDone) && view.posting", False)
        self.page.value("fetch = asked, 0")
        self.shows("the page goes on", "say('START 0002').then(outcome => outcome.reply)", "OK")

    def test_a_server_that_answers_nothing(self):
        """The page says so, and the keys are off."""
        self.page.value("""LIMIT.requestMs = 1000, fetch = (path, how) => new Promise((_, fail) => {
            how.signal.onabort = () => fail(how.signal.reason); }), 0""")
        self.shows("the banner", "byId('banner').textContent === TEXTS.lost && isOff(byId('load-key'))")

    def test_ten_seconds(self):
        self.shows("the limit", "LIMIT.requestMs", 10_000)


class Proxies(Browser):
    """A proxy whose room is off, or has another address."""

    def answer(self, status):
        self.page.value(f"window.asked ??= fetch, fetch = async () => new Response('', {{status: {status}}}), 0")

    def test_words(self):
        for status, words in (502, "proxyAlone"), (504, "proxyAlone"), (403, "foreign"), (429, "busy"):
            self.answer(status)
            self.shows(status, f"byId('banner').textContent === TEXTS.{words} && isOff(byId('load-key'))")
        self.page.value("fetch = asked, 0")
        self.shows("the page goes on", "byId('banner').hidden && !isOff(byId('load-key'))")

    def test_a_line_that_a_proxy_has_lost(self):
        """The page looks whether it was carried out."""
        self.page.value("""window.asked = fetch, fetch = async (path, how) => {
            const response = await asked(path, how);
            return path === '/line' ? new Response('', {status: 502}) : response;
        }, 0""")
        self.shows("it was", "say('START 0003').then(outcome => outcome.failed === TEXTS.lostDone)")


class Words(Browser):
    """Languages, and what a page says."""

    def test_plurals_and_direction(self):
        """By the rules of a language: Polish has three forms, and Arabic is written from the right."""
        self.page.value("""LANGUAGES['pl-PL'] = {...LANGUAGES.en, language: 'pl', name: 'Polski'},
            LANGUAGES.ar = {...LANGUAGES.en, language: 'ar', name: 'Arabic', dir: 'rtl'}, chooseLanguage('pl-PL')""")
        forms = "{one: '{n} karta', few: '{n} karty', many: '{n} kart'}"
        self.shows("Polish", f"[1, 2, 5, 22].map(n => counted({forms}, n)).join()", "1 karta,2 karty,5 kart,22 karty")
        self.page.value("chooseLanguage('ar')")
        self.shows("from the right", "document.documentElement.dir", "rtl")
        for asked, found in ("pl", "pl-PL"), ("pl-PL", "pl-PL"), ("ar-EG", "ar"), ("de-AT", "de"), ("xx", "en"):
            self.shows(asked, f"FRAGMENT.set('lang', '{asked}'), languageWanted()", found)

    def test_german_words(self):
        """What a room is given is an Eingabe, and an instruction a Befehl."""
        texts = "JSON.stringify(LANGUAGES.de)"
        for words in "Befehle an", "Befehle gegeben", "getan", "ichern", "Karten nach ihm", "die alle in":
            found = self.page.value(f"{texts}.replace(/[Ss]peichern/g, '').includes('{words}')")
            self.same(words, found, False)
        for words in "Eingaben", "als korrekt bewiesen", "die sich alle in diesem Raum teilen", "nach ihr", "erledigt":
            self.shows(words, f"{texts}.includes('{words}')")

    def test_the_rows_of_lamps(self):
        self.page.mouse("view-key")
        rows = "[...byId('bulbs').children].map(row => row.getAttribute('aria-label').split(' ')[0]).join()"
        self.shows("each has a name of its own", rows, "B,A,OP,I1,I2,I3,I4,I5")

    def test_a_new_machine_that_the_visitor_asked_for(self):
        """It isn't the staff's."""
        room = self.room("serve", "--renew-after", 5, seats=1, pages=True, consoles=False)
        page = self.open(room.address())
        self.check("the page sees the machine", "" if page.is_ready() else "it doesn't")
        self.shows("rooms follow each other", "renewal.mode", "ON", page)
        page.value("say('FEED ONE').then(() => startAfresh(renewRoom))")
        self.shows("a new machine", "view.picture.after", 0, page)
        self.shows("no word of the staff", "byId('log').textContent.includes(TEXTS.said.newRoom)", False, page)

    def test_a_key_that_is_off_has_no_ring(self):
        self.page.value("setOff(byId('feed-key'), true)")
        outline = "setOff(byId('feed-key'), {}), getComputedStyle(byId('feed-key')).outlineStyle"
        self.shows("off", outline.format("true"), "none")
        self.shows("on", outline.format("false"), "solid")


class Access(Browser):
    """What a page owes to those who use it without a mouse or by touch."""

    def test_the_focus_goes_on(self):
        """From a key of the guide to the next one, and nowhere if it was elsewhere."""
        self.page.value("byId('feed-key').focus()")
        for key in "feed-key", "load-key", "step-key":
            self.shows(key, f"document.activeElement.id + isOff(byId('{key}'))", f"{key}false")
            self.page.press("Enter")
        self.shows("RUN", "document.activeElement.id", "run-key")
        self.page.value("byId('line').focus(), pressRun(), 0")
        self.shows("the name is asked for", "guide.step()", "name")
        self.shows("somebody is elsewhere", "document.activeElement.id", "line")

    def test_a_key_that_is_held_down_presses_once(self):
        self.page.value("byId('step-key').focus(), feedChosen().then(pressLoad)")
        self.shows("loaded", "guide.step()", "step")
        count = self.served.after()
        held = {"key": "Enter", "code": "Enter", "windowsVirtualKeyCode": 13, "text": "\r"}
        for repeat in False, True, True, True:
            self.page.call("Input.dispatchKeyEvent", type="keyDown", autoRepeat=repeat, **held)
        self.page.call("Input.dispatchKeyEvent", type="keyUp", key="Enter", code="Enter", windowsVirtualKeyCode=13)
        self.shows("one step", "view.picture.after", count + 1)

    def test_the_guide_is_read_aloud(self):
        self.shows("a live region", "byId('guide-now').getAttribute('aria-live')", "polite")
        has = "e.hasAttribute('aria-label') || e.hasAttribute('aria-labelledby')"
        names = f"[...document.querySelectorAll('details')].every(e => {has})"
        self.shows("parts that open have names", names)

    def test_targets_for_a_finger(self):
        self.page.call("Emulation.setTouchEmulationEnabled", enabled=True)
        self.page.call("Emulation.setEmulatedMedia", features=[{"name": "pointer", "value": "coarse"}])
        small = """[...document.querySelectorAll('button, select, summary')].filter(key => key.checkVisibility()
            && (key.offsetHeight < 44 || key.offsetWidth < 44)).map(key => key.id || key.textContent).join()"""
        self.shows("none is small", small, "")

    def test_a_pressed_key_looks_pressed(self):
        ground = "getComputedStyle(byId('large-key')).backgroundColor"
        before = self.page.value(ground)
        self.page.value("enlargePaper()")
        self.shows("another ground", f"{ground} !== '{before}'")

    def test_lamps_with_forced_colours(self):
        """A letter has the same place in a lamp that is on and in a dark one."""
        self.page.mouse("view-key")
        self.page.call("Emulation.setEmulatedMedia", features=[{"name": "forced-colors", "value": "active"}])
        top = """[...byId('bulbs').querySelectorAll('i')].map(lamp => {
            lamp.className = lamp.className === 'on' ? '' : 'on';
            const range = document.createRange();
            range.selectNodeContents(lamp);
            return Math.round(range.getBoundingClientRect().top - lamp.getBoundingClientRect().top);
        })"""
        self.shows("one place", f"new Set([...{top}, ...{top}]).size", 1)


if __name__ == "__main__":
    unittest.main()
