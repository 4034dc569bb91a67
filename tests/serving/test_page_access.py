"""A page of a seat for those who see little, hear it read, use no mouse, or want no movement."""
import unittest

from tests.serving.test_browser import Browser
from tests.serving.test_exhibit import SIZES

# What a screen reader names by its content or its label.
NAMED = {"button", "textbox", "searchbox", "combobox", "checkbox", "image", "img", "link", "grid", "gridcell", "region",
         "toolbar", "dialog", "progressbar", "log", "navigation"}
# The first places of Tab on a page where nothing was done yet.
ORDER = ["feed-key", "pick-key", "view-key", "load-key", "run-key", "stop-key", "step-key", "start-at", "start-key",
         "pace", *(f"switch-{name}" for name in "ABCDEFG"), "fold", "tear-key", "save-key", "print-key", "large-key"]
# Each text that is seen and whose contrast to what is below it is less than it has to be: 4.5, or 3 for a large one.
FAINT = """(() => {
    const parts = color => (color.match(/[\\d.]+/g) || []).map(Number);
    const over = (top, below) => {
        const [r, g, b, a = 1] = top;
        return [r, g, b].map((part, at) => part * a + below[at] * (1 - a));
    };
    const light = color => color.map(part => part / 255)
        .map(part => part <= .03928 ? part / 12.92 : ((part + .055) / 1.055) ** 2.4)
        .reduce((sum, part, at) => sum + part * [.2126, .7152, .0722][at], 0);
    const contrast = (one, other) => {
        const [low, high] = [light(one), light(other)].sort((x, y) => x - y);
        return (high + .05) / (low + .05);
    };
    const below = element => {
        if (!element) return [[255, 255, 255]];
        const style = getComputedStyle(element), color = parts(style.backgroundColor);
        const stops = style.backgroundImage.match(/rgba?\\([^)]*\\)/g);
        const under = stops || color.length === 4 && color[3] < 1 ? below(element.parentElement) : [];
        if (stops) return stops.map(parts).flatMap(stop => under.map(ground => over(stop, ground)));
        if (color.length === 3 || color[3] === 1) return [color.slice(0, 3)];
        return under.map(ground => over(color, ground));
    };
    const found = [];
    for (const element of document.querySelectorAll('body *')) {
        const text = [...element.childNodes].filter(node => node.nodeType === 3).map(node => node.data.trim()).join('');
        if (!text || !element.checkVisibility({visibilityProperty: true}) || element.closest('noscript')) continue;
        const style = getComputedStyle(element), isSvg = element instanceof SVGElement;
        const size = parseFloat(style.fontSize);
        const isLarge = size >= 24 || size >= 18.66 && Number(style.fontWeight) >= 700;
        const ink = parts(isSvg ? style.fill : style.color);
        const grounds = element.closest('.card') && isSvg ? [[0xf3, 0xe3, 0xbd]]
            : element.closest('#about-drawing') ? [[0x2e, 0x3e, 0x4d]] : below(element);
        const least = Math.min(...grounds.map(ground => contrast(over(ink, ground), ground)));
        if (least < (isLarge ? 3 : 4.5)) found.push(`${least.toFixed(2)} ${element.tagName} ${text.slice(0, 30)}`);
    }
    return [...new Set(found)].join('; ');
})()"""


class Access(Browser):
    """What a page owes to each visitor."""

    def nodes(self):
        """What a screen reader has, without what it leaves out."""
        self.page.call("Accessibility.enable")
        tree = self.page.call("Accessibility.getFullAXTree")["nodes"]
        return [node for node in tree if not node.get("ignored")]

    def work(self):
        """Some work, with paper, a halt and an open keypunch."""
        self.page.value("feedChosen().then(pressLoad).then(pressRun)")
        self.page.value("byId('keypunch').open = true, choose(5), 0")
        self.shows("a line is printed", "view.paper.length", 1)

    def test_everything_has_a_name(self):
        self.work()
        nameless = [node["role"]["value"] for node in self.nodes() if node["role"]["value"] in NAMED
                    and not node.get("name", {}).get("value", "").strip()]
        self.same("parts without a name", nameless, [])

    def test_names_say_what_is_shown(self):
        self.work()
        names = [node.get("name", {}).get("value", "") for node in self.nodes()]
        for name in "I register 00038", "overflow: off", "sense switch A", "hopper: 0 cards; read: punched card: ...":
            found = [each for each in names if each.startswith(name.rstrip("."))]
            self.check(name, "" if found else "nothing has this name")

    def test_the_order_of_tab(self):
        found = []
        self.page.value("byId('program').focus()")
        for _ in ORDER:
            self.page.press("Tab")
            found.append(self.page.value("document.activeElement.id || document.activeElement.value"))
        self.same("the order", found, ORDER)
        tops = "[...document.querySelectorAll('button, input, select, [tabindex=\"0\"]')].every(e => e.tabIndex < 1)"
        self.shows("it is that of the document", tops)

    def test_the_focus_stays(self):
        page = self.page
        page.value("feedChosen().then(pressLoad)")
        page.value("byId('run-key').focus()")
        page.press("Enter")
        self.shows("the program ends", "byId('said-words').textContent === TEXTS.stops.HALT")
        self.shows("after a run", "document.activeElement.id", "run-key")
        self.shows("a line is printed", "view.paper.length > 0 && !isOff(byId('tear-key'))")
        page.value("byId('tear-key').focus()")
        page.press("Enter")
        self.shows("the page asks", "byId('ask').open")
        page.tab_to("ask-yes")
        page.press("Enter")
        self.shows("the paper is torn off", "torn.length", 1)
        self.shows("after tearing it off", "document.activeElement.id", "tear-key")

    def test_the_keypunch_by_tab(self):
        self.page.value("byId('keypunch').open = true, byId('keyed').focus()")
        self.page.press("Tab")
        self.shows("Tab comes to a key", "document.activeElement.textContent", "1")
        self.page.press("ArrowRight")
        self.shows("an arrow key to the next", "document.activeElement.textContent", "2")
        self.page.press("Enter")
        self.shows("and it is punched", "byId('keyed').value", "2")

    def test_contrast(self):
        self.work()
        places = {"at work": "0", "with lamps": "pressView()", "a dialog": "byId('about').showModal()",
                  "under the banner": "byId('about').close(), setLink('lost')"}
        for name, before in places.items():
            self.page.value(before)
            self.shows(f"{name}: texts that are too faint", FAINT, "")

    def test_marks_have_contrast(self):
        """The next instruction next to a place of the read area, and a lit lamp next to the others."""
        self.work()
        self.page.value("say('START 0001')")
        pair = "['#grid td.next', '#grid td.read:not(.next)'].map(e => getComputedStyle(document.querySelector(e)).%s)"
        light = ("(c => c.match(/\\d+/g).slice(0, 3).map(p => p / 255).map(p => p <= .03928 ? p / 12.92 : "
                 "((p + .055) / 1.055) ** 2.4).reduce((s, p, at) => s + p * [.2126, .7152, .0722][at], .05))")
        contrast = f"(([a, b]) => Math.max(a, b) / Math.min(a, b) >= 3)({pair % 'backgroundColor'}.map({light}))"
        self.shows("the next instruction", contrast)
        lamp = "byId('lamps').querySelector('.lamp')"
        self.page.value(f"{lamp}.classList.add('on')")
        self.shows("a lamp that is on has an edge", f"getComputedStyle({lamp}).borderTopWidth", "3px")

    def test_forced_colours(self):
        self.page.call("Emulation.setEmulatedMedia", features=[{"name": "forced-colors", "value": "active"}])
        self.page.value("say('DEPOSIT 0500 ~A')")
        edge = "(cell => (style => style.borderBottomColor !== style.backgroundColor)(getComputedStyle(cell)))"
        self.shows("a word mark is seen", f"{edge}(core.cells[500])")
        self.shows("and at no other place", f"core.cells.filter({edge}).length", 1)
        lamp = "byId('lamps').querySelector('.lamp')"
        ground = f"getComputedStyle({lamp}).backgroundColor"
        lit = f"(off => {{ {lamp}.classList.add('on'); return off !== {ground}; }})({ground})"
        self.shows("a lamp is seen to be on", lit)

    def test_reduced_motion(self):
        reduced = [{"name": "prefers-reduced-motion", "value": "reduce"}]
        self.page.call("Emulation.setEmulatedMedia", features=reduced)
        self.shows("nothing moves any more", "document.getAnimations().length", 0)
        self.page.value("window.moved = 0, setInterval(() => { moved += document.getAnimations().length; }, 20)")
        self.work()
        self.shows("nothing moves", "moved", 0)

    def test_a_zoom_of_200_percent(self):
        for place, (width, height) in list(SIZES.items())[:3]:
            half = {"width": width // 2, "height": height // 2, "deviceScaleFactor": 2, "mobile": False}
            self.page.call("Emulation.setDeviceMetricsOverride", **half)
            self.shows(f"{place}: nothing is cut off", "document.documentElement.scrollWidth <= innerWidth")
            for key in "feed-key", "load-key", "tear-key", "line":
                self.check(f"{place}: the mouse reaches {key}", "" if self.page.mouse(key) else "it doesn't")

    def test_what_is_read_aloud(self):
        """A run of some seconds makes a live region speak a few times, and not at each step."""
        self.page.value("say('DEPOSIT 0500 ~B500~.').then(() => say('START 0500'))")
        self.page.value("""window.spoken = 0, new MutationObserver(all => { spoken += all.filter(each => each.target
            .parentElement.closest('[role=status], [role=alert], [aria-live=polite], [aria-live=assertive]')).length; })
            .observe(document.body, {subtree: true, childList: true, characterData: true})""")
        self.page.click("run-key")
        self.shows("a run goes on", "run !== null && run.slices > 20")
        self.page.click("stop-key")
        self.shows("it is stopped", "run", None)
        self.shows("what was spoken", "spoken <= 4")


if __name__ == "__main__":
    unittest.main()
