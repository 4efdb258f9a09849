"""The page in a real browser: its server on a circuit, and what a person does there by keys and pointer."""

import importlib.util
import shutil
import signal
import subprocess
import sys

import pytest

CHROMIUM = shutil.which("chromium")
DRIVER = shutil.which("chromedriver")
MISSING = [name for name in ("selenium", "aiohttp") if importlib.util.find_spec(name) is None]
needs_browser = pytest.mark.skipif(not CHROMIUM or not DRIVER or bool(MISSING), reason="chromium, chromium-driver, selenium or aiohttp is missing")

# A shell that starts tests in the background has them ignore Ctrl-C, and the server that they start would do so too.
signal.signal(signal.SIGINT, signal.default_int_handler)

if MISSING:
    Keys = TimeoutException = None
else:
    from selenium import webdriver
    from selenium.common.exceptions import StaleElementReferenceException, TimeoutException  # noqa: F401: tests take it from here
    from selenium.webdriver.chrome.service import Service
    from selenium.webdriver.common.action_chains import ActionChains
    from selenium.webdriver.common.by import By
    from selenium.webdriver.common.keys import Keys
    from selenium.webdriver.support.ui import WebDriverWait

# The longest, in seconds, that anything is waited for: on a machine that does much else a page of many edits takes a minute to settle.
LONGEST = 180

# The size of the window.
USUAL = (1280, 900)

# Keys as the browser is given them while they are held down.
HELD = {
    "x": {"key": "x", "code": "KeyX", "text": "x", "windowsVirtualKeyCode": 88},
    "i": {"key": "i", "code": "KeyI", "text": "i", "windowsVirtualKeyCode": 73},
    "Enter": {"key": "Enter", "code": "Enter", "text": "\r", "windowsVirtualKeyCode": 13},
    "Delete": {"key": "Delete", "code": "Delete", "windowsVirtualKeyCode": 46},
}

# Where an element is in the window, once it can be seen.
BOX = "const it = document.querySelector(arguments[0])?.getBoundingClientRect(); return it?.width ? [it.x, it.y, it.width, it.height] : null;"


class Page:
    """A server of the page on a circuit, and a browser that looks at it."""

    def __init__(self, browser, folder, text, *words):
        self.browser = browser
        named = []
        if text is not None:
            file = folder / "circuit.stim"
            file.write_text(text)
            named = [str(file)]
        self.server = subprocess.Popen([sys.executable, "-B", "-m", "stabsim.page", *named, "--port", "0", *words], stdout=subprocess.PIPE, text=True)
        self.address = self.server.stdout.readline().strip()

    def open(self):
        self.browser.get(self.address)
        self.wait(lambda: self.find("numbers").text)
        self.settle()

    def close(self):
        self.server.send_signal(signal.SIGINT)
        self.server.wait(timeout=LONGEST)

    def wait(self, test, longest=LONGEST):
        """Waits until a test is passed, also if the page draws an element anew while it is looked at."""
        waiting = WebDriverWait(self.browser, longest, poll_frequency=0.05, ignored_exceptions=[StaleElementReferenceException])
        return waiting.until(lambda _: test())

    def settle(self):
        """Waits until all that the page has asked for, or is about to ask for, is answered and drawn, and what it shows is where it stays: the
        browser says new sizes of panes some time later, and an answer may go to another moment."""
        self.wait(lambda: self.ask("page.isIdle() && page.isInPlace() && page.isDrawn()"))

    # What is shown.

    def find(self, name):
        return self.browser.find_element(By.ID, name)

    def texts(self, selector):
        """The texts of elements, read at one moment, since the page may draw them anew at any time."""
        return self.browser.execute_script("return Array.from(document.querySelectorAll(arguments[0]), (it) => it.textContent)", selector)

    def row(self, path):
        """The text of the row of an item, once the row is in sight."""
        return self.wait(lambda: self.texts(f"#text .row[data-path='{path}']"))[0]

    def history(self):
        return self.texts("#edits li button")

    def ask(self, code, *words):
        """What code of the page's own answers, which has `page` and the words as `words`."""
        return self.browser.execute_async_script(
            f"const words = Array.from(arguments); const done = words.pop(); import('/static/main.js').then(({{page}}) => done({code}));", *words)

    def letters(self):
        """The letters of the region on the qubits that have one, as X3."""
        return self.ask("[...(page.shown.scene().region ?? [])].map(([qubit, letter]) => letter + qubit)")

    def is_idle(self):
        """Whether all that the page has asked for is answered."""
        return self.ask("page.isIdle()")

    def focused(self, name="id"):
        """An attribute of what has the focus."""
        return self.browser.execute_script("return document.activeElement.getAttribute(arguments[0])", name)

    def chosen(self):
        return self.ask("page.shown.chosen")

    def glyphs(self):
        """The glyphs that are drawn of the moment, each as its shape and label."""
        return self.ask("page.views.layout.elements().filter((it) => it.glyph).map((it) => [it.glyph, it.label ?? ''])")

    def circuit(self):
        """The circuit as it is now, by the page's own items."""
        return self.ask("page.text()")

    # What a person does, once nothing moves.

    def click(self, selector):
        self.settle()
        self.wait(lambda: self.browser.execute_script(
            "const it = document.querySelector(arguments[0]); it?.click(); return Boolean(it);", selector))

    def choose(self, path):
        self.click(f"#text .row[data-path='{path}']")

    def unfold(self, place):
        self.settle()
        self.ask("page.shown.select([words[0]])", place)
        self.click(f"#text .row[data-path='{place}'] .fold")

    def go_to(self, moment):
        self.settle()
        self.ask("page.shown.goTo(words[0])", moment)

    def put_in(self, words):
        field = self.find("words")
        field.clear()
        field.send_keys(words, Keys.ENTER)

    def focus(self, selector):
        self.settle()
        self.browser.execute_script("document.querySelector(arguments[0]).focus()", selector)

    def press(self, *keys, held=()):
        """Presses keys where the focus is, one after another, with others held down all the while."""
        chain = ActionChains(self.browser)
        for key in held:
            chain = chain.key_down(key)
        chain = chain.send_keys(*keys)
        for key in held:
            chain = chain.key_up(key)
        chain.perform()

    def seen(self, code, *words):
        """Where something is seen, as code of the page's views answers it."""
        self.settle()
        return self.wait(lambda: self.ask(f"page.views.{code}", *words))

    def spot(self, qubit):
        """Where a qubit is seen on the picture."""
        return self.seen("layout.at(words[0])", qubit)

    def spot_of_place(self, column, row):
        """Where a place of the grid is seen on the picture."""
        return self.seen("layout.spot(words)", column, row)

    def choose_qubit(self, *numbers):
        """Clicks qubits, those after the first with Shift, by one chain of events."""
        self.settle()
        x, y, *_ = self.box("#picture")
        chain = ActionChains(self.browser, duration=0)
        for place, (left, top) in enumerate(self.ask("words.map((qubit) => page.views.layout.at(qubit))", *numbers)):
            self.move(chain, x + left, y + top).click()
            if place == 0:
                chain.key_down(Keys.SHIFT)
        chain.key_up(Keys.SHIFT).perform()

    def type_on(self, number, key):
        """Presses a key with a qubit alone chosen."""
        self.choose_qubit(number)
        self.press(key)

    def click_bit(self, bit):
        """Clicks a detector or observable on the timeline."""
        self.point_at("#timeline", *self.seen("timeline.at(words[0])", bit)).click().perform()

    def hold(self, name, repeats=4):
        """Holds a key down, so that it repeats, and lets it go."""
        key = HELD[name]
        kind = "keyDown" if "text" in key else "rawKeyDown"
        for repeat in range(1 + repeats):
            self.browser.execute_cdp_cmd("Input.dispatchKeyEvent", {"type": kind, "autoRepeat": repeat > 0, **key})
        self.browser.execute_cdp_cmd("Input.dispatchKeyEvent", {"type": "keyUp", **{word: key[word] for word in key if word != "text"}})

    def point_at(self, selector, left=None, top=None, chain=None):
        """Moves the pointer to the middle of an element, or to a spot on it that was seen, in pixels from its upper left corner; goes on with
        a chain of events. It is a place of the window, so that the element may be drawn anew until the chain is performed."""
        if left is None:
            self.settle()
        x, y, width, height = self.box(selector)
        chain = chain or ActionChains(self.browser, duration=0)
        return self.move(chain, x + (width / 2 if left is None else left), y + (height / 2 if left is None else top))

    def box(self, selector):
        """Where an element is in the window, as left, top, width and height, once it can be seen."""
        return self.wait(lambda: self.browser.execute_script(BOX, selector))

    def move(self, chain, x, y):
        """Has a chain of events move the pointer to a place of the window."""
        chain.w3c_actions.pointer_action.move_to_location(round(x), round(y))
        chain.w3c_actions.key_action.pause()
        return chain

    def drag(self, *spots, held=None, last="#picture"):
        """Drags over the picture from one spot to others, the last of which may be on another element, with a key held down."""
        chain = self.point_at("#picture", *spots[0])
        if held:
            chain.key_down(held)
        chain.click_and_hold()
        for place, spot in enumerate(spots[1:], start=2):
            self.point_at(last if place == len(spots) else "#picture", *spot, chain=chain)
        chain.release()
        if held:
            chain.key_up(held)
        chain.perform()


def open_browser():
    options = webdriver.ChromeOptions()
    options.binary_location = CHROMIUM
    for word in ("--headless=new", "--no-sandbox", "--disable-gpu", "--window-size={},{}".format(*USUAL)):
        options.add_argument(word)
    driver = webdriver.Chrome(options=options, service=Service(DRIVER))
    driver.set_script_timeout(LONGEST)
    return driver
