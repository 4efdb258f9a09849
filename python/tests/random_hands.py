"""A person who does anything at all on the page: keys, clicks, drags, edits, other circuits, themes and sizes, by the browser's own events."""

import asyncio
import contextlib
import json
import random
import urllib.request

import aiohttp

# Keys that do something by themselves; those of the picture go to what has the focus.
LETTERS = "hsxyzXYCcvVwmMrRnpdDoqtT{}<>,.[]+-0ia?"
NAMED = {
    "Escape": 27, "Delete": 46, "Enter": 13, "Tab": 9, "F6": 117, "Home": 36, "End": 35, "PageUp": 33, "PageDown": 34,
    "ArrowLeft": 37, "ArrowUp": 38, "ArrowRight": 39, "ArrowDown": 40,
}
COMMANDS = {"c": "copy", "x": "cut", "v": "paste"}
ALT, CTRL, SHIFT = 1, 2, 8
PANES = ("#picture", "#timeline", "#text", "#edits", "#inspector", "#palette", "#layout .bar", "#tabs")
SIZES = ((1280, 900), (1024, 768), (800, 600), (390, 844))
# Where the panes are, once they can be seen.
BOXES = """return arguments[0].map((name) => {
  const {x, y, width, height} = document.querySelector(name)?.getBoundingClientRect() ?? {};
  return width && height ? [x, y, width, height] : null;
})"""


class Hands:
    """Random events on an open page, the same for the same seed.

    circuits: texts that are pasted now and then.
    """

    def __init__(self, page, seed, circuits):
        self.page, self.random, self.circuits = page, random.Random(seed), circuits
        self.socket = socket_of(page.browser)
        # What the browser is still to be told, and which events were made.
        self.waiting, self.done = [], []
        self.find_boxes()

    def play(self, count):
        """Makes a number of events; `done` then says which."""
        events = ((40, self.press_letter), (8, self.press_named), (9, self.press_with_ctrl), (22, self.click), (7, self.drag), (3, self.write), (2, self.wheel),
                  (2, self.paste), (1, self.change_theme), (1, self.change_size), (5, self.click_history), (4, self.press_with_alt), (4, self.press_layer))
        weights, acts = zip(*events)
        for act in self.random.choices(acts, weights, k=count):
            self.done.append(act.__name__)
            act()
        self.tell()

    def send(self, kind, **values):
        self.waiting.append((f"Input.dispatch{kind}Event", values))

    def tell(self):
        """Sends the browser what waits, one event right after another."""
        asyncio.run(told_to(self.socket, self.waiting))
        self.waiting = []

    def find_boxes(self):
        self.tell()
        found = self.page.browser.execute_script(BOXES, PANES)
        self.boxes = {name: box for name, box in zip(PANES, found) if box}

    def press(self, key, code=0, modifiers=0, **more):
        text = {"text": key} if len(key) == 1 and not modifiers & CTRL else {}
        values = {"key": key, "modifiers": modifiers, "windowsVirtualKeyCode": code or ord(key[0].upper()), **more}
        self.send("Key", type="keyDown" if text else "rawKeyDown", **values, **text)
        self.send("Key", type="keyUp", **values)

    def press_letter(self):
        self.press(self.random.choice(LETTERS))

    def press_named(self):
        key = self.random.choice(list(NAMED))
        self.press(key, NAMED[key], self.random.choice((0, 0, 0, SHIFT)))

    def press_with_ctrl(self):
        key = self.random.choice("zzyycxva")
        self.press(key, modifiers=CTRL, commands=[COMMANDS[key]] if key in COMMANDS else [])

    def press_with_alt(self):
        """A gate beside what acts there."""
        self.press(self.random.choice("hsxcvmrn"), modifiers=ALT)

    def press_layer(self):
        """A layer of marks is taken in hand, or let go of."""
        digit = self.random.randrange(10)
        values = {"key": ")!@#$%^&*("[digit], "code": f"Digit{digit}", "modifiers": SHIFT, "windowsVirtualKeyCode": 48 + digit}
        self.send("Key", type="rawKeyDown", **values)
        self.send("Key", type="keyUp", **values)

    def place(self, name=None):
        """A random place of a pane, of one that can be seen."""
        x, y, width, height = self.boxes.get(name) or self.boxes[self.random.choice(list(self.boxes))]
        return {"x": round(x + self.random.random() * width), "y": round(y + self.random.random() * height)}

    def click(self):
        name = self.random.choice(("#picture", "#picture", "#picture", "#timeline", "#text", None))
        self.click_at(self.place(name), self.random.choice((0, 0, SHIFT, CTRL)))

    def click_history(self):
        self.click_at(self.place("#edits"))

    def click_at(self, place, modifiers=0):
        button = {"button": "left", "clickCount": 1, "modifiers": modifiers}
        self.send("Mouse", type="mousePressed", **place, **button)
        self.send("Mouse", type="mouseReleased", **place, **button)

    def drag(self):
        name = self.random.choice(("#picture", "#picture", "#timeline"))
        first, *others = (self.place(name) for _ in range(3))
        self.send("Mouse", type="mousePressed", **first, button="left", clickCount=1)
        for place in others:
            self.send("Mouse", type="mouseMoved", **place, button="left", buttons=1)
        self.send("Mouse", type="mouseReleased", **others[-1], button="left", clickCount=1)

    def wheel(self):
        self.send("Mouse", type="mouseWheel", **self.place("#picture"), deltaX=0, deltaY=self.random.choice((-300, 300)))

    def write(self):
        """Writes an item in the place of the one that is clicked, in front of it or after it, or takes it out."""
        self.click_at(self.place("#text"))
        key = self.random.choice(("i", "a", "Enter", "Delete"))
        self.press(key, NAMED.get(key, 0))
        if key != "Delete":
            item = self.random.choice(("X 1", "TICK", "M 0", "DETECTOR rec[-1]", "REPEAT 3 { M 1", "REPEAT 2 {\n M 0\n}", "QUBIT_COORDS(9, 9) 7", "H 5000"))
            self.waiting.append(("Input.insertText", {"text": item}))
            self.press("Enter", 13)

    def run(self, code):
        self.waiting.append(("Runtime.evaluate", {"expression": code}))

    def paste(self):
        self.run(f"{{ const data = new DataTransfer(); data.setData('text', {json.dumps(self.random.choice(self.circuits))});"
                 "document.body.dispatchEvent(new ClipboardEvent('paste', {clipboardData: data, bubbles: true, cancelable: true})); }")

    def change_theme(self):
        if self.random.random() < 0.5:
            features = [{"name": "prefers-color-scheme", "value": self.random.choice(("light", "dark"))}]
            self.waiting.append(("Emulation.setEmulatedMedia", {"features": features}))
        else:
            self.run("document.getElementById('theme').click()")

    def change_size(self):
        width, height = self.random.choice(SIZES)
        self.tell()
        values = {"width": width, "height": height, "deviceScaleFactor": 1, "mobile": False}
        # By the driver, so that the size stays.
        self.page.browser.execute_cdp_cmd("Emulation.setDeviceMetricsOverride", values)
        self.find_boxes()


def socket_of(browser):
    """Where the tab that the driver sees takes commands."""
    address = browser.capabilities["goog:chromeOptions"]["debuggerAddress"]
    with urllib.request.urlopen(f"http://{address}/json") as answer:
        [tab] = [it for it in json.load(answer) if it["type"] == "page" and it["id"] == browser.current_window_handle]
    return tab["webSocketDebuggerUrl"]


async def told_to(socket, commands):
    """Sends commands without waiting between them, and then waits until all are answered."""
    async with aiohttp.ClientSession() as session, session.ws_connect(socket, max_msg_size=0) as wire:
        for number, (method, values) in enumerate(commands):
            await wire.send_json({"id": number, "method": method, "params": values})
        left = len(commands)
        while left:
            left -= "id" in await wire.receive_json()


@contextlib.contextmanager
def settled_emulation(browser):
    """Gives the window its size and theme back at the end."""
    try:
        yield
    finally:
        browser.execute_cdp_cmd("Emulation.clearDeviceMetricsOverride", {})
        browser.execute_cdp_cmd("Emulation.setEmulatedMedia", {"features": []})
