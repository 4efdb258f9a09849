#!/usr/bin/env python3
"""Takes the pictures of docs/use/page.md anew, in Chromium: docs/use/page.png, and page_refused.png in dark colours."""

import contextlib
import os
import pathlib
import tempfile

from program import TOP  # It names the folders in which the next two are.

from browsing import Page, open_browser
from stabsim import codes

# The tick and the qubit at which the X is put in; and the tick, the qubit, the detector and the item of the colour code.
TICK, QUBIT = 11, 27
PRODUCTS, FACE, DETECTOR, ITEM = 3, 10, "D22", 34


def wait_for_faults(page: Page) -> None:
    """Waits until what the table of faults says is drawn."""
    page.wait(lambda: "not known yet" not in page.find("about-errors").text)
    page.wait(lambda: page.ask("page.shown.scene().faces.length"))
    page.browser.execute_async_script("requestAnimationFrame(() => requestAnimationFrame(arguments[0]))")


def put_in_a_pauli(page: Page) -> None:
    """An X in one round, the region of the first detector that it flips, and what any Pauli would flip there."""
    page.go_to(TICK)
    page.type_on(QUBIT, "x")
    page.wait(lambda: len(page.history()) > 1)
    page.wait(page.letters)
    wait_for_faults(page)


def refuse(page: Page) -> None:
    """The products of a colour code, and an item that names a qubit which no circuit may have."""
    page.go_to(PRODUCTS)
    page.choose_qubit(FACE)
    page.ask("page.shown.chooseBit(words[0])", DETECTOR)
    page.wait(page.letters)
    page.ask("page.shown.select([words[0]], false)", ITEM)
    page.click("#insert")
    page.put_in("MPP X5*X6*X1024")
    page.wait(lambda: page.find("refusal").text)
    wait_for_faults(page)


def main() -> None:
    pictures = (
        ("page.png", "light", "surface_code_5.stim", codes.surface_code(5, 5), put_in_a_pauli),
        ("page_refused.png", "dark", "colour_code_5.stim", codes.colour_code(5, 2), refuse),
    )
    # The server of the page is started with it.
    os.environ["PYTHONPATH"] = str(TOP / "python")
    with tempfile.TemporaryDirectory() as folder, open_browser() as driver:
        driver.set_script_timeout(600)
        driver.execute_cdp_cmd("Emulation.setDeviceMetricsOverride", {"width": 1280, "height": 800, "deviceScaleFactor": 1, "mobile": False})
        for name, colours, called, code, act in pictures:
            driver.execute_cdp_cmd("Emulation.setEmulatedMedia", {"features": [{"name": "prefers-color-scheme", "value": colours}]})
            file = pathlib.Path(folder) / called
            file.write_text(code)
            with contextlib.closing(Page(driver, file.parent, None, str(file))) as page:
                page.open()
                act(page)
                driver.save_screenshot(str(TOP / "docs/use" / name))


if __name__ == "__main__":
    main()
