"""Where the package and the helpers of the tests are, also for the processes that tests start."""

import os
import pathlib
import sys

import pytest

HERE = pathlib.Path(__file__).resolve().parent
PLACES = [str(HERE.parent), str(HERE)]

sys.path[:0] = PLACES
os.environ["PYTHONPATH"] = os.pathsep.join(PLACES + [it for it in [os.environ.get("PYTHONPATH")] if it])
os.environ["PYTHONDONTWRITEBYTECODE"] = "1"

from browsing import Page, open_browser  # noqa: E402: its folder was named above
from ending import end_in_time  # noqa: E402, F401: a fixture of all tests


@pytest.fixture(scope="session")
def browser():
    driver = open_browser()
    yield driver
    driver.quit()


@pytest.fixture
def open_page(browser, tmp_path):
    """Opens the page on a circuit, perhaps with more words for its server."""
    pages = []

    def opened(text, *words, is_opened=True):
        page = Page(browser, tmp_path, text, *words)
        pages.append(page)
        if is_opened:
            page.open()
        return page

    yield opened
    # A test that fails may leave a tab of its own, in which the next one would go on.
    first, *others = browser.window_handles if pages else [None]
    for other in others:
        browser.switch_to.window(other)
        browser.close()
    if others:
        browser.switch_to.window(first)
    for page in pages:
        page.close()
