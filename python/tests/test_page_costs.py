"""What an edit costs on the page, in time of processors, which what else the machine does changes less than the clock's."""

import contextlib
import pathlib

from browsing import needs_browser
from stabsim import codes
from test_page_marks import HAS_TABLE
from test_page_records import block_of

pytestmark = needs_browser

EDITS = 7
# What the page and the session need for an edit, by which anything that is done once more for each round is much more, in milliseconds.
MORE = 25
# Puts an error on a qubit at the moment that is shown, in its round alone, and answers once it is drawn.
PUT = """(async () => {
  await page.shown.choose(words[0]);
  document.querySelector('#picture').dispatchEvent(new KeyboardEvent('keydown', { key: 'x', bubbles: true }));
  const { position } = page.shown.state;
  while (page.shown.state.position === position || !page.isDrawn()) await new Promise((settle) => requestAnimationFrame(settle));
})()"""


def page_time(browser):
    """How many milliseconds of a processor the page has used."""
    metrics = browser.execute_cdp_cmd("Performance.getMetrics", {})["metrics"]
    return next(1000 * it["value"] for it in metrics if it["name"] == "TaskDuration")


def server_time(pid):
    """How many milliseconds of a processor a process has used, with those that it started, except that of the table of faults."""
    spent = 0.0
    for thread in pathlib.Path(f"/proc/{pid}/task").iterdir():
        with contextlib.suppress(FileNotFoundError):
            spent += int((thread / "schedstat").read_text().split()[0]) / 1e6
            children = (thread / "children").read_text().split()
            spent += sum(server_time(child) for child in children if b"table_process" not in pathlib.Path(f"/proc/{child}/cmdline").read_bytes())
    return spent


def table_time(pid):
    """How many milliseconds of a processor the process with the table of faults has used, of the server with this number."""
    for thread in pathlib.Path(f"/proc/{pid}/task").iterdir():
        for child in (thread / "children").read_text().split():
            if b"table_process" in pathlib.Path(f"/proc/{child}/cmdline").read_bytes():
                return sum(int((it / "schedstat").read_text().split()[0]) / 1e6 for it in pathlib.Path(f"/proc/{child}/task").iterdir())
    return 0.0


def costs(page, count):
    """The least time of errors in one round each, of the page and of its server."""
    found = []
    for number in range(EDITS):
        page.go_to(count // 3 + number)
        page.wait(lambda: page.ask("page.shown.state.deterministic !== null"))
        before = page_time(page.browser), server_time(page.server.pid)
        page.ask(PUT, 4)
        found.append((page_time(page.browser) - before[0], server_time(page.server.pid) - before[1]))
        page.settle()
    assert len(page.history()) == 1 + EDITS
    return [min(times) for times in zip(*found)]


def test_an_edit_in_one_round_of_a_block_costs_as_much_as_where_rounds_are_written_out(open_page):
    least = {}
    for written_out in (True, False):
        page = open_page(codes.surface_code(9, 60, written_out=written_out))
        page.browser.execute_cdp_cmd("Performance.enable", {"timeDomain": "threadTicks"})
        least[written_out] = costs(page, page.ask("page.moments()"))
    for written_out, block in zip(least[True], least[False]):
        assert block <= 2 * written_out + MORE, least


def test_the_table_of_faults_is_known_at_once_after_an_edit_that_leaves_it(open_page):
    page = open_page(codes.surface_code(11, 40))
    page.wait(lambda: page.ask(HAS_TABLE))
    spent = {}
    for item in ("X 13", "H 13", "Z 13"):
        before = table_time(page.server.pid)
        page.ask("page.send([{ kind: 'insert', place: words[0], item: words[1] }])", str(block_of(page)), item)
        page.wait(lambda: page.history()[-1].endswith(item))
        page.wait(lambda: page.ask(HAS_TABLE))
        spent[item] = table_time(page.server.pid) - before
    # Errors leave it; a gate has it made anew.
    assert spent["H 13"] > 2 * max(spent["X 13"], spent["Z 13"]), spent
