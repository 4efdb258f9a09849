"""Measures in Chromium how long the page takes from a key on a qubit until what it flips is drawn, for docs/build/benchmarks.md.

On a surface code, written out and in a block, it puts a Pauli, a gate or a measurement on a qubit in the middle, or takes out what acts on it,
at moments that lie evenly over all, and takes it back each time; in a block the Pauli's round is split off first, and all else is in all.
A line has the milliseconds of a step of the way, by the browser's clock: the middle one of the edits, the best and the worst; the last
two are the processor time meanwhile of the page's main thread, and of the server with its session. A key that makes no edit ends it. It needs
what the page's tests do: Chromium, its driver, selenium, aiohttp and pytest."""

import contextlib
import os
import statistics
import time
from pathlib import Path
from typing import Any

import stabsim
from browsing import Page, open_browser
from program import TOP
from stabsim import codes

# Chooses a qubit at a moment, or at the next one at which a gate acts on it, if the key is for that.
CHOOSE = """
const [qubit, moment, isForGates, done] = arguments;
Promise.all([import("/static/main.js"), import("/static/instructions.js")]).then(([{ page }, { isErrorOrMark, qubitsOf }]) => {
  const isOn = ({ item }) => !isErrorOrMark(item.name) && qubitsOf(item).includes(qubit);
  for (let at = moment; at < page.moments(); at += 1) {
    page.shown.goTo(at);
    if (!isForGates || page.shown.instructions.some(isOn)) break;
  }
  page.shown.choose(qubit);
  done();
});
"""

# Types a key on the chosen qubit, or takes back what was typed, and answers with the milliseconds of each of STEPS but those of the processor: a
# message is taken up after the frame. If nothing is changed meanwhile, it answers with what the page says.
TYPE = """
const [letter, longest, done] = arguments;
import("/static/main.js").then(({ page }) => {
  requestAnimationFrame(() => setTimeout(() => {
    const { position } = page.shown.state;
    const pressed = performance.now();
    const painted = new MutationObserver(() => {
      // Another event's picture is not what was asked for.
      if (page.shown.state.position === position) return;
      painted.disconnect();
      const framed = performance.now();
      const drawn = Number(document.body.dataset.drawn);
      const { port1, port2 } = new MessageChannel();
      port1.onmessage = () => done([framed - pressed - drawn, drawn, performance.now() - framed, performance.now() - pressed]);
      port2.postMessage("");
    });
    painted.observe(document.body, { attributeFilter: ["data-shown"] });
    setTimeout(() => done(document.getElementById("message").textContent || "the page says nothing"), longest);
    if (letter) document.getElementById("picture").dispatchEvent(new KeyboardEvent("keydown", { key: letter, bubbles: true }));
    else document.getElementById("undo").click();
  }, 30));
});
"""

# Chooses a detector, and answers in how many milliseconds its region is drawn, once the table of faults is there.
REGION = """
const [bit, done] = arguments;
import("/static/main.js").then(async ({ page }) => {
  page.shown.chooseBit(null);
  await new Promise((settle) => setTimeout(settle, 100));
  const begun = performance.now();
  await page.shown.chooseBit(bit);
  requestAnimationFrame(() => setTimeout(() => done(performance.now() - begun)));
});
"""

# Zooms in and out by the wheel, twice in two seconds, by a step in each frame; answers how many milliseconds each frame took.
FRAMES = """
const [count, done] = arguments;
const canvas = document.getElementById("picture");
const times = [];
const step = (now) => {
  times.push(now);
  if (times.length > count) return done(times.slice(1).map((time, i) => time - times[i]));
  const deltaY = times.length % 120 < 60 ? -5 : 5;
  canvas.dispatchEvent(new WheelEvent("wheel", { deltaY, clientX: 700, clientY: 300, cancelable: true }));
  return requestAnimationFrame(step);
};
requestAnimationFrame(step);
"""

# A Pauli; a gate, in the place of another; a measurement, at which the records are others; and what takes a gate out.
KEYS = ("x", "h", "m", "Delete")
FOR_GATES = ("h", "Delete")
STEPS = ("program and server", "layout", "painted", "in all", "main thread", "server's processor")
# After how many milliseconds a key has made no edit.
LONGEST = 60_000
# Surface codes by distance and rounds, and how many edits and frames there are.
SIZES = ((13, 13), (21, 100))
EDITS = 9
COUNT_OF_FRAMES = 240


def open_page(page: Any) -> float:
    """Opens the page, and says after how many seconds its first picture is there."""
    begun = time.perf_counter()
    page.browser.get(page.address)
    while not page.browser.execute_script("return document.body.dataset.shown"):
        time.sleep(0.005)
    return time.perf_counter() - begun


def thread_time(driver: Any) -> float:
    """How many milliseconds of a processor the main thread of the page has used."""
    metrics = driver.execute_cdp_cmd("Performance.getMetrics", {})["metrics"]
    return next(1000.0 * float(it["value"]) for it in metrics if it["name"] == "TaskDuration")


def processor_times(pid: int) -> dict[int, float]:
    """How many milliseconds of a processor the threads of a process and of its children have used, by their numbers. The table of faults, which is
    made once the picture is there, has a process of its own."""
    found = {}
    for thread in Path(f"/proc/{pid}/task").iterdir():
        found[int(thread.name)] = int((thread / "schedstat").read_text().split()[0]) / 1e6
        for child in (thread / "children").read_text().split():
            if b"table_process" not in Path(f"/proc/{child}/cmdline").read_bytes():
                found |= processor_times(int(child))
    return found


def type_key(driver: Any, letter: str) -> list[float]:
    """Types a key, or takes back what was typed; the milliseconds of what TYPE measures."""
    found = driver.execute_async_script(TYPE, letter, LONGEST)
    if isinstance(found, str):
        raise RuntimeError(f"{letter or 'undo'} makes no edit: {found}")
    return list(found)


def measure_edit(page: Any, letter: str, qubit: int, moment: int) -> list[float]:
    """The milliseconds of STEPS of the edit that a key makes, which is taken back."""
    driver = page.browser
    driver.execute_async_script(CHOOSE, qubit, moment, letter in FOR_GATES)
    time.sleep(1)
    before, was = thread_time(driver), processor_times(page.server.pid)
    found = type_key(driver, letter)
    now = processor_times(page.server.pid)
    found += [thread_time(driver) - before, sum(now.values()) - sum(value for thread, value in was.items() if thread in now)]
    time.sleep(1)
    type_key(driver, "")
    time.sleep(1)
    return found


def measure_size(driver: Any, file: Path, distance: int, rounds: int, written_out: bool) -> None:
    file.write_text(codes.surface_code(distance, rounds, written_out=written_out))
    begun = time.perf_counter()
    with contextlib.closing(Page(driver, file.parent, None, str(file))) as page:
        started = time.perf_counter() - begun
        form = "written out" if written_out else "in a block"
        print(f"distance {distance}, {rounds} rounds, {form}: served after {started:.2f} s, first picture {open_page(page):.2f} s later")
        time.sleep(3)
        last = page.ask("page.moments() - 1")
        # The data qubit in the middle of the code: its coordinates are the distance, which is odd as those of all data qubits.
        qubit = stabsim.Circuit.from_file(file).qubit_coordinates().tolist().index([distance, distance])
        found: dict[str, Any] = {}
        for letter in KEYS:
            times = [measure_edit(page, letter, qubit, (number + 1) * last // (EDITS + 1)) for number in range(EDITS)]
            found |= zip((f"{letter}: {step}" for step in STEPS), zip(*times))
        found["a region"] = [driver.execute_async_script(REGION, f"D{number}") for number in range(distance, distance + EDITS)]
        found["a frame"] = driver.execute_async_script(FRAMES, COUNT_OF_FRAMES)
        for name, its in found.items():
            print(f"    {name:26} {statistics.median(its):6.1f} ms  ({min(its):.1f} to {max(its):.1f})")


def measure(file: Path) -> None:
    # The server of the page is started with it.
    os.environ["PYTHONPATH"] = str(TOP / "python")
    with open_browser() as driver:
        driver.set_script_timeout(2 * LONGEST / 1000)
        driver.execute_cdp_cmd("Performance.enable", {"timeDomain": "threadTicks"})
        driver.execute_cdp_cmd("Emulation.setDeviceMetricsOverride", {"width": 1920, "height": 1080, "deviceScaleFactor": 1, "mobile": False})
        for distance, rounds in SIZES:
            for written_out in (True, False):
                measure_size(driver, file, distance, rounds, written_out)
