"""A search for a distance by several processes at once, whose answer is that of one run."""

import re
import subprocess
import tempfile
import threading
from collections.abc import Callable
from concurrent.futures import ThreadPoolExecutor, as_completed
from time import monotonic
from typing import Any

from stabsim import checking, program
from stabsim.bars import bar_of
from stabsim.errors import ProgramFailed
from stabsim.questions.distance_parts import merged

# How many seconds one process has before all take over, and after how many it is listened to.
ALONE_SECONDS, LISTEN_SECONDS = 2.0, 0.2
EXCLUDED = re.compile(rb"^distance: no set of (\d+)$", re.MULTILINE)
PROGRESS = re.compile("^distance: .*\n", re.MULTILINE)


class Search:
    """A search for the distance of a circuit's text, with options as words.

    One process begins. If it takes longer than two seconds it is ended, and for each further number of errors each of `workers` processes
    looks at a part, from the first number on. hear: is called with the number of errors up to which there is no set, and of how many parts
    this is known for the next number.
    """

    def __init__(self, text: str, words: list[str], workers: int, hear: Callable[[int, int], None]) -> None:
        self.text, self.words, self.workers, self.hear = text, words, workers, hear
        self.file = ""
        self.lock = threading.Lock()
        self.is_ended = False
        self.started: list[subprocess.Popen[bytes]] = []

    def answer(self, most: int | None = None) -> str:
        """What one run writes that looks for at most `most` errors. However it ends, no process is left."""
        with tempfile.NamedTemporaryFile(prefix="stabsim-", suffix=".stim") as file:
            file.write(program.bytes_of(self.text))
            file.flush()
            self.file = file.name
            try:
                answer, size = self.begin(most)
                while not answer:
                    size = size + 1 if most is None else min(size + 1, most)
                    found = self.in_parts(size)
                    answer = "" if found.startswith("none up to") and size != most else found
                return answer
            finally:
                self.end()

    def end(self) -> None:
        """Ends all processes, from any thread; no more is started."""
        with self.lock:
            self.is_ended = True
            for process in self.started:
                process.kill()

    def start(self, words: list[str]) -> "subprocess.Popen[bytes]":
        with self.lock:
            if self.is_ended:
                raise ProgramFailed("the search was ended")
            words = [program.find_program(), "distance", *self.words, *words, "--in", self.file]
            process = subprocess.Popen(words, stdin=subprocess.DEVNULL, stdout=subprocess.PIPE, stderr=subprocess.PIPE)
            self.started.append(process)
        return process

    def begin(self, most: int | None) -> tuple[str, int]:
        """What one process writes, or an empty text if it takes too long, and up to how many errors it said that there is no set."""
        until, excluded = monotonic() + ALONE_SECONDS, 0
        with self.start(["--progress", *most_words(most)]) as process:
            while True:
                try:
                    return written(process, LISTEN_SECONDS), excluded
                except subprocess.TimeoutExpired as late:
                    excluded = excluded_in(late.stderr)
                    self.hear(excluded, 0)
                except BaseException:
                    process.kill()
                    raise
                if self.workers > 1 and monotonic() > until:
                    process.kill()
                    return "", excluded_in(process.communicate()[1])

    def in_parts(self, size: int) -> str:
        """What all parts together say of sets of up to this many errors."""
        with ThreadPoolExecutor(self.workers) as threads:
            try:
                runs = [threads.submit(self.run, ["--part", f"{number}/{self.workers}", *most_words(size)]) for number in range(1, self.workers + 1)]
                for done, run in enumerate(as_completed(runs), start=1):
                    run.result()
                    self.hear(size - 1, done)
            except BaseException:
                self.end()
                raise
        try:
            return merged((f"part {number}", run.result()) for number, run in enumerate(runs, start=1))
        except ValueError as fault:
            raise ProgramFailed(f"the parts of a distance don't fit together: {fault}") from fault

    def run(self, words: list[str]) -> str:
        with self.start(words) as process:
            return written(process, None)


def most_words(most: int | None) -> list[str]:
    return [] if most is None else ["--most", str(checking.whole("most", most))]


def excluded_in(said: bytes | None) -> int:
    """Up to how many errors there is no set, as a process said."""
    return max(map(int, EXCLUDED.findall(said or b"")), default=0)


def written(process: "subprocess.Popen[bytes]", seconds: float | None) -> str:
    """What a process writes, if it ends well; subprocess.TimeoutExpired if it does not end within some seconds."""
    output, errors = process.communicate(timeout=seconds)
    if process.returncode:
        raise program.failure(program.find_program(), process.returncode, PROGRESS.sub("", errors.decode(errors="replace")))
    return output.decode()


class Line:
    """A line on a terminal that says how far a search is, once that is heard."""

    def __init__(self, workers: int) -> None:
        self.workers = workers
        self.bar: Any = None

    def hear(self, excluded: int, done: int) -> None:
        self.bar = self.bar or bar_of(self.workers, "part")
        if self.bar:
            self.bar.n = done
            self.bar.set_postfix_str(f"no set of {excluded}")

    def close(self) -> None:
        """Leaves the line as it is."""
        if self.bar:
            self.bar.close()


def distance_text(text: str, words: list[str], most: int | None, workers: int) -> str:
    """What `distance` with these options writes of a circuit's text, by one process or by several, with a line on a terminal."""
    if workers == 1:
        return program.run(["distance", *words, *most_words(most)], text).decode()
    line = Line(workers)
    try:
        return Search(text, words, workers, line.hear).answer(most)
    finally:
        line.close()
