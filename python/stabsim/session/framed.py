"""The process of a session, `stabsim edit --framed`, and the form of its replies: each says first how many lines it has."""

import itertools
import os
import subprocess
import tempfile
import threading
from typing import NoReturn

from stabsim import program
from stabsim.errors import Refused, SessionEnded
from stabsim.session.explaining import in_words

# The form of replies that this module reads.
FRAMED_VERSION = 1

# How long a process may take to end once its script has ended.
LAST_SECONDS = 5.0


class OfOneProcess:
    """What holds a process and its pipes: a copy of it would read the replies to the other's requests."""

    def __reduce__(self) -> NoReturn:
        raise TypeError("a session is not copied and not sent to another process, since it has one of its own: open another by `edit`")


class FramedProcess(OfOneProcess):
    """A process that answers one request after another. One thread at a time asks it, of the process that started it alone: another
    one that was forked has the same pipes, and would read replies that are not its own.

    ended: why no more can be asked, or None; said: what the process said on standard error, once it has ended.
    """

    def __init__(self, words: list[str], text: str) -> None:
        """Starts a session of a circuit's text with these options; raises what the circuit is refused by."""
        self.lock = threading.Lock()
        self.owner = os.getpid()
        self.ended: str | None = None
        self.said = ""
        self.program = program.find_program()
        with tempfile.NamedTemporaryFile(prefix="stabsim-", suffix=".stim") as file:
            file.write(program.bytes_of(text))
            file.flush()
            self.process = subprocess.Popen([self.program, "edit", "--framed", *words, "--in", file.name], stdin=subprocess.PIPE,
                                            stdout=subprocess.PIPE, stderr=subprocess.PIPE)
            self.await_ready()

    @property
    def number(self) -> int:
        """The process's number."""
        return self.process.pid

    def close(self) -> None:
        """Ends the process; if it has ended already, it stays so. In a process that was forked the pipes alone are closed there."""
        self.ended = self.ended or "it was closed"
        if self.owner == os.getpid():
            # It has nothing to keep, and would wait for the end of a pipe that a process which was forked may hold open.
            self.process.kill()
            self.end_process()
        for pipe in (self.process.stdin, self.process.stdout, self.process.stderr):
            if pipe:
                pipe.close()

    def __del__(self) -> None:
        # Without a process nothing was begun.
        if "process" in vars(self):
            self.close()

    def ask(self, request: bytes) -> list[bytes]:
        """The lines of the reply to one request of one line or more; raises Refused if it is one."""
        if self.owner != os.getpid():
            raise SessionEnded(f"the session belongs to process {self.owner}, and this is process {os.getpid()}: open one here by `edit`")
        if not self.lock.acquire(blocking=False):
            raise RuntimeError("another thread is in a call of this session")
        try:
            if self.ended:
                raise SessionEnded(f"the session has ended: {self.ended}")
            return self.reply(request)
        except (Refused, SessionEnded):
            raise
        except BaseException as fault:
            # What was sent or read so far is not known, so no later reply could be distinguished from this one.
            self.ended = self.ended or f"a call was broken off: {fault!r}"
            raise
        finally:
            self.lock.release()

    def reply(self, request: bytes) -> list[bytes]:
        """Sends a request and reads its reply."""
        assert self.process.stdin
        try:
            self.process.stdin.write(request)
            self.process.stdin.flush()
        except BrokenPipeError:
            raise self.broken("its process takes no more lines") from None
        words = self.read_line().split()
        if len(words) == 2 and words[0] == b"ok":
            return self.read_lines(int(words[1]))
        if len(words) == 3 and words[0] == b"refused":
            raise in_words(int(words[1]), words[2].decode())
        raise self.broken(f"it said {b' '.join(words)!r}, which is no reply")

    def read_line(self) -> bytes:
        return self.read_lines(1)[0]

    def read_lines(self, count: int) -> list[bytes]:
        assert self.process.stdout
        lines = list(itertools.islice(self.process.stdout, count))
        if len(lines) < count or (lines and not lines[-1].endswith(b"\n")):
            raise self.broken("its process ended in a reply")
        return [line[:-1] for line in lines]

    def await_ready(self) -> None:
        """Reads the first line, `ready 1 ..`; raises what the circuit is refused by."""
        try:
            words = self.read_line().split()
        except SessionEnded:
            self.close()
            raise program.failure(self.program, self.process.returncode, self.said) from None
        if words[:2] != [b"ready", str(FRAMED_VERSION).encode()]:
            self.close()
            raise SessionEnded(f"{self.program} said {b' '.join(words)!r} in place of `ready {FRAMED_VERSION}`")

    def end_process(self) -> int:
        """Ends the script, waits for the process to end by that, or else ends it, and answers its status."""
        assert self.process.stdin
        try:
            self.process.stdin.close()
        except BrokenPipeError:
            pass
        try:
            return self.process.wait(timeout=LAST_SECONDS)
        except subprocess.TimeoutExpired:
            self.process.kill()
            return self.process.wait()

    def broken(self, why: str) -> SessionEnded:
        """Ends the session, and says why, with what the process said at its end."""
        assert self.process.stderr
        status = self.end_process()
        self.said = self.process.stderr.read().decode(errors="replace")
        self.ended = f"{why} (status {status}{': ' if self.said.strip() else ''}{self.said.strip()})"
        return SessionEnded(f"the session has ended: {self.ended}")
