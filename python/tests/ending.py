"""How long a test may take: one that waits for what never comes is ended."""

import signal

import pytest

MOST_SECONDS = 600


@pytest.fixture(autouse=True)
def end_in_time():
    def end(number, frame):
        raise TimeoutError(f"no end within {MOST_SECONDS} seconds")

    signal.signal(signal.SIGALRM, end)
    signal.alarm(MOST_SECONDS)
    yield
    signal.alarm(0)
