"""Sessions in forked processes, and copies of them: one process alone reads what the program replies."""

import copy
import multiprocessing
import os
import pickle
import time

import pytest
import stabsim
from stabsim.session import framed


def sign_in_a_fork(place):
    """What a worker that was forked is told when it asks the session of its parent."""
    try:
        return SHARED[0].sign(f"Z{place}")
    except stabsim.SessionEnded as told:
        return str(told)
    finally:
        SHARED[0].close()


SHARED = []


def test_a_session_answers_only_the_process_that_opened_it():
    with stabsim.Circuit("X 0\nI 1\n").edit() as session:
        SHARED[:] = [session]
        with multiprocessing.get_context("fork").Pool(2) as pool:
            told = pool.map(sign_in_a_fork, [0, 1] * 20)
            assert all(f"belongs to process {os.getpid()}, and this is process" in it for it in told)
            assert [session.sign(f"Z{place}") for place in [0, 1] * 20] == [-1, 1] * 20
            began = time.monotonic()
            session.close()
            assert time.monotonic() - began < framed.LAST_SECONDS


def test_a_session_is_not_copied_and_not_sent():
    with stabsim.Circuit("M 0\n").edit() as session:
        for made in (copy.copy, copy.deepcopy, pickle.dumps):
            for held in (session, session.process):
                with pytest.raises(TypeError, match="a session is not copied and not sent to another process"):
                    made(held)
        assert session.records().tolist() == [False]
