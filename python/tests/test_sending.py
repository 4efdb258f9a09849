"""Parts with an executor, whose workers are played here: who is sent a model, and how often."""

from concurrent.futures import Future

import stabsim
from stabsim.collecting.counting import Counted, Load, Missing, Part
from stabsim.collecting.sending import Sending

LOAD = Load(stabsim.ErrorModel.from_dem("error(0.5) D0"), lambda model: lambda detectors: detectors, None)


class Played:
    """An executor whose parts wait until one of its workers is made to take the first of them."""

    def __init__(self):
        self.waiting = []
        self.has = set()
        self.sent = 0

    def submit(self, function, part, load):
        future = Future()
        self.waiting.append((future, part, load))
        self.sent += load is not None
        return future

    def take(self, worker):
        future, part, load = self.waiting.pop(0)
        if load:
            self.has.add(worker)
        is_there = worker in self.has
        future.set_result(Counted("m", part.first_shot, part.shots, 0, 0.0, 0, worker) if is_there else Missing(part, worker))


def parts(count):
    return iter([Part("e", "m", 0, 10 * number, 10) for number in range(count)])


def test_a_worker_without_the_model_is_sent_it_once():
    played = Played()
    sending = Sending(played, {"m": LOAD}, 4)
    some = parts(20)
    sending.fill(some)
    # The first part has the model with it.
    assert [load is not None for _, _, load in played.waiting] == [True, False, False, False]
    counted = []
    for turn in range(60):
        if not sending.running:
            break
        played.take(f"worker {turn % 2}")
        counted += sending.take()
        sending.fill(some)
    assert sorted(it.first_shot for it in counted) == [10 * number for number in range(20)]
    assert played.has == {"worker 0", "worker 1"} and played.sent == 2


def test_a_worker_asks_again_if_another_took_its_model():
    played = Played()
    sending = Sending(played, {"m": LOAD}, 3)
    sending.fill(parts(3))
    for worker, sent in [
        ("one", 1), ("two", 2),  # two does not have it, and it is sent after the third part;
        ("two", 2),  # that part comes back to two meanwhile, without it;
        ("one", 2),  # and one takes what was meant for two.
        ("two", 3), ("two", 3),
    ]:
        played.take(worker)
        sending.take()
        assert played.sent == sent
    assert not sending.running and not played.waiting


def test_what_no_worker_has_begun_is_taken_back():
    played = Played()
    sending = Sending(played, {"m": LOAD}, 3)
    sending.fill(parts(5))
    futures = [future for future, _, _ in played.waiting]
    sending.cancel()
    assert len(futures) == 3 and all(future.cancelled() for future in futures) and not sending.running
