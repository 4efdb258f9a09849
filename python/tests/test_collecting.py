"""Counting logical errors: the same sums however the work is done, and nothing counted twice or lost."""

import contextlib
import csv
import functools
import itertools
import json
import multiprocessing
import os
import signal
import subprocess
import sys
import threading
import time
from concurrent.futures import ProcessPoolExecutor, ThreadPoolExecutor

import numpy as np
import pytest
import stabsim
from stabsim import codes
from stabsim.collecting.collecting import seed_of
from stabsim.collecting.counting import held

import deciding

MODELS = {f"d{distance}": stabsim.error_model(codes.repetition_code(distance, 2, noise=codes.Noise.uniform(0.03))) for distance in (3, 5)}


def sums_of(*given, **words):
    """What is counted in the end, without the seconds."""
    return {it.name: (it.shots, it.errors) for it in stabsim.collect(*given, **words)}


def errors_in(name, shots, decoder=deciding.nothing):
    """The errors of a model by one array."""
    detectors, observables = MODELS[name].sample(shots, seed=seed_of(name, 4))
    return int((decoder(MODELS[name])(detectors) != observables).any(axis=1).sum())


def test_sums_are_those_of_one_array():
    wanted = {name: (3000, errors_in(name, 3000)) for name in MODELS}
    assert sums_of(MODELS, deciding.nothing, shots=3000, seed=4, part_shots=1024) == wanted


def test_each_model_draws_shots_of_its_own():
    model = MODELS["d3"]
    models = {name: model for name in ("one", "other", "third")}
    found = {it.name: it for it in stabsim.collect(models, deciding.nothing, shots=4096, seed=4)}
    seeds = [it.seed for it in found.values()]
    shots = [np.concatenate(model.sample(4096, seed=seed), axis=1) for seed in seeds]
    assert not any(np.array_equal(*pair) for pair in itertools.combinations(shots, 2))
    # The seed that the sums have draws these shots again.
    assert [it.errors for it in found.values()] == [int(it[:, model.num_detectors :].any(axis=1).sum()) for it in shots]
    again = [it.seed for it in stabsim.collect({"other": model}, deciding.nothing, shots=10, seed=4)]
    assert again == [found["other"].seed] and seed_of("one", 4) != seed_of("one", 5)


def test_a_decoder_makes_fewer_errors():
    found = sums_of(MODELS, deciding.lookup, shots=2048, seed=4)
    for name in MODELS:
        assert found[name] == (2048, errors_in(name, 2048, deciding.lookup))
        assert found[name][1] < errors_in(name, 2048)


def test_enough_errors_end_the_counting_at_a_part():
    [last] = sums_of({"d3": MODELS["d3"]}, deciding.nothing, errors=200, seed=4, part_shots=1024).values()
    assert last[0] % 1024 == 0 and last[1] == errors_in("d3", last[0]) >= 200 > errors_in("d3", last[0] - 1024)


def test_a_part_has_the_shots_that_are_asked_for_and_ends_at_a_multiple_of_them(tmp_path):
    path = tmp_path / "counts.csv"
    words = {"seed": 4, "save": path, "part_shots": 1000}
    assert sums_of(MODELS, deciding.nothing, shots=2500, **words) == {name: (2500, errors_in(name, 2500)) for name in MODELS}
    assert sums_of(MODELS, deciding.nothing, shots=4000, **words) == {name: (4000, errors_in(name, 4000)) for name in MODELS}
    with open(path, newline="") as file:
        parts = [(int(row["first_shot"]), int(row["shots"])) for row in csv.DictReader(file) if row["name"] == "d3"]
    assert parts == [(0, 1000), (1000, 1000), (2000, 500), (2500, 500), (3000, 1000)]


@pytest.mark.parametrize("kind", [ThreadPoolExecutor, ProcessPoolExecutor])
def test_what_a_decoder_raises_comes_through_with_the_name_of_the_model(kind):
    with kind(1) as executor, pytest.raises(ValueError, match="no predictions today") as raised:
        sums_of({"d3": MODELS["d3"]}, deciding.raising, shots=10, seed=4, executor=executor)
    assert raised.value.__notes__ == ["raised by the decoder of d3"]


@pytest.mark.parametrize("kind", [ThreadPoolExecutor, ProcessPoolExecutor])
def test_threads_and_processes_give_the_same_sums(kind):
    words = {"errors": 400, "shots": 20_000, "seed": 9, "part_shots": 1024}
    alone = sums_of(MODELS, deciding.nothing, **words)
    given = {"mp_context": multiprocessing.get_context("spawn")} if kind is ProcessPoolExecutor else {}
    with kind(3, **given) as executor:
        assert sums_of(MODELS, deciding.nothing, executor=executor, **words) == alone


def test_workers_of_dask_give_the_same_sums_though_one_is_killed(tmp_path):
    distributed = pytest.importorskip("distributed")
    words = {"shots": 40 * 1024, "seed": 9, "part_shots": 1024}
    alone = sums_of(MODELS, deciding.nothing, **words)
    with distributed.LocalCluster(n_workers=2, threads_per_worker=1, dashboard_address=None, local_directory=str(tmp_path)) as cluster, \
            distributed.Client(cluster) as client:
        processes = list(client.run(os.getpid).values())
        found = {}
        for sums in stabsim.collect(MODELS, deciding.slowly_nothing, executor=client.get_executor(), save=tmp_path / "counts.csv", **words):
            found[sums.name] = (sums.shots, sums.errors)
            if processes and sums.shots >= 5 * 1024:
                kill(processes.pop())
                processes.clear()
        client.wait_for_workers(2)
        after = set(client.run(os.getpid).values())
    assert not processes and len(after) == 2
    assert found == alone
    assert each_shot_once(tmp_path / "counts.csv") == alone


def kill(process):
    """Kills a worker once no result of it is on its way: dask takes a result for an error if it hears of the worker's end before it looks."""
    os.kill(process, signal.SIGSTOP)
    time.sleep(1)
    os.kill(process, signal.SIGKILL)


def each_shot_once(path):
    """The sums of a file in which no shot is missing and none comes twice."""
    sums = {}
    with open(path, newline="") as file:
        for row in csv.DictReader(file):
            shots, errors = sums.get(row["name"], (0, 0))
            assert int(row["first_shot"]) == shots
            sums[row["name"]] = (shots + int(row["shots"]), errors + int(row["errors"]))
    return sums


def test_a_later_call_goes_on_from_the_file(tmp_path):
    path = tmp_path / "counts.csv"
    sums_of(MODELS, deciding.nothing, shots=2500, seed=4, save=path, part_shots=1024)
    before = path.read_text()
    assert sums_of(MODELS, deciding.nothing, shots=2500, seed=4, save=path) == each_shot_once(path)
    assert path.read_text() == before
    more = sums_of(MODELS, deciding.nothing, shots=6000, seed=4, save=path, part_shots=2048)
    assert path.read_text().startswith(before)
    assert more == each_shot_once(path) == {name: (6000, errors_in(name, 6000)) for name in MODELS}


def test_another_decoder_is_counted_by_itself_in_the_same_file(tmp_path):
    path = tmp_path / "counts.csv"
    first = sums_of(MODELS, deciding.nothing, shots=2048, seed=4, save=path)
    other = sums_of(MODELS, deciding.lookup, shots=2048, seed=4, save=path)
    assert other == {name: (2048, errors_in(name, 2048, deciding.lookup)) for name in MODELS} != first
    with open(path, newline="") as file:
        assert {row["decoder"] for row in csv.DictReader(file)} == {"deciding.nothing", "deciding.lookup"}
    before = path.read_text()
    assert sums_of(MODELS, deciding.nothing, shots=2048, seed=4, save=path) == first and path.read_text() == before


def test_a_decoder_has_the_name_that_it_is_given_or_that_of_its_function(tmp_path):
    path = tmp_path / "counts.csv"
    shift = 1
    for decoder, name in [(deciding.nothing, "deciding.nothing"), (deciding.Nothing, "deciding.Nothing"),
                          (("none, or so", lambda model: deciding.nothing(model)), "none, or so")]:
        assert {it.decoder for it in stabsim.collect(MODELS, decoder, shots=10, seed=4, save=path)} == {name}
        with open(path, newline="") as file:
            assert [row["decoder"] for row in csv.DictReader(file)][-1] == name

    def inner(model):
        return lambda detectors: deciding.nothing(model)(detectors[shift:])

    # Functions that share these names may differ in what they hold.
    bound = deciding.Nothing(MODELS["d3"]).decode
    for nameless in (lambda model: deciding.nothing(model), inner, functools.partial(deciding.nothing), bound):
        with pytest.raises(ValueError, match="name it"):
            stabsim.collect(MODELS, nameless, shots=10, seed=4)


def test_a_file_that_names_no_decoder_is_refused_with_what_to_do(tmp_path):
    path = tmp_path / "counts.csv"
    older = f"name,model,seed,first_shot,shots,errors,seconds\nd3,{MODELS['d3'].fingerprint},4,0,1024,7,0.5\n"
    path.write_text(older)
    with pytest.raises(stabsim.OtherExperiment, match="count anew into another file"):
        sums_of(MODELS, deciding.nothing, shots=2048, seed=4, save=path)
    assert path.read_text() == older


def test_a_line_that_was_cut_off_counts_for_nothing(tmp_path):
    path = tmp_path / "counts.csv"
    sums_of(MODELS, deciding.nothing, shots=4096, seed=4, save=path, part_shots=1024)
    path.write_bytes(path.read_bytes()[:-5])
    assert sums_of(MODELS, deciding.nothing, shots=4096, seed=4, save=path, part_shots=1024) == each_shot_once(path)


def test_a_file_of_something_else_is_refused(tmp_path):
    path = tmp_path / "counts.csv"
    sums_of(MODELS, deciding.nothing, shots=1024, seed=4, save=path)
    with pytest.raises(stabsim.OtherExperiment, match="another seed"):
        sums_of(MODELS, deciding.nothing, shots=2048, seed=5, save=path)
    with pytest.raises(stabsim.OtherExperiment, match="d3"):
        sums_of({"d3": MODELS["d5"]}, deciding.nothing, shots=2048, seed=4, save=path)
    path.write_text("a,b\n1,2\n")
    with pytest.raises(stabsim.OtherExperiment, match="no file of counts"):
        sums_of(MODELS, deciding.nothing, shots=1024, seed=4, save=path)
    assert path.read_text() == "a,b\n1,2\n"


def test_two_cannot_write_one_file(tmp_path):
    path = tmp_path / "counts.csv"
    first = stabsim.collect(MODELS, deciding.nothing, shots=4096, seed=4, save=path, part_shots=1024)
    next(first)
    with pytest.raises(stabsim.OtherExperiment, match="another process"):
        sums_of(MODELS, deciding.nothing, shots=4096, seed=4, save=path)
    first.close()
    assert sums_of(MODELS, deciding.nothing, shots=4096, seed=4, save=path) == each_shot_once(path)


DRIVER = """
import sys
import stabsim
from stabsim import codes
import deciding
models = {"d3": stabsim.error_model(codes.repetition_code(3, 2, noise=codes.Noise.uniform(0.03)))}
for sums in stabsim.collect(models, ("nothing", deciding.slowly_nothing), shots=SHOTS, seed=4, save=sys.argv[1], part_shots=1024):
    print(sums.shots, flush=True)
"""


def test_a_driver_that_is_killed_is_gone_on_from(tmp_path):
    path = tmp_path / "counts.csv"
    # More shots than there is time for.
    with subprocess.Popen([sys.executable, "-c", DRIVER.replace("SHOTS", "60_000 * 1024"), path], stdout=subprocess.PIPE, text=True) as driver:
        while int(driver.stdout.readline()) < 5 * 1024:
            pass
        driver.kill()
    kept = each_shot_once(path)["d3"][0]
    assert kept >= 5 * 1024
    shots = kept + 55 * 1024
    whole = {"d3": (shots, errors_in("d3", shots))}
    assert sums_of({"d3": MODELS["d3"]}, ("nothing", deciding.nothing), shots=shots, seed=4, save=path) == whole
    assert each_shot_once(path)["d3"][0] == shots


def test_predictions_of_a_wrong_shape_are_told():
    with pytest.raises(ValueError, match="shots, observables"):
        sums_of(MODELS, deciding.too_few, shots=10, seed=4)


def test_counting_starts_at_the_call(tmp_path):
    with ThreadPoolExecutor(2) as executor:
        begun = threading.Event()

        def decoder(model):
            begun.set()
            return deciding.nothing(model)

        counting = stabsim.collect(MODELS, ("nothing", decoder), shots=5000, seed=4, executor=executor, save=tmp_path / "counts.csv")
        assert begun.wait(60)
        counting.close()
    # Without an executor too.
    begun.clear()
    with stabsim.collect(MODELS, ("nothing", decoder), shots=5000, seed=4):
        assert begun.wait(60)


def test_a_counting_that_is_closed_lets_its_file_go(tmp_path):
    path = tmp_path / "counts.csv"
    words = {"seed": 4, "save": path, "part_shots": 1024}
    counting = stabsim.collect(MODELS, deciding.nothing, shots=50_000, **words)
    next(counting)
    with pytest.raises(stabsim.OtherExperiment, match="another process"):
        stabsim.collect(MODELS, deciding.nothing, shots=50_000, **words)
    counting.close()
    assert list(counting) == []
    some = each_shot_once(path)
    assert sums_of(MODELS, deciding.nothing, shots=3000, **words) == each_shot_once(path) and some["d3"][0] < 50_000
    # One that nobody holds any more is closed, and one that fails too.
    del counting
    stabsim.collect(MODELS, deciding.nothing, shots=50_000, **words)
    with pytest.raises(ZeroDivisionError):
        list(stabsim.collect(MODELS, ("other", lambda model: lambda detectors: 1 // 0), shots=50_000, **words))
    assert sums_of(MODELS, deciding.nothing, shots=3000, **words)["d3"][0] >= 3000


@pytest.mark.parametrize("wrong, kind, why", [
    ({"models": [MODELS["d3"]]}, TypeError, "by name"), ({"models": {"d3": "M 0"}}, TypeError, "by name"), ({"decoder": 5}, TypeError, "a function"),
    ({"decoder": ("name", 5)}, TypeError, "a function"), ({"seed": "4"}, TypeError, "seed"), ({"shots": -1}, ValueError, "shots"),
    ({"errors": 0}, ValueError, "errors"), ({"waiting": 0}, ValueError, "waiting"), ({"part_shots": 0}, ValueError, "part_shots"),
    ({"part_shots": 1e3}, TypeError, "part_shots is 1000.0.*give a whole number"), ({"seed": True}, TypeError, "seed is True"),
    ({"metadata": {"d4": {}}}, ValueError, "no model"), ({"metadata": {"d3": {"x": object()}}}, TypeError, "JSON"), ({"executor": 4}, TypeError, "executor is 4"),
    ({"postselect": np.zeros(24, bool)}, TypeError, "postselect is .* give bool arrays by the names"),
    ({"postselect": {"d3": [True]}}, ValueError, "postselect of d3"), ({"postselect": lambda model: np.zeros(model.num_detectors)}, ValueError, "postselect"),
])
def test_wrong_arguments_are_told_by_the_call(wrong, kind, why, tmp_path):
    words = {"models": MODELS, "decoder": deciding.nothing, "shots": 10, "seed": 4, "save": tmp_path / "counts.csv", **wrong}
    with pytest.raises(kind, match=why):
        stabsim.collect(words.pop("models"), words.pop("decoder"), **words)
    assert not (tmp_path / "counts.csv").exists()


def test_models_are_forgotten_once_they_are_counted():
    counting = stabsim.collect(MODELS, deciding.nothing, shots=3000, seed=4, part_shots=1024)
    next(counting)
    assert counting.experiment in held.loads
    # All parts are wanted, so none is under way once the last is counted.
    assert [it.shots for it in counting][-1] == 3000
    assert counting.experiment not in held.loads


def test_metadata_is_kept(tmp_path):
    path = tmp_path / "counts.csv"
    metadata = {"d3": {"d": 3, "p": 0.03, "tags": ["a", "b, c"]}}
    found = {it.name: it.metadata for it in stabsim.collect(MODELS, deciding.nothing, shots=2048, seed=4, save=path, metadata=metadata, part_shots=1024)}
    assert found == {"d3": metadata["d3"], "d5": {}}
    with open(path, newline="") as file:
        kept = [(row["name"], row["metadata"]) for row in csv.DictReader(file)]
    assert len(kept) == 4 and all(json.loads(said) == metadata["d3"] if name == "d3" else said == "" for name, said in kept)
    # A later call keeps it, or says something else.
    again = {it.name: it for it in stabsim.collect(MODELS, deciding.nothing, shots=3072, seed=4, save=path)}
    assert {name: it.metadata for name, it in again.items()} == found
    other = {"d3": {"d": 4}, "d5": {"d": 6}}
    later = {it.name: it for it in stabsim.collect(MODELS, deciding.nothing, shots=4096, seed=4, save=path, metadata=other)}
    assert {name: it.metadata for name, it in later.items()} == other == {it.name: it.metadata for it in stabsim.combine(path)}


def masks_of(model):
    """Every other detector of a model, bool (detectors,)."""
    return np.arange(model.num_detectors) % 2 == 0


@pytest.mark.parametrize("kind", [None, ProcessPoolExecutor])
def test_shots_with_certain_detectors_are_discarded(kind, tmp_path):
    path = tmp_path / "counts.csv"
    with kind(2) if kind else contextlib.nullcontext() as executor:
        counted = {it.name: it for it in stabsim.collect(MODELS, deciding.lookup, shots=5000, seed=4, save=path, postselect=masks_of, part_shots=1024,
                                                         executor=executor)}
    for name, model in MODELS.items():
        detectors, observables = model.sample(5000, seed=seed_of(name, 4))
        kept = ~detectors[:, masks_of(model)].any(axis=1)
        wrong = (deciding.lookup(model)(detectors[kept]) != observables[kept]).any(axis=1)
        assert 0 < kept.sum() < 5000 and counted[name].kept == kept.sum()
        assert (counted[name].shots, counted[name].discards, counted[name].errors) == (5000, 5000 - kept.sum(), wrong.sum())
        assert counted[name].rate().best == wrong.sum() / kept.sum()
    # Gone on with the same masks, here by names, and with no others.
    by_name = {name: masks_of(model) for name, model in MODELS.items()}
    again = {it.name: it for it in stabsim.collect(MODELS, deciding.lookup, shots=5000, seed=4, save=path, postselect=by_name)}
    assert {name: (it.shots, it.discards, it.errors) for name, it in again.items()} == {
        name: (it.shots, it.discards, it.errors) for name, it in counted.items()}
    for other in (None, {"d3": ~masks_of(MODELS["d3"]), "d5": by_name["d5"]}):
        with pytest.raises(stabsim.OtherExperiment, match="d3"):
            stabsim.collect(MODELS, deciding.lookup, shots=5000, seed=4, save=path, postselect=other)


def test_a_file_of_fewer_columns_is_gone_on_with(tmp_path):
    path = tmp_path / "counts.csv"
    short = "name,decoder,model,seed,first_shot,shots,errors,seconds\n"
    first = short + f"d3,deciding.nothing,{MODELS['d3'].fingerprint},{seed_of('d3', 4)},0,1024,{errors_in('d3', 1024)},0.500000\n"
    path.write_text(first)
    assert sums_of(MODELS, deciding.nothing, shots=3000, seed=4, save=path) == {name: (3000, errors_in(name, 3000)) for name in MODELS}
    assert path.read_text().startswith(first) and each_shot_once(path)["d3"] == (3000, errors_in("d3", 3000))
    for more in ({"metadata": {"d3": {"d": 3}}}, {"postselect": masks_of}):
        with pytest.raises(stabsim.OtherExperiment, match="count anew"):
            stabsim.collect(MODELS, deciding.nothing, shots=3000, seed=4, save=path, **more)


class Pickled(deciding.Decoding):
    """A decoder that counts how often it is sent."""

    times = 0

    def __reduce__(self):
        Pickled.times += 1
        return deciding.Decoding, ()


def test_models_are_sent_to_workers_and_not_with_each_part():
    Pickled.times = 0
    with ProcessPoolExecutor(2) as executor:
        found = sums_of(MODELS, ("nothing", Pickled()), shots=50 * 1024, seed=4, part_shots=1024, executor=executor)
    assert found == {name: (50 * 1024, errors_in(name, 50 * 1024)) for name in MODELS}
    # Two models and two processes, and some more if a part with a model met a process that had it.
    assert 2 <= Pickled.times <= 20


def test_how_much_is_enough_must_be_said():
    with pytest.raises(ValueError, match="enough"):
        sums_of(MODELS, deciding.nothing, seed=4)


def test_progress_is_shown_on_a_terminal_alone(capfd):
    pytest.importorskip("tqdm")
    sums_of(MODELS, deciding.nothing, shots=10, seed=4)
    assert capfd.readouterr().err == ""
    leader, follower = os.openpty()
    code = DRIVER.replace("SHOTS", "3 * 1024").replace("sys.argv[1]", "None")
    subprocess.run([sys.executable, "-c", code], stdout=subprocess.DEVNULL, stderr=follower, check=True)
    os.close(follower)
    shown = os.read(leader, 65536)
    os.close(leader)
    assert b"1/1 " in shown and b"3072 shots" in shown


def test_without_tqdm_there_is_no_line():
    leader, follower = os.openpty()
    code = "import sys; sys.modules['tqdm'] = None\n" + DRIVER.replace("SHOTS", "3 * 1024").replace("sys.argv[1]", "None")
    done = subprocess.run([sys.executable, "-c", code], stdout=subprocess.PIPE, stderr=follower, check=True, text=True)
    os.set_blocking(leader, False)
    os.close(follower)
    try:
        assert os.read(leader, 65536) == b""
    except (BlockingIOError, OSError):
        pass
    os.close(leader)
    assert done.stdout.split() == ["1024", "2048", "3072"]
