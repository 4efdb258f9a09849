"""Shots in parts are the shots of one run, whoever takes them."""

import multiprocessing
import os
import signal
from concurrent.futures import ProcessPoolExecutor, ThreadPoolExecutor

import numpy as np
import pytest
import stabsim
from stabsim import codes
from stabsim.shots import shot_parts

CIRCUIT = stabsim.Circuit(codes.surface_code(3, 2).replace("R 1", "R 1 1"))
SHOTS = 150


def test_parts_join_to_the_shots_of_one_run():
    whole = CIRCUIT.sample(SHOTS, seed=8)
    with ThreadPoolExecutor(3) as executor:
        for parts in (1, 7, 64):
            assert np.array_equal(CIRCUIT.sample(SHOTS, seed=8, executor=executor, parts=parts), whole)


def test_later_shots_are_those_of_a_longer_run():
    whole = CIRCUIT.sample(200, seed=8)
    for first, shots in [(0, 1), (1, 63), (63, 65), (199, 1)]:
        assert np.array_equal(CIRCUIT.sample(shots, seed=8, first_shot=first), whole[first : first + shots])


def test_processes_give_the_same_detectors_and_observables():
    whole = CIRCUIT.detect(SHOTS, seed=8, separate_observables=True)
    with ProcessPoolExecutor(2, mp_context=multiprocessing.get_context("spawn")) as executor:
        split = CIRCUIT.detect(SHOTS, seed=8, separate_observables=True, executor=executor, parts=5)
    assert all(map(np.array_equal, whole, split))


def test_workers_of_dask_give_the_same_though_one_is_killed(tmp_path):
    distributed = pytest.importorskip("distributed")
    whole = CIRCUIT.sample(SHOTS, seed=8)
    with distributed.LocalCluster(n_workers=2, threads_per_worker=1, dashboard_address=None, local_directory=str(tmp_path)) as cluster, \
            distributed.Client(cluster) as client:
        [first, _] = client.run(os.getpid).values()
        parts = client.get_executor()
        waiting = parts.submit(os.kill, os.getpid(), 0)
        waiting.result()
        os.kill(first, signal.SIGKILL)
        assert np.array_equal(CIRCUIT.sample(SHOTS, seed=8, executor=parts, parts=20), whole)


def test_parts_are_all_of_the_shots_in_their_order():
    for count in (0, 1, 5, 64, 2_500_001):
        for parts in (1, 3, 64):
            split = list(shot_parts.split(shot_parts.Shots("", "sample", 0, 10, count), parts))
            assert all(it.count <= shot_parts.MOST_SHOTS for it in split)
            assert sum(it.count for it in split) == count
            assert [it.first for it in split] == [10 + sum(other.count for other in split[:place]) for place in range(len(split))]
            assert len(split) <= max(count, 1)


def test_packed_shots_and_chunks_are_the_same_bits():
    circuit = stabsim.Circuit(codes.surface_code(3, 2) + "H 0\nM 0\nDETECTOR rec[-1]\n")
    records = circuit.sample(100, seed=3, first_shot=5)
    detectors, observables = circuit.detect(100, seed=3, first_shot=5, separate_observables=True)
    assert detectors.any() and np.array_equal(detectors, circuit.detect(100, seed=3, first_shot=5))

    def packed(bits):
        return np.packbits(bits, axis=1, bitorder="little")

    found = circuit.sample(100, seed=3, first_shot=5, bit_packed=True)
    assert found.dtype == np.uint8 and found.seed == 3 and np.array_equal(found, packed(records))
    assert np.array_equal(circuit.detect(100, seed=3, first_shot=5, bit_packed=True), packed(detectors))
    both = circuit.detect(100, seed=3, first_shot=5, separate_observables=True, bit_packed=True)
    assert np.array_equal(both[0], packed(detectors)) and np.array_equal(both[1], packed(observables))
    for chunk in (1, 33, 100, 200):
        parts = list(circuit.iter_sample(100, chunk, seed=3, first_shot=5))
        assert np.array_equal(np.concatenate(parts), records) and max(map(len, parts)) <= chunk
        assert np.array_equal(np.concatenate(list(circuit.iter_sample(100, chunk, seed=3, first_shot=5, bit_packed=True))), packed(records))
        pairs = list(zip(*circuit.iter_detect(100, chunk, seed=3, first_shot=5)))
        assert np.array_equal(np.concatenate(pairs[0]), detectors) and np.array_equal(np.concatenate(pairs[1]), observables)
    # All chunks are of one seed, also if it is drawn afresh.
    drawn = list(circuit.iter_sample(10, 3))
    assert np.array_equal(np.concatenate(drawn), circuit.sample(10, seed=drawn[0].seed))
    with pytest.raises(ValueError):
        circuit.iter_sample(10, 0)
