"""Decomposed error models: against the definition, by all ways to cut each error apart, and decoded by an exact matching."""

import dataclasses
import functools
import math

import numpy as np
import pytest
import stabsim
from stabsim import codes
from stabsim.collecting import matching
from stabsim.noise.decomposing import Table, parts_of, ways_of_each

NOISE = codes.Noise.uniform(0.004)
TEXTS = {
    "surface code": codes.surface_code(3, 3, noise=NOISE),
    "surface code, logical X": codes.surface_code(4, 2, basis="X", noise=NOISE),
    "surface code, bad schedule": codes.surface_code(3, 2, noise=NOISE, bad_schedule=True),
    "surface code, phenomenological": codes.surface_code(5, 2, noise=codes.Noise.phenomenological(0.01)),
    "repetition code": codes.repetition_code(5, 4, noise=NOISE),
    "Bacon-Shor code": codes.bacon_shor_code(4, 3, noise=NOISE),
    "colour code": codes.colour_code(3, 3, noise=NOISE),
    "Steane code": codes.steane_code(3, noise=NOISE),
}
# Errors on the middle of a colour code of distance 5 flip three faces, none of which an error flips alone.
HARD = codes.colour_code(5, 2, noise=NOISE)


@functools.cache
def model_of(text, **words):
    return stabsim.error_model(text, **words)


def lines_of(model):
    """Each error of a model's text: its chance, and what each of its parts flips."""
    found = []
    for line in model.dem.splitlines():
        if line.startswith("error("):
            chance, _, targets = line[len("error("):].partition(") ")
            found.append((float(chance), [frozenset(part.split()) for part in targets.split(" ^ ")]))
    return found


def seen_by(targets):
    return sorted(it for it in targets if it.startswith("D"))


def ways_to_cut(targets, edges):
    """All sets of edges, each of one or two detectors, that flip these detectors, each once: as what they flip of the observables,
    and their chances. edges: by their detectors, pairs of the observables and the chance."""
    if not targets:
        yield frozenset(), []
        return
    first, rest = targets[0], targets[1:]
    for others in [(), *((other,) for other in rest)]:
        for observables, chance in edges.get(frozenset((first, *others)), []):
            for more, chances in ways_to_cut([it for it in rest if it not in others], edges):
                yield observables ^ more, [chance, *chances]


@pytest.mark.parametrize("name", TEXTS)
def test_each_error_is_the_likeliest_errors_of_two_detectors_that_flip_the_same(name):
    whole, cut = lines_of(model_of(TEXTS[name])), lines_of(model_of(TEXTS[name], decompose=True))
    chances = {targets: chance for chance, [targets] in whole}
    edges = {}
    for targets, chance in chances.items():
        if 1 <= len(seen_by(targets)) <= 2:
            edges.setdefault(frozenset(seen_by(targets)), []).append((targets - set(seen_by(targets)), chance))
    assert [chance for chance, _ in cut] == [chance for chance, _ in whole]
    taken_apart = 0
    for (_, [targets]), (_, parts) in zip(whole, cut, strict=True):
        if len(seen_by(targets)) <= 2:
            assert parts == [targets]
            continue
        taken_apart += 1
        assert len(parts) > 1 and all(part in chances and len(seen_by(part)) <= 2 for part in parts)
        # No detector comes twice, and detectors and observables add up.
        assert sorted(it for part in parts for it in seen_by(part)) == seen_by(targets)
        assert functools.reduce(frozenset.symmetric_difference, parts) == targets
        ways = ways_to_cut(seen_by(targets), edges)
        likeliest = max(math.prod(some) for observables, some in ways if observables == targets - set(seen_by(targets)))
        assert math.isclose(math.prod(chances[part] for part in parts), likeliest, rel_tol=1e-9)
    assert taken_apart > 0 or name == "repetition code"


def test_what_has_no_parts_is_told_or_stays_whole():
    with pytest.raises(stabsim.NotDecomposed, match="ignore_decomposition_failures"):
        model_of(HARD, decompose=True)
    whole, cut = lines_of(model_of(HARD)), lines_of(model_of(HARD, decompose=True, ignore_decomposition_failures=True))
    alone = {targets for _, [targets] in whole if len(seen_by(targets)) <= 2}
    left_whole = [parts[0] for _, parts in cut if len(parts) == 1 and len(seen_by(parts[0])) > 2]
    assert left_whole and not any(targets in alone for targets in left_whole)
    assert all(part in alone for _, parts in cut if len(parts) > 1 for part in parts)


def test_parts_have_the_observables_that_add_up():
    # The error on three qubits can be cut in two ways; one of them lacks the observable.
    text = "R 0 1 2 3\nE(0.1) X0 X1 X2\nE(0.01) X0\nE(0.01) X1 X2\nE(0.2) X0 X3\nM 0 1 2 3\n" \
           "DETECTOR rec[-4]\nDETECTOR rec[-3]\nDETECTOR rec[-2]\nOBSERVABLE_INCLUDE(0) rec[-1]\n"
    assert stabsim.error_model(text, decompose=True).dem.splitlines()[:4] == [
        "error(0.01) D0", "error(0.1) D0 ^ D1 D2", "error(0.2) D0 L0", "error(0.01) D1 D2"]
    flipped = text.replace("E(0.1) X0 X1 X2", "E(0.1) X0 X1 X2 X3")
    assert "error(0.1) D0 L0 ^ D1 D2" in stabsim.error_model(flipped, decompose=True).dem.splitlines()
    with pytest.raises(stabsim.NotDecomposed, match="the first is D0 D1 D2 L0"):
        stabsim.error_model(flipped.replace("E(0.2) X0 X3\n", ""), decompose=True)


def test_a_model_is_the_same_decomposed_but_for_its_parts():
    one, other = model_of(TEXTS["surface code"]), model_of(TEXTS["surface code"], decompose=True)
    assert one.parts is None and len(other.parts) == len(other)
    assert np.array_equal(one.chances, other.chances) and np.array_equal(one.indices, other.indices)
    assert all(map(np.array_equal, one.sample(100, seed=3), other.sample(100, seed=3)))
    # Counts of one are not those of the other, since a decoder looks at the parts.
    assert one.fingerprint != other.fingerprint


def test_an_error_of_very_many_detectors_is_cut_apart():
    # One that flips all detectors and the observable, one of two detectors for each pair of neighbours, and one with the observable.
    count = 2000
    flips = [list(range(count + 1)), *([it, it + 1] for it in range(count - 1)), [0, 1, count]]
    indptr = np.cumsum([0, *map(len, flips)])
    parts = parts_of(np.full(len(flips), 0.1), indptr, np.concatenate(flips), count, False)
    assert sorted(parts[0]) == [*range(3, count, 2), count] and parts[1:] == tuple((it,) for it in range(1, len(flips)))


def random_model(numbers, observables):
    """Mechanisms of one to four of nine detectors, and of some observables, in the order of what they flip."""
    flips = set()
    for _ in range(numbers.integers(5, 60)):
        seen = numbers.choice(9, size=numbers.integers(1, 5), replace=False).tolist()
        some = [9 + it for it in range(observables) if numbers.random() < 0.3]
        flips.add(tuple(sorted(seen) + some))
    return sorted(map(list, flips))


@pytest.mark.parametrize("seed", range(30))
@pytest.mark.parametrize("observables", [1, 2, 64, 65])
def test_all_at_once_and_one_by_one_find_parts_as_likely(seed, observables):
    numbers = np.random.default_rng([seed, observables])
    # Of many observables the first two and the last two are flipped.
    names = [0, 1, observables - 2, observables - 1] if observables > 4 else list(range(observables))
    flips = [[it if it < 9 else 9 + names[it - 9] for it in flip] for flip in random_model(numbers, len(names))]
    chances = numbers.choice([0.1, 0.2, 0.05], size=len(flips))
    indptr, indices = np.cumsum([0, *map(len, flips)]), np.concatenate(flips)
    found = parts_of(chances, indptr, indices, 9, True)
    sizes = np.array([sum(it < 9 for it in flip) for flip in flips])
    alone = ways_of_each(Table(-np.log(chances), indptr, indices, 9, sizes), np.flatnonzero(sizes > 2).tolist())
    for number, parts in enumerate(found):
        other = alone.get(number, (number,))
        assert np.isclose(np.log(chances[list(parts)]).sum(), np.log(chances[list(other)]).sum(), atol=1e-12)
        assert functools.reduce(set.symmetric_difference, (set(flips[part]) for part in parts)) == set(flips[number])
        seen = [it for part in parts for it in flips[part] if it < 9]
        assert len(set(seen)) == len(seen) and (sizes[list(parts)] <= 2).all() or parts == (number,)


@pytest.mark.parametrize("text", [codes.repetition_code(3, 2, noise=NOISE), codes.surface_code(2, 1, noise=NOISE)],
                         ids=["repetition", "surface"])
def test_the_matching_is_the_likeliest_set_of_errors(text):
    """Of all sets of edges, which are up to 2**16, the likeliest with just these detectors flips what the matching says."""
    model = model_of(text, decompose=True)
    edges = [(ends, data) for *ends, data in matching.graph_of(model).edges(data=True)]
    sets = np.arange(2 ** len(edges))[:, None] >> np.arange(len(edges)) & 1
    weights = sets @ [data["weight"] for _, data in edges]
    flips = np.array([[it in ends for it in range(model.num_detectors)] + [data["flips"]] for ends, data in edges], dtype=int)
    found = sets @ flips % 2
    lightest = {}
    for row, weight in sorted(zip(map(tuple, found.tolist()), weights.tolist(), strict=True), key=lambda pair: pair[1]):
        lightest.setdefault(row, weight)
    decoder = matching.Matching(model)
    seen = {row[:-1] for row in lightest}
    assert len(seen) == 2**model.num_detectors
    for detectors in seen:
        ways = [lightest.get((*detectors, flip), math.inf) for flip in (0, 1)]
        if not math.isclose(*ways):
            assert decoder.decode(np.flatnonzero(detectors).tolist()) == int(ways[1] < ways[0])


def errors_of(distance, shots):
    """In which shots a surface code has a logical error: by matching over the parts of all errors, and by matching that leaves out
    errors of three detectors and more, each bool (shots,). Both see the same shots."""
    model = stabsim.error_model(codes.surface_code(distance, distance, noise=NOISE), decompose=True)
    detectors, observables = model.sample(shots, seed=distance)
    return [(matching.decoder(it)(detectors) != observables).any(axis=1) for it in (model, dataclasses.replace(model, parts=None))]


def test_matching_by_parts_makes_fewer_logical_errors_and_fewer_with_more_distance():
    counted = {distance: errors_of(distance, shots) for distance, shots in ((3, 20_000), (5, 3000), (7, 300))}
    for distance, (with_parts, without) in counted.items():
        better, worse = (without & ~with_parts).sum(), (with_parts & ~without).sum()
        # What a coin would do in the shots in which the two differ has this standard deviation.
        deviation = math.sqrt(better + worse)
        # At distance 3 they differ by more; a few shots of more distance show no difference, and docs/use/python.md has the rates of many.
        assert better - worse > 3 * deviation if distance == 3 else abs(int(better) - int(worse)) <= 3 * deviation
    rates = [with_parts.mean() for with_parts, _ in counted.values()]
    assert rates[0] > rates[1] > rates[2]
