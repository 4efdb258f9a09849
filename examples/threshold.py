"""The threshold experiment: logical error rates of surface codes of distance 3, 5 and 7, counted with all cores and drawn.

    PYTHONPATH=python python3 examples/threshold.py threshold.png
    PYTHONPATH=python python3 examples/threshold.py --errors 1000 --save counts.csv threshold.png

Each code runs for as many rounds as its distance, with noise of one parameter, which is circuit-level. The decoder is the package's
minimum-weight perfect matching, by networkx, which is slow. Counting goes on from the file of --save. It needs Debian's python3-numpy,
python3-networkx and python3-matplotlib; matplotlib is asked for only if something is drawn.
"""

import argparse
import itertools
from concurrent.futures import ProcessPoolExecutor

import stabsim
from stabsim import codes
from stabsim.collecting.matching import decoder

DISTANCES = (3, 5, 7)
CHANCES = (0.003, 0.005, 0.007, 0.009, 0.011)


def name_of(distance: int, chance: float) -> str:
    return f"distance {distance}, chance {chance}"


def draw(counted: list[stabsim.Sums], path: str) -> None:
    """The rates, with bars over those that are less likely by up to a factor of 1,000."""
    import matplotlib

    matplotlib.use("Agg")
    from matplotlib import pyplot

    figure, axes = pyplot.subplots(figsize=(7, 4.6), dpi=110)
    stabsim.plot(counted, x="chance", group="distance", axes=axes)
    axes.set_xlabel("chance of an error of each gate, reset and measurement")
    # Codes of another model of noise would need a picture of their own.
    axes.set_title(f"Rotated surface code, {codes.NOISE_MODELS['surface_code']} noise, matching")
    axes.grid(True, which="both", alpha=0.3)
    figure.tight_layout()
    figure.savefig(path)


def main() -> None:
    words = argparse.ArgumentParser(description=__doc__, formatter_class=argparse.RawDescriptionHelpFormatter)
    words.add_argument("picture", nargs="?", help="the PNG to draw; without it the sums are printed alone")
    words.add_argument("--shots", type=int, default=20_000, help="how many shots of a model are enough (default 20000)")
    words.add_argument("--errors", type=int, default=200, help="how many logical errors of a model are enough (default 200)")
    words.add_argument("--seed", type=int, default=1)
    words.add_argument("--save", help="a file of counts, which is gone on from")
    given = words.parse_args()
    models = {}
    for distance, chance in itertools.product(DISTANCES, CHANCES):
        text = codes.surface_code(distance, distance, noise=codes.Noise.uniform(chance))
        models[name_of(distance, chance)] = stabsim.error_model(text, decompose=True)
    metadata = {name_of(distance, chance): {"distance": distance, "chance": chance} for distance in DISTANCES for chance in CHANCES}
    with ProcessPoolExecutor() as executor:
        counted = stabsim.collect(models, ("matching", decoder), shots=given.shots, errors=given.errors, seed=given.seed, executor=executor,
                                  save=given.save, part_shots=1024, metadata=metadata)
        sums = {it.name: it for it in counted}
    for name in models:
        print(f"{name}: {sums[name].errors} errors in {sums[name].shots} shots")
    if given.picture:
        draw([sums[name] for name in models], given.picture)


if __name__ == "__main__":
    main()
