"""The laws of edits with noise, at random, as often as is asked for.

    PYTHONPATH=python python3 tools/noisy_edits.py --cases 10000 --seed 1 --processes 2

Each case edits a circuit with noise in a session. Its error model is then that of the edited text made anew, bit for bit, or both are refused
in the same words; and a text with comments is the edited text, line by line. The first case that is not so is raised, with its seed.
"""

import argparse
import pathlib
import sys
from concurrent.futures import ProcessPoolExecutor

TESTS = pathlib.Path(__file__).resolve().parents[1] / "python" / "tests"
# How many cases a circuit is edited for.
EACH = 20


def models_of(seed: int) -> int:
    """Some cases of models; how many of them have a model."""
    sys.path.insert(0, str(TESTS))
    from random_edits import models_agree

    seen: list[str] = []
    models_agree(seed, EACH, seen)
    return len(seen)


def texts_of(seed: int) -> int:
    """Some cases of texts."""
    sys.path.insert(0, str(TESTS))
    from random_texts import texts_agree

    texts_agree(seed, EACH)
    return EACH


def main() -> None:
    words = argparse.ArgumentParser(description=__doc__, formatter_class=argparse.RawDescriptionHelpFormatter)
    words.add_argument("--cases", type=int, default=200, help="how many of models, and of texts (default 200)")
    words.add_argument("--seed", type=int, default=0, help="of the first circuit (default 0)")
    words.add_argument("--processes", type=int, default=2, help="how many work at once (default 2)")
    given = words.parse_args()
    seeds = range(given.seed, given.seed - -given.cases // EACH)
    with ProcessPoolExecutor(given.processes) as executor:
        for name, law in (("models", models_of), ("texts", texts_of)):
            found = 0
            for done, its in enumerate(executor.map(law, seeds), start=1):
                found += its
                if done == len(seeds) or done % 5 == 0:
                    print(f"{name}: {done * EACH} cases, of which {found} were not refused", flush=True)


if __name__ == "__main__":
    main()
