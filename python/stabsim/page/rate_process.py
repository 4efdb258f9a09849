"""The process that counts logical errors for the page: it reads a question, as a line of JSON with the circuit after it, and writes a line,
as JSON, whenever more shots are counted (rates.py)."""

import json
import signal
import sys
from collections.abc import Iterator

import stabsim
from stabsim import program
from stabsim.collecting import matching
from stabsim.page.board import Message
from stabsim.page.noise import OWN, has_noise, model_of, quiet

# It is counted until there are this many shots or errors, by parts of a size.
MOST_SHOTS, ENOUGH_ERRORS, PART = 1_000_000, 500, 1024


def main() -> None:
    """Answers one question. Ctrl-C ends the server, and by that this."""
    signal.signal(signal.SIGINT, signal.SIG_IGN)
    question = json.loads(sys.stdin.buffer.readline())
    text = program.text_of(sys.stdin.buffer.read(question["bytes"]))
    try:
        for said in counted(text, str(question["model"]), float(question["chance"])):
            tell(said)
    except ModuleNotFoundError as missing:
        tell({"refused": f"the decoder by matching needs {missing.name}"})
    except (stabsim.StabsimError, ValueError) as fault:
        tell({"refused": str(fault)})


def counted(text: str, name: str, chance: float) -> Iterator[Message]:
    """What is counted so far of a circuit with its own noise, or in its place with that of a model of the literature."""
    model = stabsim.error_model(noisy_of(text, name, chance), decompose=True, ignore_decomposition_failures=True, approximate_disjoint_errors=True)
    if not model.num_observables:
        raise ValueError("the circuit has no observable")
    for sums in stabsim.collect({name: model}, ("matching", matching.decoder), shots=MOST_SHOTS, errors=ENOUGH_ERRORS, seed=0, part_shots=PART):
        yield {"shots": sums.shots, "errors": sums.errors, "rate": list(sums.rate())}


def noisy_of(text: str, name: str, chance: float) -> str | stabsim.Circuit:
    """A circuit with the noise that has a name."""
    if name != OWN:
        return model_of(name, chance).on(quiet(text))
    if not has_noise(text):
        raise ValueError("the circuit has no noise")
    return text


def tell(said: Message) -> None:
    sys.stdout.write(json.dumps(said) + "\n")
    sys.stdout.flush()


if __name__ == "__main__":
    main()
