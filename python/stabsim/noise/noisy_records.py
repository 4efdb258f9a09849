"""Records of shots with noise: those of shots without it, flipped by the errors that happen.

A record that no others before it determine is random, whatever errors happen, so none need flip it. Each other record makes, with some
before it, a parity that no coin decides, and is flipped as that parity is and those records are. So what errors flip among these parities
gives the records their exact distribution.
"""

from dataclasses import dataclass

import numpy as np
from numpy.typing import NDArray

from stabsim.errors import Refused
from stabsim.formats import bits
from stabsim.noise import drawing
from stabsim.noise.flipped import Flipped
from stabsim.noise.marked_faults import MARKS_COUNT
from stabsim.noise.marking import marked
from stabsim.noise.models import ErrorModel, model_of
from stabsim.questions.beginnings import recorded
from stabsim.questions.missing import short_parities
from stabsim.questions.parities import detector_lines
from stabsim.text.profile import Profile
from stabsim.text.reading import without
from stabsim.text.sizes import sizes_of

# What declares detectors and observables.
DECLARING = ("DETECTOR", "OBSERVABLE_INCLUDE")
# The most shots whose records are flipped together.
TOGETHER = 8 * drawing.BLOCK


@dataclass(frozen=True)
class RecordNoise:
    """What noise flips among records.

    model: of errors, which flip parities; parities: for each the record that ends it, and those before that; records: how many there are.
    """

    model: ErrorModel
    parities: list[tuple[int, list[int]]]
    records: int

    def drawn(self, shots: int, seed: int, first_shot: int) -> NDArray[np.uint8]:
        """The records that are flipped in shots first_shot, first_shot + 1 .. of a seed, packed."""
        found = np.zeros((shots, bits.bytes_of_shot(self.records)), dtype=np.uint8)
        for first, count in drawing.parts_of_shots(shots, first_shot, TOGETHER):
            parts = [bits.packed(self.model.drawn(some, seed, begin, as_it_is=True))
                     for begin, some in drawing.parts_of_shots(count, first, drawing.BLOCK)]
            found[first - first_shot :][:count] = self.flipped(np.concatenate(parts))
        return found

    def flipped(self, parities: NDArray[np.uint8]) -> NDArray[np.uint8]:
        """The records that are flipped in shots with these parities. A record's flips are the digits of a number, so that those of all shots
        are added at once."""
        width = bits.bytes_of_shot(len(parities))
        of_shots = np.pad(parities, ((0, -len(parities) % 8), (0, 0)))
        found = [0] * (8 * bits.bytes_of_shot(self.records))
        for row, (record, before) in zip(bits.transposed(of_shots), self.parities):
            flips = int.from_bytes(row.tobytes(), "little")
            for other in before:
                flips ^= found[other]
            found[record] = flips
        of_records = np.frombuffer(b"".join(flips.to_bytes(width, "little") for flips in found), dtype=np.uint8)
        return bits.transposed(of_records.reshape(-1, width))[: len(parities)]


def record_noise_of(profile: Profile) -> RecordNoise:
    """What the noise of a circuit flips among its records."""
    quiet = tuple(without(profile.circuit.items(), DECLARING))
    resets = recorded(quiet, sizes_of(quiet).qubits)
    # Those of resets are 0, and no error flips them.
    numbers = {place: record for record, place in enumerate(resets.places)}
    parities = [sorted(numbers[it] for it in its if it in numbers) for its in short_parities(resets)[0]]
    circuit = marked(tuple(without(profile.noisy.items(), DECLARING)), True)
    try:
        flipped = Flipped.of([circuit.text, detector_lines(parities, len(numbers))], len(parities), 0)
    except Refused as refused:
        raise Refused(refused.number, refused.name, None, MARKS_COUNT if refused.name == "TooManySteps" else "") from None
    model = model_of(circuit, flipped, np.zeros((len(parities), 0)), profile)
    return RecordNoise(model, [(last, before) for *before, last in parities], len(numbers))
