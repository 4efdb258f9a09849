"""The triangular colour code of hexagons, whose faces are measured whole, by MPP, without qubits of their own."""

from stabsim.codes.noise import Noise
from stabsim.codes.text import Memory, Text

# The greatest distance of a colour code whose qubits are numbered below 1,024.
MOST_DISTANCE = 35

# The six neighbours of a place in the triangular lattice, whose rows are half a step apart.
AROUND = ((-2, 0), (-1, -1), (1, -1), (2, 0), (1, 1), (-1, 1))


def colour_memory(distance: int, noise: Noise | None = None) -> Memory:
    """The triangular colour code of an odd distance, as a memory of a logical 0."""
    if distance % 2 == 0:
        raise ValueError("the distance of a colour code is odd")
    side = distance + distance // 2
    rows = [[(2 * x + y, y) for x in range(side - y)] for y in range(side)]
    # Every third place of the triangular lattice is the middle of a face, and data qubits lie around it.
    faces = [place for y, row in enumerate(rows) for x, place in enumerate(row) if (x + 2 * y) % 3 == 2]
    data = [place for row in rows for place in row if place not in faces]
    number = {place: i for i, place in enumerate(data)}
    around = [[(face[0] + x, face[1] + y) for x, y in AROUND] for face in faces]
    groups = [sorted(number[place] for place in places if place in number) for places in around]

    def measure_faces(text: Text) -> None:
        text.round_begins(list(number.values()))
        text.add("TICK")
        text.products("X", groups)
        text.add("TICK")
        text.products("Z", groups)

    each = len(faces)
    head = Text(noise)
    for place in data:
        head.add(f"QUBIT_COORDS({place[0]}, {place[1]}) {number[place]}")
    head.reset("R", list(number.values()))
    measure_faces(head)
    for i, face in enumerate(faces):
        head.detector(face + (0, 1), [each - i])

    body = Text(noise)
    measure_faces(body)
    body.add("SHIFT_COORDS(0, 0, 1)")
    # The last coordinate says the letter: 0 for X, 1 for Z.
    for letter in (0, 1):
        for i, face in enumerate(faces):
            back = (2 - letter) * each - i
            body.detector(face + (0, letter), [back, back + 2 * each])

    tail = Text(noise)
    tail.measure("M", list(number.values()))
    for i, face in enumerate(faces):
        of_data = sorted(len(data) - qubit for qubit in groups[i])
        tail.detector(face + (1, 1), of_data + [len(data) + each - i])
    tail.observable(0, sorted(len(data) - number[place] for place in data if place[1] == 0))
    return Memory(f"Colour code of distance {distance}", head, body, tail)
