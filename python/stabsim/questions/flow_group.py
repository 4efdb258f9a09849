"""All flows of a circuit, from the group that stabilises its qubits and their references, and from its coins."""

from collections.abc import Iterable, Sequence

from stabsim.questions.coins import CoinTable
from stabsim.questions.flows import Flow, measuring, with_references
from stabsim.questions.parities import local_parities
from stabsim.text import targets
from stabsim.text.targets import EXPONENTS, LETTERS, Product


def joint_rows(strings: Iterable[str], qubits: int) -> list[Product]:
    """The rows of a group, a signed letter for each qubit and then for each reference, without their signs and reduced: references come
    first, so that each row has as little of them as can be."""
    order = [*range(qubits, 2 * qubits), *range(qubits)]
    vectors = []
    for string in strings:
        vector = 0
        for qubit in order:
            x, z = EXPONENTS.get(string[1 + qubit], (0, 0))
            vector = vector << 2 | x << 1 | z
        vectors.append(vector)
    return [product_of(vector, order) for vector in reduced(vectors)]


def reduced(vectors: Iterable[int]) -> list[int]:
    """The reduced rows of vectors, which are digits of numbers, the greatest first."""
    rows: list[int] = []
    for vector in vectors:
        for row in rows:
            vector = min(vector, vector ^ row)
        if vector:
            # No other row keeps the leading digit of this one.
            top = 1 << (vector.bit_length() - 1)
            rows = sorted([row ^ vector if row & top else row for row in rows] + [vector], reverse=True)
    return rows


def product_of(vector: int, order: Sequence[int]) -> Product:
    """The letters of a vector of `joint_rows`."""
    found = {}
    for qubit in reversed(order):
        vector, pair = vector >> 2, (vector >> 1 & 1, vector & 1)
        if any(pair):
            found[qubit] = LETTERS[pair]
    return dict(sorted(found.items()))


def measured_text(text: str, rows: Iterable[Product], qubits: int) -> str:
    """A circuit with references, after which each row is measured."""
    return with_references(text, qubits) + measuring(rows)


def generators_of(table: CoinTable, rows: Sequence[Product], qubits: int) -> list[Flow]:
    """Flows of which all others are products: table is that of `measured_text`, whose last records are the signs of the rows."""
    records = table.num_records - len(rows)
    found = []
    for together in local_parities(table.columns(table.num_records), fixed=records):
        product = [rows[place - records] for place in sorted(together) if place >= records]
        its = [place - records for place in together if place < records]
        value = bool(table.constants()[list(together)].sum() % 2)
        found.append(flow_of(product, value, its, qubits))
    # Those that say of records alone come last.
    return sorted(found, key=lambda flow: not flow.input and not flow.output)


def flow_of(products: Iterable[Product], value: bool, records: Iterable[int], qubits: int) -> Flow:
    """The flow of the product of joint products whose sign, together with those of some records, is a value."""
    factors = [targets.text_of_product(False, product) for product in products if product]
    product = targets.multiplied("*".join(factors)) if factors else (False, {})
    assert product, "rows of a group commute"
    negative, letters = product
    output = tuple(sorted((qubit, letter) for qubit, letter in letters.items() if qubit < qubits))
    before = tuple(sorted((qubit - qubits, letter) for qubit, letter in letters.items() if qubit >= qubits))
    joint = Flow(before, output, False, tuple(sorted(records)))
    return Flow(before, output, joint.sign ^ value ^ negative, joint.records)


def within(flows: Sequence[Flow], qubits: Iterable[int] | None, has_records: bool, count: int) -> list[Flow]:
    """The flows of a group that are on some qubits alone, or without has_records name no records, from those that make it; count: how
    many qubits there are."""
    inside = set(range(count) if qubits is None else qubits)
    places: dict[tuple[str, int], int] = {}
    vectors = []
    for flow in flows:
        vector = 0
        for side, letters in (("input", flow.input), ("output", flow.output)):
            for qubit, letter in letters:
                if qubit not in inside:
                    x, z = EXPONENTS[letter]
                    vector ^= (x << 1 | z) << places.setdefault((side, qubit), 2 * len(places))
        for record in () if has_records else flow.records:
            vector ^= 1 << places.setdefault(("record", record), 2 * len(places))
        vectors.append(vector)
    return [product_of_flows([flows[place] for place in sorted(together)], count) for together in local_parities(vectors, fixed=0)]


def product_of_flows(flows: Sequence[Flow], qubits: int) -> Flow:
    """The product of flows of one circuit."""
    records: set[int] = set()
    value = False
    for flow in flows:
        records ^= set(flow.records)
        value ^= flow.sign
    return flow_of([flow.joint(qubits) for flow in flows], value, records, qubits)
