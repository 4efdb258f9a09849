"""Which deterministic parities the detectors of a circuit don't give, and which of these may be observables in another form."""

import bisect
import functools
import itertools
import operator
from collections.abc import Iterable, Iterator, Sequence
from typing import NamedTuple

import numpy as np

from stabsim.errors import Refused
from stabsim.questions.asked import Asked
from stabsim.questions.beginnings import Recorded, recorded
from stabsim.questions.coins import CoinTable
from stabsim.questions.parities import Parity, Records, known_parities, local_parities
from stabsim.text.reading import items_of

RESETS_COUNT = "For missing detectors each reset is counted as three steps, and each qubit as two more: these are too many."


class Size(NamedTuple):
    """How large a parity's detecting region is: through how many instructions it lasts, and at how many resets it begins; and how many
    records the parity has."""

    moments: int
    resets: int
    records: int


class Basis:
    """A basis of the deterministic parities of a circuit, of which each lasts as little as any can.

    ordered: each parity, the smaller ones first, as the numbers of its records and of the resets at which its region begins; sizes: of
    each. classes: of each a number whose binary digit j says whether observable j is in it: detectors are sums in which none is left.
    """

    def __init__(self, parities: Iterable[Records], records: Iterable[int], moments: Sequence[int]) -> None:
        """records: which numbers are those of records; moments: for each number how many instructions are in front."""
        self.records = frozenset(records)
        self.moments = moments
        self.put(parities)
        self.put([self.lightened(its, place) for place, its in enumerate(self.ordered)])
        # By the last of some records a sum of parities that ends with it, and the places of these.
        self.ending: dict[int, tuple[Records, set[int]]] = {}
        for place, its in enumerate(self.ordered):
            left, places = self.rest(its)
            self.ending[max(left)] = left, places ^ {place}

    def put(self, parities: Iterable[Records]) -> None:
        """Takes parities for the basis."""
        self.ordered = sorted(parities, key=lambda it: (self.size_of(it), max(it)))
        self.sizes = list(map(self.size_of, self.ordered))
        self.classes = [0] * len(self.ordered)
        self.having: dict[int, list[int]] = {}
        for place, its in enumerate(self.ordered):
            for number in its:
                self.having.setdefault(number, []).append(place)

    def size_of(self, parity: Records) -> Size:
        """The size of a parity."""
        moments = [self.moments[it] for it in parity]
        records = len(parity & self.records)
        return Size(max(moments) - min(moments), len(parity) - records, records)

    def rest(self, parity: Records) -> tuple[Records, set[int]]:
        """What is left of a parity's records without sums of the basis that end as it does, and the places of these; nothing of one that
        no coin decides."""
        left, places = parity & self.records, set[int]()
        while left and max(left) in self.ending:
            others, its = self.ending[max(left)]
            left, places = left ^ others, places ^ its
        return left, places

    def sum_of(self, places: Iterable[int]) -> Records:
        """The sum of the parities at some places."""
        nothing: Records = frozenset()
        return functools.reduce(operator.xor, (self.ordered[place] for place in places), nothing)

    def class_of(self, places: Iterable[int]) -> int:
        """The class of that sum."""
        return functools.reduce(operator.xor, (self.classes[place] for place in places), 0)

    def lightened(self, parity: Records, place: int) -> Records:
        """A parity, made smaller as long as can be by one or two that are in front of a place, meet it, and have no class together."""
        best, is_smaller = parity, True
        while is_smaller:
            sums = filter(None, (best ^ its for its in self.near(best, place)))
            least = min(sums, key=self.size_of, default=best)
            is_smaller = self.size_of(least) < self.size_of(best)
            best = least if is_smaller else best
        return best

    def near(self, parity: Records, place: int) -> Iterator[Records]:
        """Those in front of a place that meet a parity and have no class, and sums of two of them that meet each other and have none."""
        some = sorted({it for number in parity for it in self.having[number] if it < place})
        yield from (self.ordered[it] for it in some if not self.classes[it])
        for one, other in itertools.combinations(some, 2):
            # If two that don't meet make it smaller then so does one of them.
            if self.classes[one] == self.classes[other] and not self.ordered[one].isdisjoint(self.ordered[other]):
                yield self.ordered[one] ^ self.ordered[other]


# For known sums of a basis, by the last of its places in each: these places, and the observables in it as a number in base 2.
Given = dict[int, tuple[set[int], int]]


def given_by(basis: Basis, detectors: Sequence[Records], observables: Sequence[Records]) -> Given:
    """What detectors and observables give; each sum has another last place."""
    found: Given = {}
    known = [*((its, 0) for its in detectors), *((its, 1 << number) for number, its in enumerate(observables))]
    for records, observable in known:
        left, places = basis.rest(records)
        places = set() if left else places
        while places and max(places) in found:
            others, other = found[max(places)]
            places, observable = places ^ others, observable ^ other
        if places:
            found[max(places)] = places, observable
    return found


def largest(basis: Basis, given: Given) -> list[tuple[Size, int]]:
    """The sizes from which on a parity may be an observable in another form, with that observable as a number in base 2: of the parity
    that each observable gives, or if none is given of the largest, if it begins at a reset."""
    found = [(basis.sizes[place], observable) for place, (_, observable) in given.items() if observable]
    return found or [(size, 1) for size in sorted(basis.sizes)[-1:] if size.resets]


def classify(basis: Basis, given: Given) -> None:
    """Finds the class of each parity of a basis. One that is in nothing less than an observable may be it in another form."""
    limits = largest(basis, given)
    for place, size in enumerate(basis.sizes):
        if place in given:
            places, observable = given[place]
            basis.classes[place] = observable ^ basis.class_of(places - {place})
        else:
            classes = (it for limit, it in limits if all(map(operator.ge, size, limit)))
            basis.classes[place] = functools.reduce(operator.or_, classes, 0)


def missing_of(basis: Basis, detectors: Sequence[Records], observables: Sequence[Records], is_all: bool) -> list[tuple[Records, bool]]:
    """The parities of a basis that detectors and observables don't give, each with whether it may be an observable in another form.

    If there are observables such a parity gives way to its sum with them, unless is_all: then observables give nothing.
    """
    given = given_by(basis, detectors, observables)
    classify(basis, given)
    is_all = is_all or not any(observable for _, observable in given.values())
    found = []
    for place, parity in enumerate(basis.ordered):
        if place in given and not (is_all and given[place][1]):
            continue
        within = [] if is_all else [its for number, its in enumerate(observables) if basis.classes[place] >> number & 1]
        whole = functools.reduce(operator.xor, (basis.sum_of(basis.rest(its)[1]) for its in within), parity)
        found.append((basis.lightened(whole, place), is_all and basis.classes[place] != 0))
    return found


def columns_of(table: CoinTable, first: int) -> tuple[Iterator[int], list[int]]:
    """The columns of records from a first one on, in whose digits the coins that come last are the lowest; and for each record how many come
    later."""
    rows = np.repeat(np.arange(len(table)), np.diff(table.indptr))
    last = np.zeros(len(table), dtype=np.int64)
    np.maximum.at(last, rows, table.indices)
    digits = np.argsort(np.argsort(-last, kind="stable"), kind="stable")
    order = np.argsort(table.indices, kind="stable")
    of_records = np.split(digits[rows[order]], np.searchsorted(table.indices[order], np.arange(first, table.num_records + 1)))[1:-1]
    later = len(table) - np.searchsorted(np.sort(last), np.arange(first, table.num_records), side="right")
    return (sum(1 << digit for digit in its.tolist()) for its in of_records), later.tolist()


def short_parities(circuit: Recorded, first: int = 0) -> tuple[list[Records], CoinTable]:
    """The parities of a circuit's records, those of its resets too, that no coin decides, as a basis: for each record that those before it
    determine one that ends with it, and begins as late as any can; and what coins flip. No parity has a record in front of a first one."""
    try:
        table = Asked("".join(circuit.lines)).coins()
    except Refused as refused:
        raise Refused(refused.number, refused.name, None, RESETS_COUNT) from None
    columns, later = columns_of(table, first)
    return [frozenset(it + first for it in its) for its in local_parities(columns, later=later)], table


def missing_detectors(text: str, qubits: int, unknown_input: bool, is_all: bool) -> list[Parity]:
    """What `Circuit.missing_detectors` answers of a circuit's text with this many qubits."""
    circuit = recorded(items_of(text), qubits)
    # The records of the states before the circuit come first. If these are unknown no parity has them.
    local, table = short_parities(circuit, qubits if unknown_input else 0)
    basis = Basis(local, circuit.places, circuit.moments)
    detectors, observables = ([frozenset(circuit.places[it] for it in its) for its in some] for some in known_parities(items_of(text)))
    constants = table.constants()
    found = []
    for its, is_logical in missing_of(basis, detectors, observables, is_all):
        records = sorted(its & basis.records)
        found.append(Parity(tuple(bisect.bisect_left(circuit.places, it) for it in records), bool(constants[list(its)].sum() % 2), is_logical))
    return found
