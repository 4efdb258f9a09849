"""Runs of the program that are tried: their words, and what the definitions say of what the program answers."""

import re
from collections.abc import Callable
from dataclasses import dataclass, replace
from functools import cached_property, lru_cache
from random import Random
from typing import Any

from . import doubts, formats, numbers, scripts, states, sums, ways
from .coins import coins_of_seed
from .distances import Distance
from .reading import Items, Refused, items_of
from .states import TooLarge

# Status, output and error output.
Ended = tuple[int, bytes, bytes]
# What is wrong in a case, or None.
Wrong = str | None

NO_MARKS = b"stabsim: no place is marked by I; --everywhere asks for all places\n"
NO_LETTERS = b"stabsim: no place is marked by I with X or Z; --everywhere asks for all places\n"
# What a case is compared with if a run of it would take long.
TOO_LARGE = "too large for the oracle"
COUNTED = ("qubits", "items", "steps", "records", "detectors", "observables", "coins")


@dataclass(frozen=True)
class Case:
    """A command, the circuit that it reads, its options by their names, each with a value, or whether a flag is given, and, if it has
    one, its script, a shorter text of the same steps, and the answer that is known by hand."""

    command: str
    text: bytes
    settings: tuple[tuple[str, Any], ...] = ()
    script: bytes | None = None
    shorter: bytes | None = None
    known: bytes | None = None

    @cached_property
    def words(self) -> list[str]:
        given = [(name, value) for name, value in self.settings if value is not None and value is not False]
        # A string that is put in is a word by itself.
        options = [[f"--{name}"] * (name != "string") + ([] if value is True else [str(value)]) for name, value in given]
        return [self.command, *(word for option in options for word in option)]

    def setting(self, name: str, default: Any = None) -> Any:
        value = dict(self.settings).get(name)
        return default if value is None else value


# How an option's value is drawn; None if it is not given.
DRAWN: dict[str, Callable[[Random], Any]] = {
    "seed": lambda dice: dice.choice((0, 1, dice.randrange(2**64))),
    "coins": lambda dice: "".join(dice.choice("01") for _ in range(dice.randint(0, 12))) if dice.random() < 0.6 else None,
    "shots": lambda dice: dice.choice((0, 1, 1, 1, 2, 5)),
    "first_shot": lambda dice: dice.choice((None, 0, 1, 63, 2**32 - 2, 2**64 - 5, dice.randrange(2**64 - 5))),
    "out_format": lambda dice: dice.choice((*formats.FORMATS, None)),
    "append_observables": lambda dice: dice.random() < 0.5,
    "explain": lambda dice: dice.random() < 0.3,
    "everywhere": lambda dice: dice.random() < 0.6,
    "deterministic_only": lambda dice: dice.random() < 0.6,
    "qubits": lambda dice: dice.choice((None, None, 0, 1, 2, 3, 4)),
    "stride": lambda dice: dice.choice((1, 1, 2, 3, 7, 8192, 65536)),
    "framed": lambda dice: dice.random() < 0.5,
    "letters": lambda dice: dice.choice((None, "XZ")),
    "most": lambda dice: dice.choice((None, None, 1, 2, 3)),
    "graphlike": lambda dice: dice.random() < 0.4,
    "observable": lambda dice: dice.choice((None, None, 0, 0, 1, 2, 4095)),
    "each": lambda dice: dice.random() < 0.3,
    "table": lambda dice: dice.random() < 0.3,
    "count": lambda dice: dice.random() < 0.3,
}
OPTIONS = {
    "sample": ("seed", "coins", "shots", "out_format", "first_shot"),
    "detect": ("seed", "coins", "shots", "out_format", "first_shot", "append_observables"),
    "stabilisers": ("seed", "coins"),
    "edit": ("seed", "coins", "stride", "framed", "qubits"),
    "deterministic": ("out_format", "explain"),
    "faults": ("out_format", "everywhere", "deterministic_only"),
    "coins": ("out_format",),
    "distance": ("letters", "most", "graphlike", "observable", "each", "table", "count"),
    "check": (), "propagate_each": ("everywhere",),
}


def random_case(dice: Random, command: str, text: bytes, script: bytes | None = None, **fixed: Any) -> Case:
    """A case with options by chance, except for those that are given."""
    settings = {name: DRAWN[name](dice) for name in OPTIONS[command]} | fixed
    # A first shot is one of a seed, and not beside coins; what is explained has no format; a table is not beside what is about
    # a search; each observable is not beside one; and a count is of one answer about all errors.
    if settings.get("coins") is not None:
        settings["first_shot"] = None
    if settings.get("explain"):
        settings["out_format"] = None
    if settings.get("table"):
        settings["most"] = settings["observable"] = settings["each"] = None
    if settings.get("each"):
        settings["observable"] = None
    if settings.get("table") or settings.get("each") or settings.get("graphlike"):
        settings["count"] = None
    return Case(command, text, tuple(settings.items()), script)


def coins_of(case: Case, shot: int) -> Callable[[int], int]:
    """Each coin of a shot by its number; 0 past the end of those that are given."""
    coins = case.setting("coins")
    if coins is None:
        return coins_of_seed(case.setting("seed", 0), shot)
    return lambda number: int(coins[number]) if number < len(coins) else 0


def shots(items: Items, case: Case) -> Ended:
    run, out = sums.Sums(items).run, []
    for shot in range(case.setting("shots", 1)):
        coin = coins_of(case, case.setting("first_shot", 0) + shot)
        chosen = sum(coin(number) << number for number in range(len(run.free)))
        sampled = run.records if case.command == "sample" else run.detectors + run.observables * case.setting("append_observables", False)
        bits = [sums.value(it, chosen) for it in sampled]
        out.append(formats.shot(case.setting("out_format", "01"), bits, None if case.command == "sample" else len(run.detectors)))
    return 0, b"".join(out), b""


def session_for(case: Case) -> scripts.Session:
    """The session of a case; or a refusal."""
    items = items_of_circuit(case.shorter or case.text)
    qubits = case.setting("qubits", numbers.qubits(items))
    if numbers.qubits(items) > qubits:
        raise Refused(6)
    return scripts.Session(items, qubits, coins_of(case, 0), case.setting("framed", False))


def edit(_: Items, case: Case) -> Ended:
    session = session_for(case)
    session.play(case.script or b"")
    return 3 if session.refused else 0, b"".join(session.replies), b""


def faults(items: Items, case: Case) -> Ended:
    layout, everywhere = case.setting("out_format"), case.setting("everywhere", False)
    table = sums.faults(items, layout, everywhere, case.setting("deterministic_only", False))
    if everywhere:
        return 0, table, b""
    # In b8 a fault of a circuit without detectors and observables is of no byte.
    return 0, table, doubts.told(items) + (NO_MARKS if not table and layout != "b8" else b"")


def counted(items: Items, _: Case) -> Ended:
    """What `check` counts."""
    states.refuse_if_large(items, numbers.qubits(items))
    steps, records, detectors, coins = scripts.place_numbers(numbers.unroll(items))
    found = (numbers.qubits(items), len(items), steps, records, detectors, numbers.observables(items), coins)
    return 0, "".join(f"{name}: {number}\n" for name, number in zip(COUNTED, found)).encode(), doubts.told(items)


def propagated(items: Items, case: Case) -> Ended:
    place, string = int(case.setting("at").removeprefix("@")), case.setting("string")
    factors = [(factor[0], int(factor[1:])) for factor in string.split("*")]
    return 0, ways.text_of(items, place, factors, case.setting("every", False)), b""


def propagated_each(items: Items, case: Case) -> Ended:
    everywhere = case.setting("everywhere", False)
    lines = ways.each_text(items, everywhere)
    return 0, lines, b"" if lines or everywhere else NO_MARKS


ANSWERS: dict[str, Callable[[Items, Case], Ended]] = {
    "stabilisers": lambda items, case: (0, states.rows_text(states.run_of(items, numbers.qubits(items), coins_of(case, 0)).state), b""),
    "coins": lambda items, case: (0, sums.coins_text(items, case.setting("out_format")), b""),
    "deterministic": lambda items, case: (
        0, sums.explained(items) if case.setting("explain") else sums.deterministic(items, case.setting("out_format", "01")), b""),
    "sample": shots, "detect": shots, "edit": edit, "faults": faults, "check": counted,
    "propagate": propagated, "propagate_each": propagated_each,
}


@lru_cache(2)
def items_of_circuit(text: bytes) -> Items:
    items = items_of(text)
    numbers.check(items)
    return items


def answer_or_refusal(case: Case, answer: Callable[[Items, Case], Ended]) -> Ended | None:
    try:
        return answer(items_of_circuit(case.shorter or case.text), case)
    except Refused as refused:
        return 1, b"", refused.told()
    except sums.NotDeterministic as fault:
        return 1, b"", Refused(18).told() + fault.args[0]
    except TooLarge:
        return None


@lru_cache(1)
def expected_at_any_stride(case: Case) -> Ended | None:
    return answer_or_refusal(case, ANSWERS[case.command]) if case.known is None else (0, case.known, b"")


def expected(case: Case) -> Ended | None:
    """What the definitions give, or None if a run is too large for the oracle."""
    return expected_at_any_stride(replace(case, settings=tuple(it for it in case.settings if it[0] != "stride")))


def distance_of(items: Items, case: Case, observable: int | None) -> Distance:
    """What the definitions say of the distance of one observable, or of any."""
    return Distance(items, case.setting("everywhere", False), case.setting("letters", "XYZ"), case.setting("graphlike", False), observable)


def wrong_for_each(items: Items, case: Case, answer: bytes) -> str | None:
    """What is wrong of the answers about each observable, if anything is."""
    before, *parts = re.split(rb"(?m)^(?=distance |none)", answer)
    if before or len(parts) != numbers.observables(items):
        return f"{len(parts)} answers about {numbers.observables(items)} observables, after {before!r}"
    wrongs = (distance_of(items, case, number).wrong(part, case.setting("most")) for number, part in enumerate(parts))
    return next((it for it in wrongs if it is not None), None)


def distance(items: Items, case: Case, answer: Ended) -> Ended:
    """The answer, if it is the table of errors, or an unseen set of errors and no set of fewer is unseen, as far as all sets are tried, or such a set for each observable; else what is wrong with it."""
    observable = case.setting("observable")
    found = distance_of(items, case, observable)
    told = b"" if case.setting("everywhere", False) else doubts.told(items)
    if case.setting("table"):
        is_none = not found.table and not case.setting("everywhere", False)
        return 0, found.lines().encode(), told + is_none * (NO_LETTERS if case.setting("letters") else NO_MARKS)
    judged = found.wrong_count if case.setting("count") else found.wrong
    wrong = wrong_for_each(items, case, answer[1]) if case.setting("each") else judged(answer[1], case.setting("most"))
    if observable is not None and observable >= numbers.observables(items):
        told += f"stabsim: the circuit has no L{observable}, observables: {numbers.observables(items)}\n".encode()
    # That nothing is marked, or no letter is left, is told last.
    last = answer[2].removeprefix(told)
    return 0, wrong.encode() if wrong else answer[1], told + (last if last in (NO_MARKS, NO_LETTERS) else b"")


def judge(case: Case, answer: Ended) -> tuple[Wrong, str]:
    """What is wrong with the program's answer, or None; and what it was compared with."""
    is_distance = case.command == "distance"
    right = answer_or_refusal(case, lambda items, case: distance(items, case, answer)) if is_distance else expected(case)
    if right is None:
        return None if answer[0] in (0, 1, 3) else f"status {answer[0]} for a circuit {TOO_LARGE}", TOO_LARGE
    if case.command == "check" and right[0]:
        # What is wrong is explained, in words that the definitions do not have; lines in place of an instruction may end them.
        is_explained = answer[1].endswith(b".\n") or b" write:\n    " in answer[1]
        right = right[0], answer[1] if is_explained else b"an explanation", right[2]
    return None if answer == right else f"the program: {answer}\nthe definitions: {right}", "refused" if right[0] else "run"
