"""An editing session of a circuit, noise and comments too."""

import dataclasses
from collections.abc import Iterable, Sequence

from stabsim import checking
from stabsim.collecting.collecting import collect
from stabsim.collecting.counting import Decoder
from stabsim.collecting.rates import Rate, fit_rate
from stabsim.errors import Refused, UnsupportedNoise
from stabsim.noise.models import ErrorModel, decomposed, error_model
from stabsim.noise.renewing import renewed
from stabsim.questions.circuit_errors import CircuitError
from stabsim.questions.distances import Distance
from stabsim.questions.random_bits import DecidingCoin
from stabsim.questions.ways import Way
from stabsim.session.explaining import explaining
from stabsim.session.history import Change, Request
from stabsim.session.inserting import put_in
from stabsim.session.plain_session import PlainSession
from stabsim.session.retargeting import Retargeted, of_items
from stabsim.session.rounds import joining
from stabsim.session.script import Path, delete_line, edit_lines, item_text, path_text
from stabsim.session.spares import carried_item, refuse_spares, spares_of
from stabsim.text.carrying import TextBack, above_in, below_comments, carried, cut_path, original_of, paths_made, with_comments, written_back
from stabsim.text.judging import judged
from stabsim.text.profile import Profile, qubits_named
from stabsim.text.reading import Instruction, Item, items_of

# How a model is made.
Options = tuple[bool, bool, bool, bool]


class Session(PlainSession):
    """A circuit that is run, kept, and changed by edits. Made by `Circuit.edit`.

    It is a context manager, and its process ends with it. One thread at a time uses it. An edit that is refused raises
    stabsim.Refused, with words for a fault of the item's own, and changes nothing. If the process has ended, or was interrupted
    in a reply, every call raises stabsim.SessionEnded, and so it does in a process that was forked. A session is not copied. All calls
    except `close` ask the program, so none is a property.

    A qubit that makes the records of an MPAD or of heralded errors is not the circuit's: an edit that names it, but in a
    channel, is refused.

    Channels and chances of wrong records are items, and parts of them, as all else, and so are instructions that the program does not read.
    Records, detectors and other answers are those without noise; `error_model`, `distance` and `logical_error_rate` are of the noise as it
    is now.

    >>> import stabsim
    >>> with stabsim.Circuit("H 0\\nCX 0 1\\nM 0 1\\nDETECTOR rec[-1] rec[-2]").edit() as session:
    ...     session.insert(2, "X 1")
    ...     print(session.changed().detectors, session.detectors(), session.sign("Z0*Z1"))
    ...     print(session.undo(), session.detectors())
    [0] [ True] -1
    True [False]
    >>> text = "R 0 1\\nX_ERROR(0.1) 0 1\\nM 0 1\\nDETECTOR rec[-1] rec[-2]\\nOBSERVABLE_INCLUDE(0) rec[-1]"
    >>> with stabsim.Circuit(text).edit() as session:
    ...     session.replace(1, "X_ERROR(0.25) 0")
    ...     session.insert(3, "DETECTOR rec[-1]  # of qubit 1")
    ...     print(session.circuit(comments=True), session.error_model(), session.distance(), sep="")
    R 0 1
    X_ERROR(0.25) 0
    M 0 1
    DETECTOR rec[-1]  # of qubit 1
    DETECTOR rec[-1] rec[-2]
    OBSERVABLE_INCLUDE(0) rec[-1]
    error(0.25) D1
    detector D0
    detector D1
    logical_observable L0
    none of all errors
    """

    def __init__(self, text: str, *, qubits: int | None = None, seed: int = 0, stride: int | None = None, profile: Profile | None = None,
                 is_printed: bool = False) -> None:
        """The session of a circuit's text, which is judged if no profile of it is given; is_printed: whether it is as another session printed it."""
        # The models of the circuit as it is, and the last ones of what it was.
        self.models: dict[Options, ErrorModel] = {}
        self.models_before: dict[Options, ErrorModel] = {}
        self.back = TextBack()
        # The qubits that are spare, or were, so that few edits are looked at more closely.
        self.spares: set[int] = set()
        if profile is None:
            try:
                super().__init__(text if is_printed else with_comments(text), qubits=qubits, seed=seed, stride=stride)
                return
            except Refused:
                profile = None if is_printed else judged(text)
                if profile is None or profile.said is not None:
                    raise
        text = carried(text) if profile.said is None else with_comments(text)
        super().__init__(text, qubits=qubits, seed=seed, stride=stride)
        self.spares.update(spare.qubit for spare in spares_of(text))

    # Edits. A path is a number, or numbers that lead into blocks, as 3/0/2.

    def insert(self, path: Path, text: str, *, keep_records: bool = False) -> None:
        """Puts an item, one instruction or one whole block, in front of the one at the path, or after all of its list. keep_records:
        whether lookbacks go on naming the records that they named, as `retarget` has it.

        >>> import stabsim
        >>> with stabsim.Circuit("REPEAT 2 {\\n    M 0\\n}").edit() as session:
        ...     session.insert("0/1", "X 0")
        ...     print(session.circuit(), end="")
        REPEAT 2 {
            M 0
            X 0
        }
        """
        at = path_text(path)
        if keep_records:
            self.retarget([("insert", at, item_text(text))])
            return
        self.keep_spares([("insert", at, item_text(text))])
        self.insert_item(at, text)

    def replace(self, path: Path, text: str, *, keep_records: bool = False) -> None:
        """Puts an item in the place of the one at the path. Comments above that stay. keep_records: as in `insert`.

        >>> import stabsim
        >>> with stabsim.Circuit("X 0\\nM 0").edit() as session:
        ...     session.replace(0, "H 0")
        ...     session.free()
        array([ True])
        """
        at = path_text(path)
        if keep_records:
            self.retarget([("replace", at, item_text(text))])
            return
        self.keep_spares([("replace", at, item_text(text))])
        self.replace_item(at, text)

    def insert_item(self, path: str, text: str) -> None:
        """Puts an item in, spare qubits or not."""
        item = self.carry(item_text(text))
        with explaining(text):
            self.change(Change.of_one(edit_lines(f"insert {path}", item), delete_line(path)))

    def replace_item(self, path: str, text: str) -> None:
        """Puts an item in the place of another, spare qubits or not."""
        old = self.old_item(path)
        self.put(path, old, "\n".join([*above_in(old), item_text(text)]), text)

    def put(self, path: str, old: str, item: str, text: str) -> None:
        """Puts an item with its comments in the place of an old one, which is the program's; text: as the user wrote it."""
        carried = self.carry(item)
        with explaining(text):
            self.change(Change.of_one(edit_lines(f"replace {path}", carried), edit_lines(f"replace {path}", old)))

    def delete(self, path: Path, *, keep_records: bool = False) -> None:
        """Takes the item at the path out. keep_records: as in `insert`; a record that is gone leaves the lists that named it.

        >>> import stabsim
        >>> with stabsim.Circuit("X 0\\nM 0").edit() as session:
        ...     session.delete(0)
        ...     session.records()
        array([False])
        """
        at = path_text(path)
        if keep_records:
            self.retarget([("delete", at)])
            return
        self.change(Change.of_one(delete_line(at), edit_lines(f"insert {at}", self.old_item(at))))

    def move(self, path: Path, to: Path, *, keep_records: bool = False) -> None:
        """Moves the item at a path in front of the one at another, or after all, of the same list. keep_records: as in `insert`.

        >>> import stabsim
        >>> with stabsim.Circuit("M 0\\nX 0\\nM 1").edit() as session:
        ...     session.move(2, 0)
        ...     session.records()
        array([False, False])
        """
        at, end = path_text(path), path_text(to)
        if keep_records:
            self.retarget([("move", at, end)])
            return
        (*around, first), (*other, last) = at.split("/"), end.split("/")
        if around != other:
            raise ValueError(f"item {at} is moved within its list alone")
        with self.one_step():
            text = self.item(at, comments=True)
            self.delete(at)
            self.insert("/".join([*around, str(int(last) - (int(last) > int(first)))]), text)

    def retarget(self, edits: Iterable[Sequence[object]]) -> Retargeted:
        """Makes several edits by one step, so that lookbacks go on naming the records that they named: `stabsim.retargeted` of the circuit as
        it is, which has been made then. Comments stay with their items.

        >>> import stabsim
        >>> with stabsim.Circuit("M 0\\nM(0.1) 1  # the second\\nDETECTOR rec[-2]").edit() as session:
        ...     made = session.retarget([("insert", 1, "M 1"), ("delete", 2)])
        ...     print(session.circuit(), made.records)
        M 0
        M 1
        DETECTOR rec[-2]
         [0 1]
        """
        given = [[*edit[:2], *(with_comments(text) if isinstance(text, str) and edit[0] != "move" else text for text in edit[2:])] for edit in edits]
        made = of_items(items_of(with_comments(self.circuit(comments=True))), given, below_comments)
        self.keep_spares(given)
        found = tuple((kind, at, *(words if kind == "split" else [written_back(item) for item in words])) for kind, at, *words in made.edits)
        with self.one_step():
            for kind, at, *words in found:
                if kind == "insert":
                    self.insert(at, words[0])
                elif kind == "replace":
                    self.keep_spares([(kind, at, *words)])
                    self.put(at, self.old_item(at), words[0], words[0])
                elif kind == "split":
                    self.split(at, int(words[0]))
                else:
                    self.delete(at)
        return dataclasses.replace(made, text=written_back(made.text), edits=found)

    def split(self, path: Path, round_number: int) -> None:
        """Splits a round, counted from 0, off the block at the path, so that it can be edited by itself: the rounds before it
        become a block, that round one, and the rounds after it one; a part without rounds is left out. The steps stay, so
        nothing is run and no bit changes.

        >>> import stabsim
        >>> with stabsim.Circuit("REPEAT 9 {\\n    M 0\\n}").edit() as session:
        ...     session.split(0, 3)
        ...     [block.repeat for block in stabsim.Circuit(session.circuit())]
        [3, 1, 5]
        """
        at = path_text(path)
        checking.whole("round_number", round_number)
        self.split_known(at, round_number, self.old_item(at))

    def split_known(self, path: str, round_number: int, block: str) -> None:
        """`split` of a block whose text is known, as the program prints it."""
        self.change(Change((Request(f"split {path} {round_number}\n".encode(), b""),), joining(path, block, round_number)))

    def insert_errors(self, errors: Iterable[CircuitError]) -> None:
        """Puts errors in, all by one edit: Paulis as gates at their steps, and wrong records as measurements that are inverted. Rounds
        are split off blocks, and items cut in two, if errors are within them; steps and records of the circuit stay as they are.

        errors: as `Circuit.distance` finds them. IndexError if the circuit has no such step or record.

        >>> import stabsim
        >>> with stabsim.Circuit("R 0 1\\nREPEAT 3 {\\n    MR 0 1\\n}").edit() as session:
        ...     session.insert_errors([stabsim.CircuitError(5, "1/0", ((1, "X"),)), stabsim.CircuitError(4, "1/0", record=2)])
        ...     print(session.circuit(), session.undo(), len(session.circuit().splitlines()))
        R 0 1
        REPEAT 1 {
            MR 0 1
        }
        REPEAT 1 {
            MR !0
            X 1
            MR 1
        }
        REPEAT 1 {
            MR 0 1
        }
         True 4
        """
        example = "those of a distance, as circuit.distance().errors"
        some = [checking.of_kind("an error", it, CircuitError, example) for it in checking.several("errors", errors, example)]
        with self.one_step():
            put_in(self, some)

    # What it has.

    def circuit(self, *, comments: bool = False) -> str:
        """The text of the circuit as it is now, with its noise; comments: with comments and blank lines too."""
        return written_back(self.printed()) if comments else self.back.of(self.process.ask(b"show circuit\n"))

    def item(self, path: Path, *, comments: bool = False) -> str:
        """The text of the item at the path; comments: with those above it and in it."""
        return written_back(self.printed_item(path_text(path)), comments)

    def why(self, bit: str) -> tuple[DecidingCoin, ...]:
        """The coins that decide a detector, as D37, or an observable, as L0: none if it is the same for all random bits."""
        found = super().why(bit)
        made = self.made() if found else frozenset[str]()
        return tuple(coin._replace(path=cut_path(coin.path, made)) for coin in found)

    def way(self, pauli: str, *, at: Path | None = None, after: int | None = None) -> Way:
        """What a Pauli string becomes that is put into the circuit as it is now, and what it flips: `Circuit.propagate` of it."""
        found = super().way(pauli, at=at, after=after)
        made = self.made() if found.turns else frozenset[str]()
        return dataclasses.replace(found, turns=tuple(dataclasses.replace(turn, path=cut_path(turn.path, made)) for turn in found.turns))

    # Noise.

    def error_model(self, *, decompose: bool = False, ignore_decomposition_failures: bool = False, approximate_disjoint_errors: bool = False,
                    sure_only: bool = False) -> ErrorModel:
        """`stabsim.error_model` of the circuit as it is now. After most edits it is renewed, which takes far less time than to make
        it; without an edit it is the same. Lines of it are those of `circuit()`.

        >>> import stabsim
        >>> with stabsim.Circuit("R 0\\nM 0\\nDETECTOR rec[-1]").edit() as session:
        ...     session.insert(1, "X_ERROR(0.125) 0")
        ...     print(session.error_model().chances, session.undo(), session.error_model().chances)
        [0.125] True []
        """
        options = (decompose, ignore_decomposition_failures, approximate_disjoint_errors, sure_only)
        if options not in self.models:
            if decompose:
                whole = self.error_model(approximate_disjoint_errors=approximate_disjoint_errors, sure_only=sure_only)
                self.models[options] = decomposed(whole, ignore_decomposition_failures)
            else:
                self.models[options] = self.model_now(options, approximate_disjoint_errors, sure_only)
        return self.models[options]

    def model_now(self, options: Options, approximate: bool, sure_only: bool) -> ErrorModel:
        """The model of the circuit as it is now: that from before the edits, renewed, or made anew."""
        text, before = self.circuit(), self.models_before.get(options)
        found = renewed(before, text, sure_only, self.numbers().qubits) if before else None
        return found or error_model(text, approximate_disjoint_errors=approximate, sure_only=sure_only)

    def distance(self, most: int | None = None, *, everywhere: bool = False) -> Distance:
        """The least number of errors of the noise that flip an observable and no detector, as `Circuit.distance`; or of a circuit without
        noise, or with everywhere, of the errors that it marks, or of errors everywhere, up to `most`, which is needed then."""
        model = None if everywhere else self.error_model(approximate_disjoint_errors=True)
        if model is not None and len(model):
            return model.distance(most=most)
        found = super().distance(checking.whole("most", most), everywhere=everywhere)
        made = self.made()
        return dataclasses.replace(found, errors=tuple(dataclasses.replace(error, path=cut_path(error.path, made)) for error in found.errors))

    def logical_error_rate(self, decoder: Decoder, *, shots: int, seed: int = 0, decompose: bool = False) -> Rate:
        """How often a decoder predicts some observable wrongly, with the interval of `fit_rate`, in this many shots of the noise as it is now.

        decoder: a function of a model that gives a function from detectors to observables, as of `collect`; decompose: whether its model is
        decomposed, as decoders by matching want it. Shots are of the noise as it is: of disjoint errors, as heralded ones, at most one happens
        each time, though the decoder's model takes them for independent ones.

        >>> import numpy, stabsim
        >>> def nothing(model):
        ...     return lambda detectors: numpy.zeros((len(detectors), 1), dtype=bool)
        >>> with stabsim.Circuit("R 0\\nX_ERROR(0.5) 0\\nM 0\\nOBSERVABLE_INCLUDE(0) rec[-1]").edit() as session:
        ...     print(session.logical_error_rate(nothing, shots=1000).best > 0.4)
        ...     session.replace(1, "X_ERROR(0) 0")
        ...     print(session.logical_error_rate(nothing, shots=1000).best)
        True
        0.0
        """
        errors = 0
        model = self.drawn_model(decompose)
        for sums in collect({"session": model}, ("decoder", decoder), shots=checking.whole("shots", shots, 1), seed=seed):
            errors = sums.errors
        return fit_rate(shots, errors)

    def drawn_model(self, decompose: bool) -> ErrorModel:
        """The error model, or of noise that no independent errors make one that has the noise as it is."""
        try:
            return self.error_model(decompose=decompose)
        except UnsupportedNoise:
            return self.error_model(decompose=decompose, approximate_disjoint_errors=True)

    # How the program has it.

    def carry_out(self, requests: tuple[Request, ...]) -> None:
        """Makes edits in their order, after which models are others."""
        self.models_before.update(self.models)
        self.models.clear()
        super().carry_out(requests)

    def carry(self, text: str) -> str:
        """An item as the program's, whose spare qubits are kept."""
        item = carried_item(text, self.circuit)
        self.spares.update(spare.qubit for spare in spares_of(item))
        return item

    def keep_spares(self, edits: Iterable[Sequence[object]]) -> None:
        """`refuse_spares` of edits, in the circuit as it is now. Channels do nothing to its records, so they are let be."""
        for kind, path, *words in edits:
            puts_in = self.spares and kind in ("insert", "replace")
            named = self.spares & qubits_named(str(words[0]), noise=False) if puts_in else None
            if named:
                refuse_spares(named, spares_of(self.printed()), path_text(path) if kind == "replace" else None)  # type: ignore[arg-type]

    def made(self) -> frozenset[str]:
        """The paths of the blocks that stand for one instruction."""
        return paths_made(self.printed_items())

    def printed_items(self) -> tuple[Item, ...]:
        """The items as the program has them."""
        return items_of(self.printed())

    def plain(self, item: Instruction) -> Instruction:
        """An instruction with the tag and the arguments that the user gave it."""
        original = original_of(item)
        return dataclasses.replace(item, tag=original.tag, arguments=original.arguments)

    def write_out(self, path: str) -> None:
        """If the path leads into a block that stands for one instruction, that becomes a block of one round of its gates."""
        block = cut_path(path, self.made())
        if block != path:
            old = self.printed_item(block)
            body = old.split("\n", 1)[1]
            above = "".join(f"{line}\n" for line in above_in(old))
            head = carried(f"{above}REPEAT 1 {{\n}}").rsplit("}", 1)[0] if above else "REPEAT 1 {\n"
            self.change(Change.of_one(edit_lines(f"replace {block}", head + body), edit_lines(f"replace {block}", old)))


NoisySession = Session
