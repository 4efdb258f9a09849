"""What all tabs see: one session, the edits made so far, and what they changed."""

import dataclasses
import pathlib
from collections.abc import Iterator, Sequence
from typing import Any

import stabsim
from stabsim.page.at_once import differing, made_at_once
from stabsim.page.edits import Edit, Made, name_of, undoing
from stabsim.page.explaining import explained, refuse_unread
from stabsim.page.following import following
from stabsim.page.lines import LineEdits, between
from stabsim.page.noise import has_noise, session_of
from stabsim.page.opening import Opened
from stabsim.page.room import may_name, qubits_named, room_for
from stabsim.page.saving import write_whole
from stabsim.page.telling import line_of, lists_of, names_of, place_of
from stabsim.session.history import Change
from stabsim.text.carrying import MARKED, written_back
from stabsim.text.coordinates import coordinates_of, detector_rows, qubit_rows

Message = dict[str, Any]
# How many edits are made one by one: more take longer than to open the session anew on what they make.
MOST_SINGLE = 3
# In how many lines it is looked for the items that differ.
MOST_LINES = 5000


@dataclasses.dataclass
class Entry:
    """What a person did in one go: its name, its edits, those that take them back, what they flipped (`D3`, `L0`), and whether bits may
    have come, gone or moved."""

    name: str
    forth: list[Edit]
    back: list[Edit]
    changed: list[str]
    moves_bits: bool
    # The texts whose lines are kept before it and after it, and what the session did for it, if that is in its history.
    texts: tuple[Opened, Opened] | None = None
    changes: list[Change] = dataclasses.field(default_factory=list)

    def message(self) -> Message:
        return {"text": self.name, "changed": self.changed}

    def opens(self) -> bool:
        """Whether it opened another circuit."""
        return any(edit.kind == "open" for edit in self.forth)


class Board:
    """A session with its history. All calls are made from one thread, since a session is for one thread."""

    def __init__(self, source: Opened, seed: int = 0, save: pathlib.Path | None = None) -> None:
        # What was opened last, with its name, and what became of its lines; and the text whose lines are kept: that one, or what was written
        # as text since.
        self.source = self.kept_text = source
        self.save_to = save
        self.seed = seed
        self.session = session_of(source.text, seed)
        # Of how many qubits tabs have heard: an edit that was refused may have made room for more.
        self.qubits_told = self.session.numbers().qubits
        self.entries: list[Entry] = []
        self.position = 0
        # How often the circuit was changed: by it a tab knows whether it has heard of all changes.
        self.age = 0
        # The positions of the mark, and of what was saved last, or -1 if that is no longer in the history.
        self.marked_at = self.saved_at = 0
        self.flipped: list[str] = []
        # What lost a record by the last edits, and the paths of blocks off which a round was split, since records had to follow.
        self.lost: tuple[str, ...] = ()
        self.split_off: tuple[str, ...] = ()
        self.marked: set[str] = set()
        self.deterministic: str | None = None
        # The circuit with its bits and coordinates, until the next edit: tabs ask for them when they open.
        self.kept: Message | None = None
        # The circuit as the program prints it, and as the session writes it, from when it is first asked for to the next edit.
        self.texts_now: tuple[str, str] | None = None

    def close(self) -> None:
        self.session.close()

    def opened(self) -> Message:
        """All that a tab has to know when it opens."""
        return {
            "event": "opened", "name": self.source.name, "notice": self.source.notice,
            "notes": self.source.rewritten, "written": shown_of(self.kept_text, self.text()), "deterministic": self.deterministic,
            "entries": [entry.message() for entry in self.entries],
            "marked": sorted(self.marked, key=place_of), "saves": self.save_to is not None, **self._now(), **self.whole(),
        }

    def whole(self) -> Message:
        """The circuit with its bits and coordinates."""
        if self.kept is None:
            circuit = self.text()
            self.kept = {"circuit": circuit, **self._bits(circuit)}
        return self.kept

    def edit(self, edits: list[Edit], name: str = "", keep: bool = False) -> Message:
        """Makes edits as one entry, with a name of its own if one is given, and says what they changed. Raises stabsim.Refused if one is
        refused; nothing has changed then. keep: whether lookbacks go on naming the records that they named."""
        return self._enter(name or name_of(edits), edits, keep)

    def edit_in_round(self, edits: list[Edit], place: str, number: int, keep: bool = False) -> Message:
        """Makes edits in one round of a block that is first split off it."""
        return self._enter(f"{name_of(edits)}, in round {number} of {place} alone", edits, keep, [self._splitting(place, number)])

    def edit_lines(self, made: LineEdits) -> Message:
        """Makes what is done with whole lines one entry."""
        return self._enter(made.name, list(made.then), True, list(made.first))

    def edit_text(self, source: Opened, name: str = "") -> Message:
        """Makes the circuit another text, by the edits of the items that differ. ValueError if none does."""
        edits = between(self.text(), source.text)
        if not edits:
            raise ValueError("nothing is changed")
        return self._enter(name or f"edit the text: {name_of(edits)}", edits, text=source)

    def put_noise(self, source: Opened, name: str, age: int) -> Message:
        """Makes the circuit of an age another text, which differs in noise alone. ValueError if it was changed meanwhile."""
        if age != self.age:
            raise ValueError("the circuit was changed meanwhile")
        if source.text.count("\n") > MOST_LINES:
            # To find the items that differ takes far longer than to open all anew.
            return self.edit([Edit("open", source.name, source.text, source=source)], name)
        return self.edit_text(source, name)

    def split(self, place: str, number: int) -> Message:
        """Splits one round off a block."""
        return self._enter(f"round {number} of {place} by itself", [self._splitting(place, number)])

    def open(self, source: Opened, is_saved: bool = True) -> Message:
        """Opens another circuit, as an entry that can be taken back. The same circuit again is no entry. is_saved: whether it is saved
        elsewhere, as what was never saved before is not."""
        if source.text != self.text():
            self.edit([Edit("open", source.name, source.text, source=source)])
            self.saved_at = self.position if is_saved else -1
        return self.opened()

    def go(self, position: int) -> Message:
        """Undoes or redoes edits until this many are made: all of them, or none if one is refused."""
        if not 0 <= position <= len(self.entries):
            raise ValueError("no such place in the history")
        forward = position > self.position
        passed = self.entries[self.position:position] if forward else self.entries[position:self.position][::-1]
        made = self._retrace(passed, forward)
        self.position = position
        if passed and (texts := passed[-1].texts):
            self.kept_text = texts[forward]
        return self._edited(made, [], any(entry.moves_bits for entry in passed))

    def step(self, by: int) -> Message:
        """Undoes a number of edits, or with a positive one redoes them, of the history as it is by then: a person may ask again before the first is done."""
        position = max(0, min(len(self.entries), self.position + by))
        if position == self.position:
            raise ValueError("nothing is left to be undone" if by < 0 else "nothing is left to be done again")
        return self.go(position)

    def mark(self) -> Message:
        """From here on counts what is shown as changed since the mark."""
        self.marked = set()
        self.marked_at = self.position
        return {"event": "marked", "position": self.position}

    def saved(self) -> Message:
        """The circuit as it is was saved, by the server or by a tab."""
        self.saved_at = self.position
        return {"event": "saved", "position": self.position}

    def text(self) -> str:
        """The circuit as it is now, in the program's words."""
        return self.texts()[1]

    def texts(self) -> tuple[str, str]:
        """The circuit as it is now, as the program prints it, with noise in tags, and in the program's words."""
        if self.texts_now is None:
            printed = self.session.printed()
            self.texts_now = printed, written_back(printed, comments=False)
        return self.texts_now

    def written(self) -> str:
        """The circuit as it is now, with comments, and the lines that were given where their items are as they were."""
        return self.kept_text.given.written(self.text())

    def script(self) -> str:
        """An edit script that makes the edits made so far, of the circuit that was opened last. ValueError if one of them has noise."""
        made = self.entries[:self.position]
        first = max((number for number, entry in enumerate(made, 1) if entry.opens()), default=0)
        script = "".join(edit.lines() for entry in made[first:] for edit in entry.forth)
        if has_noise(self.source.text) or any(has_noise(edit.item) for entry in made[first:] for edit in entry.forth):
            raise ValueError("edit scripts have no noise: export the circuit")
        return script

    def coins_of(self, bit: str) -> list[int]:
        """The numbers of the coins that decide a detector or observable, as D3 or L0; none if it is the same for all coins."""
        return [coin.number for coin in self.session.why(bit)]

    def distance(self, most: int) -> list[str]:
        """The lines that say the distance, up to a number of errors, by the errors that the circuit marks."""
        return [line.decode() for line in self.session.process.ask(f"show distance {most}\n".encode())]

    def save(self) -> str:
        """Writes the circuit to the file that may be written, and answers with its name."""
        if self.save_to is None:
            raise ValueError("no file was named to save to")
        write_whole(self.save_to, self.written())
        return str(self.save_to)

    def _splitting(self, place: str, number: int) -> Edit:
        return Edit("split", place, str(number), self.session.printed_item(place))

    def _enter(self, name: str, edits: list[Edit], keep: bool = False, first: list[Edit] | None = None, text: Opened | None = None) -> Message:
        """Makes edits as one entry; those that are made first are of what is there, and leave each record as it is. text: whose lines are
        kept from then on, if others than before."""
        entry = self._carry_out(name, edits, keep, first or [])
        entry.texts = self.kept_text, next((edit.source for edit in edits if edit.source), text or self.kept_text)
        self.kept_text = entry.texts[1]
        self._leave_positions()
        del self.entries[self.position:]
        self.entries.append(entry)
        self.position += 1
        return self._edited(entry, [entry], entry.moves_bits)

    def _leave_positions(self) -> None:
        """The mark, if what was marked goes from the history, is where the history goes on; and what was saved is there no more."""
        if self.marked_at > self.position:
            self.marked, self.marked_at = set(), self.position
        if self.saved_at > self.position:
            self.saved_at = -1

    def _carry_out(self, name: str, edits: list[Edit], keep: bool = False, first: Sequence[Edit] = ()) -> Entry:
        """Makes edits in their order, after some others. If one fails, in whatever way, those before it are taken back, and nothing has changed."""
        self.lost, self.split_off = (), ()
        self._make_room(edits)
        self.session.mark()
        made = Made()
        session, done = self.session, len(self.session.history.done)
        try:
            self._make_all(first, made)
            self._make_all(list(self._followed(edits)) if keep else edits, made)
        except Exception:
            for edit in made.back:
                self._apply(edit)
            raise
        changed = names_of(self.session.changed()) if made.changed is None else made.changed
        changes = session.history.done[done:] if session is self.session else []
        return Entry(name, made.forth, made.back, changed, made.moves_bits, changes=changes)

    def _retrace(self, passed: Sequence[Entry], forward: bool) -> Entry:
        """Undoes or redoes entries: by the session's history, if what it did last, or took back last, was made for these, and else by their edits."""
        edits = [edit for entry in passed for edit in (entry.forth if forward else entry.back)]
        history = self.session.history
        changes = [change for entry in passed for change in (entry.changes if forward else entry.changes[::-1])]
        last = (history.to_redo if forward else history.done)[::-1][:len(changes)]
        if not all(entry.changes for entry in passed) or list(map(id, changes)) != list(map(id, last)):
            return self._carry_out("", edits)
        self.lost, self.split_off = (), ()
        self.session.mark()
        self.texts_now = None
        step, step_back = (self.session.redo, self.session.undo) if forward else (self.session.undo, self.session.redo)
        made = 0
        try:
            for made in range(len(changes)):
                step()
        except Exception:
            for _ in range(made):
                step_back()
            raise
        return Entry("", edits, [], names_of(self.session.changed()), False)

    def _make_all(self, edits: Sequence[Edit], made: Made) -> None:
        """Makes edits one by one, or if they are many all at once."""
        if len(edits) > MOST_SINGLE and self._make_at_once(edits, made):
            return
        for edit in edits:
            made.add(edit, self._make(edit))

    def _make_at_once(self, edits: Sequence[Edit], made: Made) -> bool:
        """Opens the session anew on what edits make; each bit is then as if they were made one by one. Answers whether it could: if one is
        refused, it is found by making them one by one."""
        bits = self.session.detectors(), self.session.observables()
        try:
            printed, text = self.texts()
            qubits = self.session.numbers().qubits
            items = "\n".join([edit.item for edit in edits])
            if has_noise(items) or MARKED in items:
                text, undone = made_at_once(text, edits, False)
                session = stabsim.Circuit(text).edit(seed=self.seed, qubits=qubits)
            else:
                # Without looking at what the program has read before.
                text, undone = made_at_once(printed, edits, True)
                session = stabsim.Session(text, seed=self.seed, qubits=qubits, is_printed=True)
        except (stabsim.Refused, ValueError, IndexError):
            return False
        self._take(session)
        for edit, back in zip(edits, undone, strict=True):
            made.add(edit, back)
        made.changed = differing(bits, (session.detectors(), session.observables()))
        return True

    def _followed(self, edits: list[Edit]) -> Iterator[Edit]:
        """The edits that make some so that lookbacks follow their records, of the circuit as it is once they are asked for."""
        made = following(self.session, edits, self.text)
        self.lost, self.split_off = made.lost, made.split_off
        for edit in made.edits:
            yield edit._replace(block=self.session.printed_item(edit.place)) if edit.kind == "split" else edit

    def _make_room(self, edits: list[Edit]) -> None:
        """Opens the session anew on more qubits, if edits name some that it lacks. The history stays, and each bit: a coin is known by
        its place in the circuit and not by the qubits that there are."""
        now = room = self.session.numbers().qubits
        for edit in edits:
            if edit.kind in ("insert", "replace") and may_name(edit.item, room):
                room = room_for(qubits_named(edit.item), room)
        if room > now:
            self._take(stabsim.Session(self.texts()[0], seed=self.seed, qubits=room, is_printed=True))

    def _take(self, session: stabsim.Session) -> None:
        """Takes another session in the place of the one there is."""
        self.session.close()
        self.session = session
        self.kept = self.texts_now = None

    def _make(self, edit: Edit) -> list[Edit]:
        """Makes one edit, and answers with those that take it back."""
        if edit.kind == "open":
            before = Edit("open", self.source.name, self.text(), source=self.source)
            self._apply(edit)
            return [before]
        old = "" if edit.kind == "insert" else edit.block or self.session.item(edit.place)
        try:
            self._apply(edit)
        except stabsim.Refused as refused:
            raise explained(refused, edit, self.text(), self.session.numbers().qubits) from None
        return undoing(edit, old)

    def _apply(self, edit: Edit) -> None:
        self.texts_now = None
        if edit.kind in ("insert", "replace"):
            refuse_unread(edit.item)
        if edit.kind == "insert":
            self.session.insert(edit.place, edit.item)
        elif edit.kind == "replace":
            self.session.replace(edit.place, edit.item)
        elif edit.kind == "split":
            self.session.split_known(edit.place, int(edit.item), edit.block)
        elif edit.kind == "open":
            assert edit.source
            self._take(session_of(edit.item, self.seed))
            self.source = edit.source
        else:
            self.session.delete(edit.place)

    def _edited(self, made: Entry, entries: list[Entry], moves_bits: bool) -> Message:
        """What tabs hear of edits: no more than what changed, or all of another circuit. Entries are the new ones, which end
        at the position."""
        self.age += 1
        self.deterministic = self.kept = None
        self.flipped = made.changed
        # Qubits that are new have no coordinates yet.
        now = self._now()
        before, self.qubits_told = self.qubits_told, now["numbers"]["qubits"]
        moves_bits |= self.qubits_told != before
        if made.opens():
            # Marks are of bits, and those of another circuit are others.
            self.marked, self.marked_at = set(), self.position
            return self.opened()
        self.marked ^= set(made.changed)
        told = {"event": "edited", "edits": [edit.message() for edit in made.forth], "entries": [entry.message() for entry in entries]}
        return told | now | (self._bits(self.text()) if moves_bits else {})

    def _now(self) -> Message:
        numbers = dataclasses.asdict(self.session.numbers())
        return {"age": self.age, "numbers": numbers, "position": self.position, "flipped": self.flipped, "marked_at": self.marked_at, "saved_at": self.saved_at}

    def _bits(self, text: str) -> Message:
        places = coordinates_of(text)
        return {
            "detectors": line_of(self.session.detectors()), "observables": line_of(self.session.observables()),
            "qubit_coordinates": lists_of(qubit_rows(places, self.session.numbers().qubits)),
            "detector_coordinates": lists_of(detector_rows(places)),
        }


def shown_of(kept: Opened, circuit: str) -> list[tuple[str, int, str]]:
    """Which items of a circuit are shown as lines of a text that is kept, as `Given.shown` says."""
    return kept.given.shown(circuit) if kept.rewritten else []


def deterministic_line(text: str) -> str:
    """Which detectors, and then observables, of a circuit are the same for all coins."""
    return "".join(map(line_of, stabsim.Circuit(text).deterministic()))
