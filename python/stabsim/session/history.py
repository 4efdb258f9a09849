"""The edits of a session, each with the edits that take it back."""

from dataclasses import dataclass


@dataclass(frozen=True)
class Request:
    """The lines of a script that make one edit, and those of the edit that is its inverse."""

    lines: bytes
    inverse: bytes


@dataclass(frozen=True)
class Change:
    """What was done by one call: the requests that do it, and those that take it back."""

    forth: tuple[Request, ...]
    back: tuple[Request, ...]

    @classmethod
    def of_one(cls, lines: bytes, inverse: bytes) -> "Change":
        """One edit and its inverse."""
        return cls((Request(lines, inverse),), (Request(inverse, lines),))


class History:
    """What was done and can be undone, and what was undone and can be done again."""

    def __init__(self) -> None:
        self.done: list[Change] = []
        self.to_redo: list[Change] = []

    def add(self, change: Change) -> None:
        """A new edit was made, so what was undone before can't be done again."""
        self.done.append(change)
        self.to_redo.clear()

    def join(self, first: int) -> None:
        """Makes one change of those from a number on."""
        parts = self.done[first:]
        if parts:
            forth = tuple(request for part in parts for request in part.forth)
            self.done[first:] = [Change(forth, tuple(request for part in reversed(parts) for request in part.back))]

    def last_done(self) -> tuple[Request, ...]:
        return self.done[-1].back if self.done else ()

    def last_undone(self) -> tuple[Request, ...]:
        return self.to_redo[-1].forth if self.to_redo else ()

    def undone(self) -> None:
        self.to_redo.append(self.done.pop())

    def redone(self) -> None:
        self.done.append(self.to_redo.pop())
