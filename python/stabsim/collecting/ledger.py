"""The file in which counts are kept, so that a later call goes on from it."""

import csv
import fcntl
import io
import json
import os
from collections.abc import Iterable, Mapping
from dataclasses import dataclass
from os import PathLike
from typing import Any

from stabsim.collecting.counting import Counted
from stabsim.errors import OtherExperiment

FIELDS = ("name", "decoder", "model", "seed", "first_shot", "shots", "errors", "seconds", "discards", "metadata")
# What a file has that was begun before shots were left out and metadata kept; counting goes on with it.
SHORT_FIELDS = FIELDS[:8]
# What a file of counts began with before decoders had names.
OLDER = "name,model,seed,first_shot,shots,errors,seconds\n"

Row = dict[str, str]


@dataclass(frozen=True)
class Key:
    """What parts are kept by: the name of the model and that of the decoder, the model's fingerprint, and the seed of its shots."""

    name: str
    decoder: str
    model: str
    seed: int


class Ledger:
    """A file of lines, one for each part that was counted, with its key.

    A line that has no end was being written when its process was killed: it counts for nothing, and is cut off. One process at a time
    has the file.
    """

    def __init__(self, path: str | PathLike[str]) -> None:
        self.path = path
        self.file = open(path, "a+b", buffering=0)
        try:
            self.open()
        except BaseException:
            self.file.close()
            raise

    def open(self) -> None:
        """Takes the file for this process alone, and reads what it has."""
        try:
            fcntl.flock(self.file, fcntl.LOCK_EX | fcntl.LOCK_NB)
        except OSError:
            raise OtherExperiment(f"another process writes to {os.fspath(self.path)}") from None
        self.file.seek(0)
        kept = self.file.read()
        whole = kept[: kept.rfind(b"\n") + 1]
        self.file.truncate(len(whole))
        self.rows = rows_of(whole, self.path)
        self.fields = SHORT_FIELDS if whole and "metadata" not in whole.decode().split("\n")[0] else FIELDS
        if not whole:
            self.write(FIELDS)

    def close(self) -> None:
        """Lets others have the file."""
        self.file.close()

    def write(self, row: tuple[object, ...]) -> None:
        """One line, in one write."""
        line = io.StringIO(newline="")
        csv.writer(line, lineterminator="\n").writerow(row)
        self.file.write(line.getvalue().encode())

    def add(self, key: Key, counted: Counted, metadata: Mapping[str, Any]) -> None:
        """Keeps a part."""
        numbers = (counted.first_shot, counted.shots, counted.errors, f"{counted.seconds:.6f}")
        more = (counted.discards, json.dumps(metadata, sort_keys=True) if metadata else "")
        self.write((key.name, key.decoder, key.model, key.seed, *numbers, *(more if self.fields == FIELDS else ())))

    def expect(self, has_more: bool) -> None:
        """Refuses a file of fewer columns if there is something for the others."""
        if has_more and self.fields != FIELDS:
            raise OtherExperiment(f"{os.fspath(self.path)} was begun by a version that kept no metadata and left out no shots: count anew into "
                                  "another file")

    def parts_of(self, key: Key) -> list[Counted]:
        """The parts of a key that the file has, in the order of their shots. Other decoders' parts do not matter."""
        found = []
        for row in self.rows:
            if (row["name"], row["decoder"]) != (key.name, key.decoder):
                continue
            if (row["model"], row["seed"]) != (key.model, str(key.seed)):
                raise OtherExperiment(f"{os.fspath(self.path)} counts another error model or another seed by the name {key.name}")
            found.append(counted_of(row))
        return sorted(found, key=lambda part: part.first_shot)

    def metadata_of(self, key: Key) -> dict[str, Any]:
        """What the last line of a key that says something of its model says."""
        return last_metadata(row for row in self.rows if (row["name"], row["decoder"]) == (key.name, key.decoder))


def rows_of(data: bytes, path: str | PathLike[str]) -> list[Row]:
    """The lines of a file, those of an empty one too."""
    text = data.decode("utf-8", "surrogateescape")
    if not text:
        return []
    if text.startswith(OLDER):
        raise OtherExperiment(f"{os.fspath(path)} was written by an older version, without the name of the decoder and with the same "
                              "seed for all models: keep it as it is, and count anew into another file")
    rows = list(csv.DictReader(io.StringIO(text, newline="")))
    head = text.split("\n", 1)[0]
    if head not in (",".join(FIELDS), ",".join(SHORT_FIELDS)) or any(set(row) != set(head.split(",")) for row in rows):
        raise OtherExperiment(f"{os.fspath(path)} is no file of counts")
    return rows


def counted_of(row: Row) -> Counted:
    """The part that a line keeps."""
    return Counted(row["name"], int(row["first_shot"]), int(row["shots"]), int(row["errors"]), float(row["seconds"]),
                   int(row.get("discards") or 0))


def last_metadata(rows: Iterable[Row]) -> dict[str, Any]:
    """What the last of some lines that says something of its model says."""
    said = [row["metadata"] for row in rows if row.get("metadata")]
    found: dict[str, Any] = json.loads(said[-1]) if said else {}
    return found
