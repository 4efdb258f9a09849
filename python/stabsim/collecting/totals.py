"""Counts of several files together."""

import pathlib
from os import PathLike

from stabsim import checking
from stabsim.collecting.ledger import Row, counted_of, last_metadata, rows_of
from stabsim.collecting.sums import Sums
from stabsim.errors import OtherExperiment

# A line of a file: which shots of which seed it counts.
Shots = tuple[int, int, int]


def combine(*paths: str | PathLike[str]) -> list[Sums]:
    """The counts of files of `collect` together: the sums of each name and decoder, in the order of these.

    Files may have different models, and other seeds of the same. A line that two files have is counted once, and of metadata the last
    is taken. Raises stabsim.OtherExperiment if one name is of two error models, or if counts of the same shots differ.

    >>> import stabsim, tempfile
    >>> head = "name,decoder,model,seed,first_shot,shots,errors,seconds,discards,metadata"
    >>> with tempfile.NamedTemporaryFile("w") as one, tempfile.NamedTemporaryFile("w") as other:
    ...     print(head, "d=3,matching,a1,5,0,1024,7,0.5,0,", sep="\\n", file=one, flush=True)
    ...     print(head, "d=3,matching,a1,6,0,1024,9,0.5,0,", sep="\\n", file=other, flush=True)
    ...     for sums in stabsim.combine(one.name, other.name, one.name):
    ...         print(sums.name, sums.shots, sums.errors, sums.seed)
    d=3 2048 16 None
    """
    lines: dict[tuple[str, str], dict[Shots, Row]] = {}
    for path in paths:
        if isinstance(path, (list, tuple)):
            raise TypeError(f"path is {checking.shown(path)}: give files one by one, as combine('a.csv', 'b.csv')")
        checking.file_name("path", path)
        data = pathlib.Path(path).read_bytes()
        for row in rows_of(data[: data.rfind(b"\n") + 1], path):
            add_row(lines.setdefault((row["name"], row["decoder"]), {}), row, path)
    return [sums_of(list(lines[key].values())) for key in sorted(lines)]


def add_row(lines: dict[Shots, Row], row: Row, path: str | PathLike[str]) -> None:
    """Adds a line to those of its name, unless it is there."""
    part = counted_of(row)
    shots = (int(row["seed"]), part.first_shot, part.first_shot + part.shots)
    if any(known["model"] != row["model"] for known in list(lines.values())[:1]):
        raise OtherExperiment(f"{path} counts another error model by the name {row['name']}")
    same = lines.get(shots)
    if same and (same["errors"], counted_of(same).discards) != (row["errors"], part.discards):
        raise OtherExperiment(f"{path} has other counts of the same shots of {row['name']}")
    lines.setdefault(shots, row)


def sums_of(rows: list[Row]) -> Sums:
    """The sums of the lines of one name, whose shots must not overlap."""
    seeds = {int(row["seed"]) for row in rows}
    first = rows[0]
    sums = Sums(first["name"], decoder=first["decoder"], seed=seeds.pop() if len(seeds) == 1 else None, metadata=last_metadata(rows))
    seed, end = -1, 0
    for row in sorted(rows, key=lambda row: (int(row["seed"]), int(row["first_shot"]))):
        part = counted_of(row)
        if int(row["seed"]) == seed and part.first_shot < end:
            raise OtherExperiment(f"the shots from {part.first_shot} to {end} of {first['name']} are counted twice, in parts that differ")
        seed, end = int(row["seed"]), part.first_shot + part.shots
        sums.shots += part.shots
        sums.errors += part.errors
        sums.discards += part.discards
        sums.seconds += part.seconds
    return sums
