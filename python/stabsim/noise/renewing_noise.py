"""An error model after a change by which all regions stay: the program is asked what the errors of the lines that are others flip."""

from collections.abc import Sequence
from typing import TYPE_CHECKING

import numpy as np

from stabsim.formats.combining import Numbers
from stabsim.noise.causes import Causes, Sources
from stabsim.noise.changed_lines import Change, Run
from stabsim.noise.flipped import Flipped
from stabsim.noise.pieces import Piece
from stabsim.noise.renewal import NONE, Renewal
from stabsim.noise.sourced import rows_of_errors
from stabsim.text.reading import Line

if TYPE_CHECKING:
    from stabsim.noise.models import ErrorModel


def renewed_noise(model: "ErrorModel", causes: Causes, change: Change, sure_only: bool) -> "ErrorModel | None":
    """The model of a text, from that of the text before a change; None if something changed that has a part in regions, or blocks did."""
    runs = change.runs
    if not runs or not all(run.stay for run in runs):
        return None
    bounds = np.searchsorted(causes.sources.lines, [(old.start + 1, old.stop + 1) for old, _, _ in runs])
    piece = Piece.of(change.after, 0, len(change.after.lines), 0, noisy=np.concatenate([np.arange(new.start, new.stop) for _, new, _ in runs]))
    added = Sources.of(piece.sources)
    places = np.searchsorted(added.lines, [(new.start + 1, new.stop + 1) for _, new, _ in runs])
    sources, own = causes.sources, [added.some(*its) for its in places.tolist()]
    for (begin, end), its, (old, new, _) in zip(bounds.tolist(), own, runs):
        more = len(sources.its) - len(causes.sources.its)
        sources = sources.edited(begin + more, end + more, its, len(new) - len(old))
    parts = np.split(causes.mechanisms.astype(np.int64), causes.sources.firsts[bounds.ravel()])
    gone = np.concatenate(parts[1::2])
    renewal: Renewal | None
    if are_alike(change, runs) and all(causes.sources.are_like(begin, end, its) for (begin, end), its in zip(bounds.tolist(), own)):
        renewal = Renewal(model, gone, NONE, NONE, NONE)
    else:
        renewal = Renewal.of_rows(model, *rows_of_sources(piece, model, sure_only))
    if renewal is None:
        return None
    parts[1::2] = np.split(renewal.mechanisms, np.cumsum([its.firsts[-1] for its in own])[:-1])
    return renewal.model_of(np.concatenate(parts), gone, sources, change.after)


def are_alike(change: Change, runs: Sequence[Run]) -> bool:
    """Whether lines differ in chances alone."""
    before, after = change.before.lines, change.after.lines
    return all(list(map(without_arguments, before[old.start : old.stop])) == list(map(without_arguments, after[new.start : new.stop]))
               for old, new, _ in runs)


def without_arguments(line: str) -> str:
    """A line without its chances."""
    return Line(0, line, "").without_arguments()


def rows_of_sources(piece: Piece, model: "ErrorModel", sure_only: bool) -> tuple[Numbers, Numbers]:
    """What the errors of the lines that are others flip, as a CSR matrix, of the program."""
    if not piece.sources:
        return np.zeros(1, dtype=np.int64), NONE
    flipped = Flipped.of([piece.text], model.num_detectors, model.num_observables, sure_only)
    return rows_of_errors([(source, np.arange(source.times())) for source in piece.sources], flipped)
