"""An edit in several places as several changes, one after another, each of a circuit that is the one after the change before it.

Blocks that were split, or are one again, are a change of their own: of the texts before and after the edit one has more blocks, of as many
rounds in all, and a text between them has the lines of the other in these.
"""

import itertools
from collections.abc import Sequence

from stabsim.noise.changed_lines import Change, Run, change_of
from stabsim.noise.known_lines import RECORDS, ROUNDS, Around, KnownLines
from stabsim.noise.line_facts import DECLARING

# How many marks there are between changes of one list that are made one after another: the errors of fewer are asked for again.
MARKS_BETWEEN = 2000
Blocks = Sequence[Around]


def changes_apart(change: Change) -> list[Change]:
    """The changes of an edit: itself, if it is not seen to be several."""
    between = text_between(change)
    if between is None:
        return one_after_another(change) if change.runs else [change]
    if between in (change.before.text, change.after.text):
        return [change]
    first = changes_apart(change_of(change.before, between))
    return [*first, *changes_apart(change_of(first[-1].after, change.after.text))]


# Blocks that are split.


def blocks_of(change: Change) -> tuple[Blocks, Blocks]:
    """The blocks that a change is in or begins or ends in, in the list that has all of it: before it, and after it."""
    before, after, first = change.before, change.after, change.first
    level = min(before.depths[first : change.old_end + 1].min(), after.depths[first : change.new_end + 1].min())
    ends = (before, change.old_end), (after, change.new_end)
    old, new = ([it for it in known.blocks if known.depths[it.begin] == level and it.begin < end and it.end >= first] for known, end in ends)
    return old, new


def groups_of(change: Change) -> list[tuple[Blocks, Blocks]]:
    """The same blocks, of which those before and after the change that have the same rounds are together; empty if there are none, or if it is
    not on one side alone that they are split."""
    old, new = blocks_of(change)
    ends, ends_after = (list(itertools.accumulate(it.rounds for it in its)) for its in (old, new))
    coarse, fine = sorted((set(ends), set(ends_after)), key=len)
    if ends == ends_after or not coarse <= fine or ends[-1:] != ends_after[-1:]:
        return []
    cuts = [[its.index(end) + 1 for end in sorted(coarse)] for its in (ends, ends_after)]
    return [(old[at:to], new[again:until]) for (at, to), (again, until) in zip(*(itertools.pairwise([0, *its]) for its in cuts))]


def text_between(change: Change) -> str | None:
    """The text in which blocks that the change splits, or makes one, are split, with all other lines as they are where they are one; None
    if it does not."""
    groups = groups_of(change)
    if not groups:
        return None
    if sum(len(new) - len(old) for old, new in groups) > 0:
        return split_text(change.before, change.after, groups)
    return split_text(change.after, change.before, [(new, old) for old, new in groups])


def split_text(known: KnownLines, other: KnownLines, groups: Sequence[tuple[Blocks, Blocks]]) -> str:
    """A text in which each block is split as another text has it."""
    lines, done = list[str](), 0
    for [block], others in groups:
        inside = known.lines[block.begin + 1 : block.end + 1]
        lines += known.lines[done : block.begin]
        lines += itertools.chain.from_iterable([other.lines[it.begin], *inside] for it in others)
        done = block.end + 1
    return "\n".join([*lines, *known.lines[done:]])


def one_after_another(change: Change) -> list[Change]:
    """The changes of runs of lines, of which those are together that are near one another, or of records and of what names these."""
    groups = [[change.runs[0]]]
    for run in change.runs[1:]:
        if is_of_last(change, groups[-1], run):
            groups[-1].append(run)
        else:
            groups.append([run])
    found, before = list[Change](), change.before
    for group in groups:
        new, end = group[0].new.start, group[-1].new.stop
        gone, lines = group[-1].old.stop - group[0].old.start, change.after.lines[new:end]
        after = change.after if group is groups[-1] else before.edited(None, new, gone, lines)
        found.append(Change(new, before.lines[new : new + gone], lines, before, after))
        before = after
    return found


def is_of_last(change: Change, group: Sequence[Run], run: Run) -> bool:
    """Whether a run is made with those before it."""
    known, last, first = change.before, group[-1].old.stop, run.old.start
    if run.stay and all(it.stay for it in group) or makes_records(change, group) and is_declared(change, run):
        return True
    if known.facts[last:first, ROUNDS].any():
        return False
    return bool(known.depths[first] > 0) or known.counts(last, first).marks < MARKS_BETWEEN


def makes_records(change: Change, group: Sequence[Run]) -> bool:
    """Whether there are more records after some runs, or less, than there were."""
    first, last = group[0], group[-1]
    old, new = change.before.facts[first.old.start : last.old.stop], change.after.facts[first.new.start : last.new.stop]
    return bool(old[:, RECORDS].sum() != new[:, RECORDS].sum())


def is_declared(change: Change, run: Run) -> bool:
    """Whether a run is of detectors and observables alone."""
    lines = [*change.before.lines[run.old.start : run.old.stop], *change.after.lines[run.new.start : run.new.stop]]
    return all(line.lstrip().startswith(DECLARING) for line in lines)
