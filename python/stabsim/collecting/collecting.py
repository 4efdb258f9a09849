"""The threshold experiment: logical errors of many error models, counted on as many cores as an executor has."""

import hashlib
import json
import uuid
from collections import deque
from collections.abc import Callable, Iterator, Mapping
from concurrent.futures import Executor, ThreadPoolExecutor
from dataclasses import replace
from os import PathLike
from types import TracebackType
from typing import Any

import numpy as np
from numpy.typing import ArrayLike, NDArray

from stabsim import checking
from stabsim.collecting.counting import Counted, Decoder, Load, Part, held
from stabsim.collecting.ledger import Key, Ledger
from stabsim.collecting.progress import Progress
from stabsim.collecting.sending import Sending
from stabsim.collecting.sums import Sums
from stabsim.noise.models import ErrorModel

Mask = NDArray[np.bool_]
Postselect = Mapping[str, ArrayLike] | Callable[[ErrorModel], ArrayLike]
Path = str | PathLike[str]


class Work:
    """One model's parts: those that are counted, those that came before one in front of them, and the next to be asked for.

    Parts are counted in the order of their shots, whoever is first, so that the sums are the same whatever the workers do.
    """

    def __init__(self, key: Key, shots: int | None, errors: int | None, metadata: Mapping[str, Any]) -> None:
        self.key = key
        self.sums = Sums(key.name, decoder=key.decoder, seed=key.seed, metadata=metadata)
        self.shots = shots
        self.errors = errors
        self.next_shot = 0
        self.early: dict[int, Counted] = {}

    def go_on(self, ledger: Ledger) -> None:
        """Counts what a file has, whose metadata stays if no other is given."""
        for part in ledger.parts_of(self.key):
            self.sums.add(part)
        self.sums.metadata = self.sums.metadata or ledger.metadata_of(self.key)
        self.next_shot = self.sums.shots

    def is_done(self) -> bool:
        """Enough shots or errors are counted."""
        return self.shots is not None and self.sums.shots >= self.shots or self.errors is not None and self.sums.errors >= self.errors

    def has_more(self) -> bool:
        """A part is left to be asked for."""
        return not self.is_done() and (self.shots is None or self.next_shot < self.shots)

    def take_shots(self, size: int) -> tuple[int, int]:
        """The first shot of the next part, and how many it has."""
        first = self.next_shot
        # After a part that was cut short the next ends where one of these always does, so that blocks of shots are not drawn twice.
        end = first - first % size + size
        self.next_shot = end if self.shots is None else min(end, self.shots)
        return first, self.next_shot - first

    def came(self, part: Counted) -> Iterator[Counted]:
        """Counts a part, and those that follow it but came earlier, as far as they are wanted."""
        self.early[part.first_shot] = part
        while not self.is_done() and self.sums.shots in self.early:
            counted = self.early.pop(self.sums.shots)
            self.sums.add(counted)
            yield counted


class Collection(Iterator[Sums]):
    """Counting that is under way: an iterator over the sums of a model, each time that more are counted, at last those of each model
    whole. Its end, that of a `with` block, and `close` end the counting; what is in the file stays there.

    >>> import stabsim
    >>> model = stabsim.ErrorModel.from_dem("error(0.5) D0 L0")
    >>> with stabsim.collect({"coin": model}, ("copy", lambda model: lambda detectors: detectors), shots=100_000, seed=1) as counting:
    ...     print(next(counting).errors)
    0
    """

    def __init__(self, works: dict[str, Work], loads: dict[str, Load], size: int, executor: Executor | None, save: Path | None,
                 waiting: int) -> None:
        self.works = works
        self.experiment = uuid.uuid4().hex
        self.ready: deque[Sums] = deque()
        self.progress = Progress(len(works))
        self.own: ThreadPoolExecutor | None = None
        self.ledger: Ledger | None = None
        if executor is None:
            executor, waiting = ThreadPoolExecutor(1), 2
            self.own = executor
        self.sending = Sending(executor, loads, waiting)
        try:
            if save is not None:
                self.ledger = Ledger(save)
                self.ledger.expect(any(work.sums.metadata for work in works.values()) or any(load.postselect is not None for load in loads.values()))
                for work in works.values():
                    work.go_on(self.ledger)
            self.ready.extend(replace(work.sums) for work in works.values() if work.is_done())
            self.parts = parts_of(works, size, self.experiment)
            self.sending.fill(self.parts)
        except BaseException:
            self.close()
            raise

    def __next__(self) -> Sums:
        try:
            while not self.ready:
                if not self.sending.running or all(work.is_done() for work in self.works.values()):
                    raise StopIteration
                self.count(self.sending.take())
                self.sending.fill(self.parts)
            return self.ready.popleft()
        except BaseException:
            self.close()
            raise

    def count(self, parts: list[Counted]) -> None:
        """Counts parts, and keeps them in the file."""
        for counted in parts:
            work = self.works[counted.name]
            for part in work.came(counted):
                if self.ledger:
                    self.ledger.add(work.key, part, work.sums.metadata)
                self.ready.append(replace(work.sums))
        self.progress.tell(sum(work.is_done() for work in self.works.values()), [work.sums for work in self.works.values()])

    def close(self) -> None:
        """Ends the counting: no more is sent, the file is closed, and nothing more is yielded."""
        self.ready.clear()
        self.sending.cancel()
        if self.own:
            self.own.shutdown(wait=False, cancel_futures=True)
        if self.ledger:
            self.ledger.close()
        self.progress.close()
        held.drop(self.experiment)

    def __enter__(self) -> "Collection":
        return self

    def __exit__(self, kind: type[BaseException] | None, fault: BaseException | None, trace: TracebackType | None) -> None:
        self.close()

    def __del__(self) -> None:
        # Without a sending nothing was begun.
        if "sending" in vars(self):
            self.close()


def collect(models: Mapping[str, ErrorModel], decoder: Decoder | tuple[str, Decoder], *, shots: int | None = None,
            errors: int | None = None, seed: int, executor: Executor | None = None, save: Path | None = None, part_shots: int = 8192,
            waiting: int = 64, metadata: Mapping[str, Mapping[str, Any]] | None = None, postselect: Postselect | None = None) -> Collection:
    """Counts logical errors of each model until it has this many shots or this many errors, whichever is first. It starts at once.

    models: error models by name. decoder: a function of a model that gives a function from detectors, a bool array
    (shots, detectors), to predicted observables, an array (shots, observables); with an executor of processes both are sent there,
    once to each. A decoder has a name: its module's and its own, or the one that is given, as ("name", function).
    seed: of all shots; each model has a seed of its own by this and its name. executor: of concurrent.futures; without it a thread
    of its own counts. save: a file of counts, from which counting goes on if it is there: by the names of model and decoder.
    part_shots: how many shots a part has; it ends at a multiple of this, and 1,024 shots are drawn at a time. waiting: how many parts
    may be with the executor at once. metadata: what is to be kept of a model, by its name, as JSON has it; without it the file's.
    postselect: by the name of a model, or as a function of it, a bool array (detectors,): shots in which one of these detectors is
    flipped are discarded.

    Yields the sums of a model as they are counted, at last those of each model whole; `Collection` says how it ends. They depend on
    models, decoder, seed, shots, errors, part_shots and postselect alone, except for the seconds. With tqdm a line on standard error says
    how far it is if that is a terminal. Raises stabsim.OtherExperiment if the file counts something else by one of the names; what a
    decoder raises comes through, with a note that names the model.

    >>> import numpy, stabsim
    >>> models = {f"p={p}": stabsim.ErrorModel.from_dem(f"error({p}) D0 L0\\nerror({p}) L0") for p in (0.25, 0.5)}
    >>> counting = stabsim.collect(models, ("copy", lambda model: lambda detectors: detectors), shots=1000, seed=5)
    >>> for name, sums in {it.name: it for it in counting}.items():
    ...     print(name, sums.shots, sums.rate().low < float(name[2:]) < sums.rate().high)
    p=0.25 1000 True
    p=0.5 1000 True
    """
    check(models, shots, errors, seed, part_shots, waiting)
    if executor is not None:
        checking.of_kind("executor", executor, Executor, "one of concurrent.futures, as ThreadPoolExecutor()")
    if save is not None:
        checking.file_name("save", save)
    if not (metadata is None or isinstance(metadata, Mapping)):
        raise TypeError(f"metadata is {checking.shown(metadata)}: give what is to be kept by the names of models, as {{'d=3': {{'d': 3}}}}")
    if not (postselect is None or callable(postselect) or isinstance(postselect, Mapping)):
        raise TypeError(f"postselect is {checking.shown(postselect)}: give bool arrays by the names of models, as {{'d=3': mask}}, or a function")
    decoder_name, function = named(decoder)
    said = metadata_of(models, metadata or {})
    masks = {name: mask_of(name, model, postselect) for name, model in models.items()}
    works = {name: Work(Key(name, decoder_name, fingerprint_of(model, masks[name]), seed_of(name, seed)), shots, errors, said[name])
             for name, model in models.items()}
    # No decoder asks what makes its mechanisms.
    loads = {name: Load(replace(model, causes=None), function, masks[name]) for name, model in models.items()}
    return Collection(works, loads, part_shots, executor, save, waiting)


def check(models: Mapping[str, ErrorModel], shots: int | None, errors: int | None, seed: int, part_shots: int, waiting: int) -> None:
    """Raises TypeError or ValueError if something can't be counted."""
    if not isinstance(models, Mapping) or not all(isinstance(name, str) and isinstance(model, ErrorModel) for name, model in models.items()):
        raise TypeError("models are error models by name, as {'d=3': stabsim.error_model(text)}")
    if shots is None and errors is None:
        raise ValueError("say how many shots or how many errors are enough")
    for name, number, least in (("shots", shots, 0), ("errors", errors, 1), ("part_shots", part_shots, 1), ("waiting", waiting, 1)):
        if number is not None:
            checking.whole(name, number, least)
    checking.whole("seed", seed)


def named(decoder: Decoder | tuple[str, Decoder]) -> tuple[str, Decoder]:
    """A decoder with its name: what was given, or that of its module and its own, if it can be found by these."""
    if isinstance(decoder, tuple):
        if len(decoder) != 2 or not isinstance(decoder[0], str) or not callable(decoder[1]):
            raise TypeError('a decoder is a function of a model, or ("name", function)')
        return decoder
    if not callable(decoder):
        raise TypeError('a decoder is a function of a model, or ("name", function)')
    module, name = getattr(decoder, "__module__", None), getattr(decoder, "__qualname__", "<")
    if module is None or "<" in name or hasattr(decoder, "__self__"):
        raise ValueError('this decoder has no name of its own, as a lambda has none: name it, as ("name", function)')
    return f"{module}.{name}", decoder


def metadata_of(models: Mapping[str, ErrorModel], metadata: Mapping[str, Mapping[str, Any]]) -> dict[str, dict[str, Any]]:
    """What is kept of each model, as it is read again from a file."""
    unknown = set(metadata) - set(models)
    if unknown:
        raise ValueError(f"there is metadata of {min(unknown)}, and no model of this name")
    try:
        return {name: json.loads(json.dumps(dict(metadata.get(name, {})))) for name in models}
    except (TypeError, ValueError) as fault:
        raise TypeError(f"metadata is kept as JSON: {fault}") from None


def mask_of(name: str, model: ErrorModel, postselect: Postselect | None) -> Mask | None:
    """The detectors of a model of which none may be flipped, bool (detectors,); None if there are none."""
    given = postselect(model) if callable(postselect) else (postselect or {}).get(name)
    if given is None:
        return None
    mask = np.asarray(given)
    if mask.dtype != np.bool_ or mask.shape != (model.num_detectors,):
        raise ValueError(f"postselect of {name} is a bool array ({model.num_detectors},), and not {mask.dtype} {mask.shape}")
    return mask if mask.any() else None


def fingerprint_of(model: ErrorModel, mask: Mask | None) -> str:
    """The same for counts of the same mechanisms, parts and postselection."""
    if mask is None:
        return model.fingerprint
    return hashlib.sha256(model.fingerprint.encode() + np.packbits(mask).tobytes()).hexdigest()[:16]


def seed_of(name: str, seed: int) -> int:
    """The seed of the shots of a model of this name, in 0..2**64: models of other names draw other shots."""
    return int.from_bytes(hashlib.sha256(f"{seed} {name}".encode()).digest()[:8], "little")


def parts_of(works: dict[str, Work], size: int, experiment: str) -> Iterator[Part]:
    """The parts that are to be counted: one of each model in turn, while it has more."""
    while left := [work for work in works.values() if work.has_more()]:
        for work in left:
            if work.has_more():
                yield Part(experiment, work.key.name, work.key.seed, *work.take_shots(size))
