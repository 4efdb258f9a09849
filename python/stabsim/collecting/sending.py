"""Parts with an executor, and models sent to the workers without them."""

from collections.abc import Iterator, Mapping
from concurrent.futures import FIRST_COMPLETED, Executor, Future, wait

from stabsim.collecting.counting import Counted, Load, Missing, Part, count


class Sending:
    """Parts that are with an executor.

    A part goes without its model, except the first of each model. A worker without the model answers with just that, and the part
    is sent again: with the model, unless one is on its way to this worker. An executor doesn't say which worker takes a part: if
    another one took the model, the worker asks again.
    """

    def __init__(self, executor: Executor, loads: Mapping[str, Load], most: int) -> None:
        self.executor = executor
        self.loads = loads
        self.most = most
        self.running: set[Future[Counted | Missing]] = set()
        # Parts that have their models with them, each with the names of the model and of the worker that it is meant for.
        self.loaded: dict[Future[Counted | Missing], tuple[str, str]] = {}

    def fill(self, parts: Iterator[Part]) -> None:
        """Sends parts as long as there is room. A part is taken only then, since one that was counted may have been enough."""
        while len(self.running) < self.most:
            part = next(parts, None)
            if part is None:
                return
            self.send(part, "any" if part.first_shot == 0 else None)

    def send(self, part: Part, worker: str | None) -> None:
        """Sends a part, with its model if a worker is named that needs it."""
        future = self.executor.submit(count, part, None if worker is None else self.loads[part.name])
        self.running.add(future)
        if worker is not None:
            self.loaded[future] = (part.name, worker)

    def take(self) -> list[Counted]:
        """Waits until some part is done: those that are counted."""
        done, self.running = wait(self.running, return_when=FIRST_COMPLETED)
        counted = []
        for future in done:
            self.loaded.pop(future, None)
            result = future.result()
            if isinstance(result, Missing):
                is_on_its_way = (result.part.name, result.worker) in self.loaded.values()
                self.send(result.part, None if is_on_its_way else result.worker)
            else:
                counted.append(result)
        return counted

    def cancel(self) -> None:
        """Takes back what no worker has begun."""
        for future in self.running:
            future.cancel()
        self.running = set()
