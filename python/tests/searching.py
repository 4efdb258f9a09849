"""The fewest errors that flip an observable and together no detector, found the slow way: each is a set of what it flips."""

import itertools


class Search:
    """Looks for the fewest of some errors, given by what they flip, where observables are counted on after this many detectors."""

    def __init__(self, errors, detectors):
        self.detectors = detectors
        self.errors = list(dict.fromkeys(map(frozenset, errors)))
        self.touching = {}
        self.by_detectors = {}
        for flips in self.errors:
            self.by_detectors.setdefault(self.seen(flips), []).append(flips)
            for detector in self.seen(flips):
                self.touching.setdefault(detector, []).append(flips)

    @classmethod
    def of_model(cls, model):
        return cls((model.flipped(number).tolist() for number in range(len(model))), model.num_detectors)

    def seen(self, flips):
        return frozenset(it for it in flips if it < self.detectors)

    def distance(self):
        return len(self.least())

    def least(self, most=None):
        """Such a set: one of it flips an observable, and with each such it is tried whether no more, one more .. make one. None if there
        is none, or none of at most this many."""
        if not self.is_there_any():
            return None
        first = [flips for flips in self.errors if flips != self.seen(flips)]
        for size in itertools.count(1) if most is None else range(1, most + 1):
            for flips in first:
                others = self.hiding(flips, size - 1)
                if others is not None:
                    return [flips, *others]
        return None

    def is_there_any(self):
        """Whether any errors at all flip an observable and no detector: by elimination of detectors."""
        rows = {}
        for flips in self.errors:
            left = set(flips)
            while left and min(left) in rows:
                left ^= rows[min(left)]
            if left:
                rows[min(left)] = left
        return any(detector >= self.detectors for detector in rows)

    def hiding(self, flips, more):
        """This many more errors that flip all detectors back, and not the observables, or None."""
        seen = self.seen(flips)
        if more == 0 or not seen:
            return None if seen or not flips else []
        if more == 1:
            return next(([last] for last in self.by_detectors.get(seen, []) if flips != last), None)
        # Some error has to flip back each detector: that is tried of one that few of them flip.
        rare = min(seen, key=lambda detector: len(self.touching[detector]))
        for other in self.touching[rare]:
            others = self.hiding(flips ^ other, more - 1)
            if others is not None:
                return [other, *others]
        return None
