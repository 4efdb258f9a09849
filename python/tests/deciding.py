"""Decoders for tests, which workers in other processes import."""

import time

import numpy as np


def nothing(model):
    """Predicts that no observable is flipped."""
    return lambda detectors: np.zeros((len(detectors), model.num_observables), dtype=bool)


def same(model):
    """Predicts detectors in place of observables."""
    return lambda detectors: detectors


class Nothing:
    """The same, as a class whose objects decode."""

    def __init__(self, model):
        self.observables = model.num_observables

    def decode(self, detectors):
        return np.zeros((len(detectors), self.observables), dtype=bool)

    __call__ = decode


class Decoding:
    """The same, as an object that makes decoders."""

    def __call__(self, model):
        return nothing(model)


def slowly_nothing(model):
    """The same, some time later."""

    def predict(detectors):
        time.sleep(0.05)
        return np.zeros((len(detectors), model.num_observables), dtype=bool)

    return predict


def lookup(model):
    """Predicts what the likeliest single mechanism flips that has just these detectors, or nothing."""
    known = {}
    for mechanism in np.argsort(model.chances):
        flipped = model.flipped(mechanism)
        known[tuple(flipped[flipped < model.num_detectors])] = flipped[flipped >= model.num_detectors] - model.num_detectors

    def predict(detectors):
        predicted = np.zeros((len(detectors), model.num_observables), dtype=bool)
        for shot, bits in enumerate(detectors):
            predicted[shot, known.get(tuple(np.flatnonzero(bits)), [])] = True
        return predicted

    return predict


def too_few(model):
    """A decoder whose predictions have a wrong shape."""
    return lambda detectors: np.zeros(len(detectors), dtype=bool)


def raising(model):
    """A decoder that fails."""
    raise ValueError("no predictions today")
