"""The noise in the page's circuit, as a session writes it: channels, and chances of wrong records."""

import re
from collections.abc import Callable

import stabsim
from stabsim.text import names
from stabsim.text.profile import Profile
from stabsim.text.reading import content_of

# The models of the literature, each by its name.
MODELS: dict[str, Callable[[float], stabsim.NoiseModel]] = {
    "uniform": stabsim.NoiseModel.uniform, "SD6": stabsim.NoiseModel.sd6, "SI1000": stabsim.NoiseModel.si1000, "EM3": stabsim.NoiseModel.em3,
    "code capacity": stabsim.NoiseModel.code_capacity, "phenomenological": stabsim.NoiseModel.phenomenological,
}
# What the circuit's own noise is called among them.
OWN = "own noise"
# What has noise in a line of its own, and the chance of a wrong record after the name of a measurement and its tag.
CHANNELS = (*names.NOISE, *names.IDLE)
CHANNEL = re.compile(rf"[ \t]*(?:{'|'.join(CHANNELS)})(?![A-Z0-9_])", re.IGNORECASE)
CHANCE = re.compile(rf"([ \t]*(?:{'|'.join(names.MEASUREMENTS)})(?:\[[^\]\n]*\])?)\([^)\n]*\)", re.IGNORECASE)
NOISY = re.compile(rf"^(?:{CHANNEL.pattern}|{CHANCE.pattern})", re.MULTILINE | re.IGNORECASE)


def has_noise(text: str) -> bool:
    """Whether a text has noise."""
    return NOISY.search(text) is not None


def session_of(text: str, seed: int) -> stabsim.Session:
    """A session of a text whose noise was judged, without its comments; that of others is judged by `Circuit.edit`, which takes far longer."""
    bare = "\n".join(filter(None, map(content_of, text.split("\n"))))
    return stabsim.Session(bare, seed=seed, profile=Profile(bare)) if has_noise(bare) else stabsim.Circuit(bare).edit(seed=seed)


def model_of(name: str, chance: float) -> stabsim.NoiseModel:
    """A model of the literature by its name; ValueError if there is none."""
    if name not in MODELS:
        raise ValueError(f"there is no model {name}")
    return MODELS[name](chance)


def quiet(text: str) -> str:
    """A text without its noise."""
    lines = (line for line in text.split("\n") if not CHANNEL.match(line))
    return "\n".join(CHANCE.sub(r"\1", line, count=1) if "(" in line else line for line in lines) if has_noise(text) else text
