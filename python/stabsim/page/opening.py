"""Circuits as the page opens them: from a file, from a text that was dropped or pasted, or from a link."""

import base64
import binascii
import functools
import itertools
import operator
import pathlib
import zlib
from collections.abc import Iterator
from dataclasses import dataclass

import stabsim
from stabsim import program
from stabsim.page.as_written import Given
from stabsim.text.profile import Copy

# What a circuit is called that came from nowhere.
UNNAMED = "circuit.stim"
# What a link has in front of the circuit, packed as by `packed`.
LINK = "#circuit="
# The longest text that a link may hold, in bytes: a short link can unpack to any length.
MOST_BYTES = 1 << 25


class BadLink(ValueError):
    """A link that holds no circuit."""


@dataclass(frozen=True)
class Opened:
    """A circuit's text that a session reads, its name, and what became of lines that were given, if they are others now.

    rewritten: notes, one for each line that became others; read: the text as it was given, if a session reads others in the place of some of
    its lines.
    """

    text: str
    name: str = UNNAMED
    rewritten: tuple[str, ...] = ()
    read: Given | None = None

    @functools.cached_property
    def given(self) -> Given:
        """The text as it was given."""
        return self.read or Given.of_read(self.text)

    @property
    def notice(self) -> str:
        """What became of them all, in one line, or nothing."""
        count = len(self.rewritten)
        return "" if not count else "1 line is rewritten." if count == 1 else f"{count:,} lines are rewritten."


def opened(given: str, name: str = UNNAMED) -> Opened:
    """A text of Stim's as a circuit that a session reads, with its noise. A refusal names the line that was given."""
    read = stabsim.from_stim(given)
    if read.circuit is read:
        # The program reads it as it is.
        return Opened(given, name)
    copy = read.profile.noisy
    assert isinstance(copy, Copy), "the program does not read it as it is"
    return Opened(copy.text, name, tuple(rewritten_of(read.text, copy)), Given(read.text, copy))


def with_noise(given: str, model: stabsim.NoiseModel | None, name: str = UNNAMED) -> Opened:
    """A text with the noise of a model, or with none, in the place of its own."""
    bare = stabsim.without_noise(given)
    return opened(model.on(bare).text if model else bare, name)


def rewritten_of(text: str, copy: Copy) -> Iterator[str]:
    """What lines of a text became that are read otherwise."""
    given = text.split("\n")
    for origin, lines in itertools.groupby(zip(copy.origins, copy.lines), key=operator.itemgetter(0)):
        before, after = given[origin - 1].strip(), [line.strip() for _, line in lines]
        if after != [before]:
            yield f"line {origin}: {before} is {'; '.join(after)}"


def opened_of(source: str | None) -> Opened:
    """What a command line names: a file, a link that holds a circuit, or nothing, which is an empty circuit."""
    if source is None:
        return Opened("")
    if LINK in source:
        return opened(unpacked(source.partition(LINK)[2]))
    file = pathlib.Path(source)
    return opened(program.text_of(file.read_bytes()), file.name)


def packed(text: str) -> str:
    """A text as a link holds it: deflated, in the letters of base64 for addresses, without padding."""
    squeezed = zlib.compress(text.encode(), level=9, wbits=-zlib.MAX_WBITS)
    return base64.urlsafe_b64encode(squeezed).decode().rstrip("=")


def unpacked(letters: str) -> str:
    """The text that `packed` made letters of; raises BadLink if they are not."""
    letters = letters.partition("&")[0]
    unpacking = zlib.decompressobj(-zlib.MAX_WBITS)
    try:
        text = unpacking.decompress(base64.b64decode(letters + "=" * (-len(letters) % 4), altchars=b"-_", validate=True), MOST_BYTES)
        if not unpacking.eof:
            raise BadLink("the link's circuit is cut off, or too long")
        return text.decode()
    except (binascii.Error, zlib.error, UnicodeDecodeError):
        raise BadLink("the link holds no circuit") from None
